// A plain C interpreter of the house core, straight from documents 01 and 02, to measure against: a function a format, no cleverness.
#include <string.h>

#include "rival.h"

struct machine {
    const uint32_t *program;
    size_t words;
    uint32_t *room;
    uint8_t *memory;
    size_t bytes;
    struct rival_record *record;
};

static uint32_t bits(uint32_t w, int high, int low) { return w >> low & (0xFFFFFFFFu >> (31 - (high - low))); }

static int32_t signed_bits(uint32_t w, int high, int low) {
    int width = high - low + 1;
    return (int32_t)(bits(w, high, low) << (32 - width)) >> (32 - width);
}

// A pattern's float, and a float's pattern, of which every NaN is 0x7FC00000 (document 02, T-08).
static float value(uint32_t pattern) {
    float x;
    memcpy(&x, &pattern, sizeof x);
    return x;
}

static uint32_t pattern(float x) {
    uint32_t r;
    memcpy(&r, &x, sizeof r);
    return x != x ? 0x7FC00000 : r;
}

static uint32_t binary(int op, uint32_t x, uint32_t y) {
    switch (op) {
    case 1: return x | y;
    case 2: return x & y;
    case 3: return x ^ y;
    case 4: return x + y;
    case 5: return x - y;
    case 6: return x * y;
    case 7: return (uint32_t)((int64_t)(int32_t)x * (int32_t)y >> 32);
    case 8: return (uint32_t)((uint64_t)x * y >> 32);
    case 9: return (uint32_t)((int32_t)x >> (y & 31));
    case 10: return x >> (y & 31);
    case 11: return x << (y & 31);
    case 33: return pattern(value(x) + value(y));
    case 34: return pattern(value(x) - value(y));
    case 35: return pattern(value(x) * value(y));
    default: return pattern(value(x) / value(y));
    }
}

static uint32_t unary(int op, uint32_t x) {
    switch (op) {
    case 12: return x ? (uint32_t)__builtin_clz(x) : 32;
    case 13: return x ? (uint32_t)__builtin_ctz(x) : 32;
    case 32: return x;
    case 43: return (uint32_t)(int8_t)x;
    case 44: return (uint32_t)(int16_t)x;
    case 48: return pattern((float)(int32_t)x);
    default: return value(x) >= -2147483648.0f && value(x) < 2147483648.0f ? (uint32_t)(int32_t)value(x) : 0x80000000;
    }
}

static int compare(int op, uint32_t x, uint32_t y) {
    int32_t a = (int32_t)x, b = (int32_t)y;
    switch (op) {
    case 14: return x == y;
    case 15: return x != y;
    case 16: return a > b;
    case 17: return a >= b;
    case 18: return a < b;
    case 19: return a <= b;
    case 20: return x > y;
    case 21: return x >= y;
    case 22: return x < y;
    case 23: return x <= y;
    case 37: return value(x) == value(y);
    case 38: return value(x) != value(y);
    case 39: return value(x) > value(y);
    case 40: return value(x) >= value(y);
    case 41: return value(x) < value(y);
    default: return value(x) <= value(y);
    }
}

static int is_binary(int op) { return (op >= 1 && op <= 11) || (op >= 33 && op <= 36); }
static int is_unary(int op) { return op == 12 || op == 13 || op == 32 || op == 43 || op == 44 || op == 48 || op == 49; }
static int is_compare(int op) { return (op >= 14 && op <= 23) || (op >= 37 && op <= 42); }

// What an instruction leads to: the next word, another address, an end, a meeting, or a trap.
enum next { ON, TO, END, MEETS, TRAP };

struct outcome {
    enum next next;
    uint32_t x, y;
};

static struct outcome trap(uint32_t reason) { return (struct outcome){TRAP, reason, 0}; }
static struct outcome on(void) { return (struct outcome){ON, 0, 0}; }

// Operands as lanes: a scalar counts as sixteen equal ones.
static const uint32_t *lanes(const uint32_t *s, const uint32_t *v, int vector, uint32_t i, uint32_t *space) {
    if (vector) return v + 16 * i;
    for (int j = 0; j < 16; j++) space[j] = s[i];
    return space;
}

static struct outcome operate(uint32_t *s, uint32_t *v, int op, int dv, uint32_t d, const uint32_t *a, const uint32_t *b, int scalars) {
    uint32_t mask = s[59];
    if (is_compare(op)) {
        if (scalars) {
            s[d] = (uint32_t)compare(op, a[0], b[0]);
        } else {
            uint32_t r = 0;
            for (int j = 0; j < 16; j++)
                if (mask >> j & 1 && compare(op, a[j], b[j])) r |= 1u << j;
            s[d] = r;
        }
    } else if (op == 24) {
        uint32_t r[16];
        for (int j = 0; j < 16; j++) r[j] = a[b[j] & 15];
        for (int j = 0; j < 16; j++)
            if (mask >> j & 1) v[16 * d + j] = r[j];
    } else if (op == 25) {
        s[d] = a[b[0] & 15];
    } else if (dv) {
        uint32_t r[16];
        if (is_binary(op))
            for (int j = 0; j < 16; j++) r[j] = binary(op, a[j], b[j]);
        else
            for (int j = 0; j < 16; j++) r[j] = unary(op, a[j]);
        for (int j = 0; j < 16; j++)
            if (mask >> j & 1) v[16 * d + j] = r[j];
    } else {
        s[d] = is_binary(op) ? binary(op, a[0], b[0]) : unary(op, a[0]);
    }
    return on();
}

static struct outcome do_r(uint32_t w, uint32_t *s, uint32_t *v) {
    int op = (int)bits(w, 29, 24);
    if (op == 45) return trap(6);
    if (!is_binary(op) && !is_unary(op) && !is_compare(op) && op != 24 && op != 25) return trap(3);
    if (bits(w, 4, 4)) return trap(6);
    uint32_t flags = bits(w, 3, 1), d = bits(w, 23, 18), a = bits(w, 17, 12), b = bits(w, 11, 6);
    int fine = !bits(w, 5, 5) && !bits(w, 0, 0) && !(flags < 4 && d == 63) && !(is_unary(op) && b != 0);
    if (is_binary(op))
        fine = fine && (flags == 0 || flags >= 5);
    else if (is_unary(op))
        fine = fine && (flags == 0 || flags == 6 || (op == 32 && flags == 4));
    else if (is_compare(op))
        fine = fine && flags < 4;
    else
        fine = fine && flags == (op == 24 ? 7u : 2u);
    if (!fine) return trap(3);
    if (flags == 0) return operate(s, v, op, 0, d, s + a, s + b, 1);
    uint32_t x[16], y[16];
    return operate(s, v, op, flags >> 2 & 1, d, lanes(s, v, flags >> 1 & 1, a, x), lanes(s, v, flags & 1, b, y), 0);
}

static struct outcome do_i(uint32_t w, uint32_t *s, uint32_t *v) {
    int op = (int)bits(w, 28, 24);
    uint32_t flags = bits(w, 2, 1), d = bits(w, 23, 18), a = bits(w, 17, 12);
    int fine = !bits(w, 0, 0) && !(flags < 2 && d == 63);
    if (is_binary(op))
        fine = fine && (flags == 0 || flags == 3);
    else if (is_compare(op))
        fine = fine && flags < 2;
    else
        fine = fine && op == 25 && flags == 1;
    if (!fine) return trap(3);
    uint32_t n = (uint32_t)signed_bits(w, 11, 3);
    if (flags == 0) return operate(s, v, op, 0, d, s + a, &n, 1);
    uint32_t y[16];
    for (int j = 0; j < 16; j++) y[j] = n;
    return operate(s, v, op, flags >> 1 & 1, d, v + 16 * a, y, 0);
}

static struct outcome do_movei(uint32_t w, uint32_t *s, uint32_t *v) {
    uint32_t op = bits(w, 26, 24), flag = bits(w, 1, 1), d = bits(w, 23, 18);
    uint32_t n = op == 2 ? (uint32_t)signed_bits(w, 17, 2) : bits(w, 17, 2);
    if (bits(w, 0, 0) || op > 2 || (!flag && d == 63)) return trap(3);
    uint32_t keep = op == 0 ? 0xFFFF0000u : op == 1 ? 0x0000FFFFu : 0, put = op == 1 ? n << 16 : n;
    if (flag) {
        for (int j = 0; j < 16; j++)
            if (s[59] >> j & 1) v[16 * d + j] = (v[16 * d + j] & keep) | put;
    } else {
        s[d] = (s[d] & keep) | put;
    }
    return on();
}

static struct outcome jump_to(struct machine *m, int64_t address) {
    if (address < 0 || address % 4 || address >= 4 * (int64_t)m->words) return trap(4);
    return (struct outcome){TO, (uint32_t)address, 0};
}

static struct outcome do_j(struct machine *m, uint32_t w, uint32_t *s, uint32_t pc) {
    uint32_t op = bits(w, 26, 24), r = bits(w, 23, 18);
    int32_t offset = signed_bits(w, 17, 0);
    int64_t away = (int64_t)pc + offset;
    struct outcome o;
    switch (op) {
    case 0: return r ? trap(3) : jump_to(m, away);
    case 1:
        if (r) return trap(3);
        o = jump_to(m, away);
        if (o.next == TO) s[62] = pc + 4;
        return o;
    case 2: return r || offset ? trap(3) : jump_to(m, s[62]);
    case 5: return s[r] == 0 ? jump_to(m, away) : on();
    case 6: return s[r] != 0 ? jump_to(m, away) : on();
    default: return trap(3);
    }
}

static struct outcome do_c(struct machine *m, uint32_t w, uint32_t *s, uint32_t pc, uint32_t t) {
    uint32_t op = bits(w, 26, 24), a = bits(w, 23, 18), b = bits(w, 17, 12);
    if (bits(w, 11, 0)) return trap(3);
    switch (op) {
    case 0: return (struct outcome){MEETS, s[a], s[b]};
    case 1:
        if (a == 63) return trap(3);
        switch (s[b]) {
        case 0: case 1: s[a] = 0; return on();
        case 2: case 3: s[a] = t; return on();
        case 6: s[a] = m->record->enabled; return on();
        case 9: s[a] = pc; return on();
        case 14: s[a] = 8; return on();
        case 16: s[a] = m->record->turns[t]; return on();
        default: return trap(6);
        }
    case 2: return a || b ? trap(3) : (struct outcome){END, 0, 0};
    default: return trap(3);
    }
}

static uint32_t load(const uint8_t *p, int size) {
    uint32_t r = 0;
    for (int k = 0; k < size; k++) r |= (uint32_t)p[k] << 8 * k;
    return r;
}

static void store(uint8_t *p, int size, uint32_t x) {
    for (int k = 0; k < size; k++) p[k] = (uint8_t)(x >> 8 * k);
}

static struct outcome do_m(struct machine *m, uint32_t w, uint32_t *s, uint32_t *v) {
    uint32_t op = bits(w, 29, 24), r = bits(w, 23, 18);
    int size;
    switch (op) {
    case 0: case 4: case 32: size = 1; break;
    case 1: case 5: case 33: size = 2; break;
    case 2: case 34: size = 4; break;
    case 8: case 40: size = 64; break;
    default: return trap(3);
    }
    if (bits(w, 2, 1)) return trap(6);
    if (bits(w, 0, 0) || (op <= 5 && r == 63)) return trap(3);
    int64_t address = (int64_t)s[bits(w, 17, 12)] + signed_bits(w, 11, 3);
    if (address & (size == 64 ? 3 : size - 1)) return trap(1); // a vector is at a multiple of 4 (document 02, T-04)
    if (address < 0 || address + size > (int64_t)m->bytes) return trap(2);
    uint8_t *p = m->memory + address;
    switch (op) {
    case 0: s[r] = (uint32_t)(int8_t)*p; break;
    case 1: s[r] = (uint32_t)(int16_t)load(p, 2); break;
    case 2: s[r] = load(p, 4); break;
    case 4: s[r] = *p; break;
    case 5: s[r] = load(p, 2); break;
    case 8:
        for (int j = 0; j < 16; j++)
            if (s[59] >> j & 1) v[16 * r + j] = load(p + 4 * j, 4);
        break;
    case 40:
        for (int j = 0; j < 16; j++)
            if (s[59] >> j & 1) store(p + 4 * j, 4, v[16 * r + j]);
        break;
    default: store(p, size, s[r]);
    }
    return on();
}

static int meet(struct rival_record *r, uint32_t t, uint32_t id, uint32_t second) {
    int bad = id > 31 || second > 7;
    for (uint32_t u = 0; u < 8 && !bad; u++)
        bad = u != t && r->threads[u].status == WAITING && r->threads[u].id == id && r->threads[u].count != second + 1;
    if (bad) {
        r->threads[t] = (struct rival_thread){TRAPPED, 5, 0, 0};
        return 0;
    }
    r->threads[t] = (struct rival_thread){WAITING, 0, (uint8_t)id, (uint8_t)(second + 1)};
    uint32_t waiting = 0;
    for (int u = 0; u < 8; u++) waiting += r->threads[u].status == WAITING && r->threads[u].id == id;
    if (waiting == second + 1)
        for (int u = 0; u < 8; u++)
            if (r->threads[u].status == WAITING && r->threads[u].id == id) r->threads[u] = (struct rival_thread){RUNNING, 0, 0, 0};
    return 1;
}

static void issue(struct machine *m, uint32_t t) {
    uint32_t *s = m->room + 64 * t, *v = m->room + 512 + 1024 * t, pc = s[63];
    struct rival_record *r = m->record;
    struct outcome o;
    if (pc % 4 || pc / 4 >= m->words) {
        o = trap(4);
    } else {
        uint32_t w = m->program[pc / 4];
        if (w >> 30 == 0) o = do_r(w, s, v);
        else if (w >> 29 == 2) o = do_i(w, s, v);
        else if (w >> 27 == 12) o = do_movei(w, s, v);
        else if (w >> 27 == 14) o = do_j(m, w, s, pc);
        else if (w >> 27 == 15) o = do_c(m, w, s, pc, t);
        else if (w >> 30 == 2) o = do_m(m, w, s, v);
        else o = trap(3);
    }
    r->last = (uint8_t)t;
    r->turns[t]++;
    switch (o.next) {
    case ON: s[63] = pc + 4; break;
    case TO: s[63] = o.x; break;
    case END: r->threads[t].status = ENDED; s[63] = pc + 4; break;
    case MEETS: if (meet(r, t, o.x, o.y)) s[63] = pc + 4; break;
    case TRAP: r->threads[t] = (struct rival_thread){TRAPPED, (uint8_t)o.x, 0, 0}; break;
    }
}

enum rival_answer RUN(const uint32_t *program, size_t words, uint32_t *room, uint8_t *memory, size_t bytes, struct rival_record *record,
                      uint32_t budget, uint32_t *issues, uint64_t *looks) {
    struct machine m = {program, words, room, memory, bytes, record};
    *looks = 0;
    for (uint32_t made = 0;; made++) {
        uint32_t t = 8, k;
        for (k = 1; k <= 8 && t == 8; k++)
            if (record->threads[(record->last + k) % 8].status == RUNNING) t = (record->last + k) % 8;
        *looks += k - 1;
        *issues = made;
        if (t == 8) {
            for (int u = 0; u < 8; u++)
                if (record->threads[u].status == WAITING) return RIVAL_STUCK;
            return RIVAL_STOPPED;
        }
        if (made == budget) return RIVAL_SPENT;
        issue(&m, t);
    }
}
