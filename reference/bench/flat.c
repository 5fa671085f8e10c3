// A C interpreter of the house core as one is written by hand to be fast, to measure against. No word is taken apart beforehand: its top
// byte picks a label (computed goto), which tests that the other bits are as they must be, does the work, and jumps to the next word's label.
// The next thread is looked up by the set of those that run; who waits where stands in tables. For little-endian machines.
#include <string.h>

#include "rival.h"

// The table of labels names a label for all bytes, and then others for some.
#pragma GCC diagnostic ignored "-Woverride-init"

#define INLINE static inline __attribute__((always_inline))

// Sixteen lanes are worked on as four vectors of a size that every x86-64 has, in GNU C's vector types. A register's lanes may be put back
// vector by vector, since a lane depends on the same lane of the operands alone; not so in a shuffle.
typedef uint32_t vector __attribute__((vector_size(16)));
typedef int32_t signed_vector __attribute__((vector_size(16)));
typedef float float_vector __attribute__((vector_size(16)));

static const vector lane_bits[4] = {{1, 2, 4, 8}, {16, 32, 64, 128}, {256, 512, 1024, 2048}, {4096, 8192, 16384, 32768}};

#define EACH_VECTOR _Pragma("GCC unroll 4") for (int k = 0; k < 4; k++)

INLINE vector get(const void *lanes, int k) {
    vector r;
    memcpy(&r, (const uint8_t *)lanes + 16 * k, sizeof r);
    return r;
}

INLINE void put(void *lanes, int k, vector r) { memcpy((uint8_t *)lanes + 16 * k, &r, sizeof r); }

// Puts the lanes that are on.
INLINE void put_masked(void *lanes, int k, uint32_t mask, vector r) {
    vector on = (vector)((((vector){0} + mask) & lane_bits[k]) == lane_bits[k]);
    put(lanes, k, (r & on) | (get(lanes, k) & ~on));
}

// Each operation on one word and on four: by the same expression, or lane by lane.
#define BOTH(NAME, EXPRESSION)                                              \
    INLINE uint32_t NAME##_1(uint32_t x, uint32_t y) { return EXPRESSION; } \
    INLINE vector NAME##_4(vector x, vector y) { return EXPRESSION; }
#define BY_LANE(NAME, EXPRESSION)                                           \
    INLINE uint32_t NAME##_1(uint32_t x, uint32_t y) { return EXPRESSION; } \
    INLINE vector NAME##_4(vector x, vector y) {                            \
        EACH_VECTOR x[k] = NAME##_1(x[k], y[k]);                            \
        return x;                                                           \
    }
#define ONE_OPERAND(NAME, EXPRESSION)                           \
    INLINE uint32_t NAME##_1(uint32_t x) { return EXPRESSION; } \
    INLINE vector NAME##_4(vector x) {                          \
        EACH_VECTOR x[k] = NAME##_1(x[k]);                      \
        return x;                                               \
    }
#define COMPARE(NAME, ONE, FOUR, OPERATOR)                                              \
    INLINE uint32_t NAME##_1(uint32_t x, uint32_t y) { return (ONE)x OPERATOR(ONE) y; } \
    INLINE vector NAME##_4(vector x, vector y) { return (vector)((FOUR)x OPERATOR(FOUR) y); }

// Patterns and floats; every NaN that is put is 0x7FC00000 (document 02, T-08).
INLINE float value_1(uint32_t x) {
    float r;
    memcpy(&r, &x, sizeof r);
    return r;
}
INLINE uint32_t pattern_1(float x) {
    uint32_t r;
    memcpy(&r, &x, sizeof r);
    return x != x ? 0x7FC00000 : r;
}
INLINE vector pattern_4(float_vector x) {
    vector nan = (vector)(x != x);
    return ((vector)x & ~nan) | (nan & 0x7FC00000);
}
#define FLOAT(NAME, OPERATOR)                                                                               \
    INLINE uint32_t NAME##_1(uint32_t x, uint32_t y) { return pattern_1(value_1(x) OPERATOR value_1(y)); }  \
    INLINE vector NAME##_4(vector x, vector y) { return pattern_4((float_vector)x OPERATOR(float_vector) y); }
#define FLOAT_COMPARE(NAME, OPERATOR)                                                            \
    INLINE uint32_t NAME##_1(uint32_t x, uint32_t y) { return value_1(x) OPERATOR value_1(y); }  \
    INLINE vector NAME##_4(vector x, vector y) { return (vector)((float_vector)x OPERATOR(float_vector) y); }

BOTH(or, x | y)
BOTH(and, x & y)
BOTH(xor, x ^ y)
BOTH(add, x + y)
BOTH(sub, x - y)
BOTH(mullo, x * y)
BY_LANE(mulhi, (uint32_t)((int64_t)(int32_t)x * (int32_t)y >> 32))
BY_LANE(mulhu, (uint32_t)((uint64_t)x * y >> 32))
BY_LANE(ashr, (uint32_t)((int32_t)x >> (y & 31)))
BY_LANE(shr, x >> (y & 31))
BY_LANE(shl, x << (y & 31))
ONE_OPERAND(clz, x ? (uint32_t)__builtin_clz(x) : 32)
ONE_OPERAND(ctz, x ? (uint32_t)__builtin_ctz(x) : 32)
ONE_OPERAND(sext8, (uint32_t)(int8_t)x)
ONE_OPERAND(sext16, (uint32_t)(int16_t)x)
COMPARE(cmpeq, uint32_t, vector, ==)
COMPARE(cmpne, uint32_t, vector, !=)
COMPARE(cmpgt, int32_t, signed_vector, >)
COMPARE(cmpge, int32_t, signed_vector, >=)
COMPARE(cmplt, int32_t, signed_vector, <)
COMPARE(cmple, int32_t, signed_vector, <=)
COMPARE(cmpugt, uint32_t, vector, >)
COMPARE(cmpuge, uint32_t, vector, >=)
COMPARE(cmpult, uint32_t, vector, <)
COMPARE(cmpule, uint32_t, vector, <=)
FLOAT(fadd, +)
FLOAT(fsub, -)
FLOAT(fmul, *)
FLOAT(fdiv, /)
FLOAT_COMPARE(cmpfeq, ==)
FLOAT_COMPARE(cmpfne, !=)
FLOAT_COMPARE(cmpfgt, >)
FLOAT_COMPARE(cmpfge, >=)
FLOAT_COMPARE(cmpflt, <)
FLOAT_COMPARE(cmpfle, <=)
INLINE uint32_t i32tof32_1(uint32_t x) { return pattern_1((float)(int32_t)x); }
INLINE vector i32tof32_4(vector x) { return (vector) __builtin_convertvector((signed_vector)x, float_vector); }
ONE_OPERAND(f32toi32, value_1(x) >= -2147483648.0f && value_1(x) < 2147483648.0f ? (uint32_t)(int32_t)value_1(x) : 0x80000000)

#define BINARIES(DO) \
    DO(1, or) DO(2, and) DO(3, xor) DO(4, add) DO(5, sub) DO(6, mullo) DO(7, mulhi) DO(8, mulhu) DO(9, ashr) DO(10, shr) DO(11, shl)
#define UNARIES(DO) DO(12, clz) DO(13, ctz) DO(43, sext8) DO(44, sext16) DO(48, i32tof32) DO(49, f32toi32)
#define FLOATS(DO) DO(33, fadd) DO(34, fsub) DO(35, fmul) DO(36, fdiv)
#define FLOAT_COMPARES(DO) DO(37, cmpfeq) DO(38, cmpfne) DO(39, cmpfgt) DO(40, cmpfge) DO(41, cmpflt) DO(42, cmpfle)
#define COMPARES(DO)                                                          \
    DO(14, cmpeq) DO(15, cmpne) DO(16, cmpgt) DO(17, cmpge) DO(18, cmplt) \
    DO(19, cmple) DO(20, cmpugt) DO(21, cmpuge) DO(22, cmpult) DO(23, cmpule)

// The first running thread after each, by the set of the running ones, and how far it is.
static uint8_t next[256][8], far[256][8];

__attribute__((constructor)) static void fill_next(void) {
    for (int set = 1; set < 256; set++)
        for (int t = 0; t < 8; t++) {
            int u = t;
            do u = (u + 1) % 8;
            while (!(set >> u & 1));
            next[set][t] = (uint8_t)u;
            far[set][t] = (uint8_t)((u + 7 - t) % 8 + 1);
        }
}

// The fields of a word, and the vector register of a field.
#define D (w >> 18 & 63)
#define A (w >> 12 & 63)
#define B (w >> 6 & 63)
#define IMMEDIATE ((uint32_t)((int32_t)(w << 20) >> 23))
#define VECTOR(I) (room + 512 + 1024 * t + 16 * (I))
#define PUT_EACH(LANES, EXPRESSION)                                         \
    do {                                                                    \
        if ((s[59] & 0xFFFF) == 0xFFFF)                                     \
            EACH_VECTOR put(LANES, k, EXPRESSION);                          \
        else                                                                \
            EACH_VECTOR put_masked(LANES, k, s[59], EXPRESSION);            \
    } while (0)

// An operand: a vector register, or a scalar as four equal lanes, the same for every k.
struct operand {
    const void *lanes;
    int step;
};
#define OPERAND(IS_VECTOR, I, SPACE) \
    (IS_VECTOR ? (struct operand){VECTOR(I), 1} : (SPACE = (vector){0} + s[I], (struct operand){&SPACE, 0}))
#define X get(x.lanes, k * x.step)
#define Y get(y.lanes, k * y.step)

// Issues the next thread: fetches its word and jumps to the label of its top byte. An address turned by two bits is in the program only
// if it is a multiple of 4.
#define ISSUE                                  \
    do {                                       \
        if (left == 0) goto spent;             \
        left--;                                \
        looked += away[t];                     \
        t = after[t];                          \
        turns[t]++;                            \
        s = room + 64 * t;                     \
        pc = s[63];                            \
        uint32_t at = pc >> 2 | pc << 30;      \
        if (at >= words) goto off_program;     \
        w = program[at];                       \
        goto *labels[w >> 24];                 \
    } while (0)
#define GO_ON              \
    do {                   \
        s[63] = pc + 4;    \
        ISSUE;             \
    } while (0)
#define JUMP(TARGET)                                              \
    do {                                                          \
        uint32_t to = TARGET;                                     \
        if (to >= 4 * words || to & 3) goto off_program;          \
        s[63] = to;                                               \
        ISSUE;                                                    \
    } while (0)
#define TRAP(REASON)          \
    do {                      \
        reason = REASON;      \
        goto trap;            \
    } while (0)

// The labels of R and I. Bits 5, 4 and 0 of an R word are 0 with any flags.
#define R_BINARY(OPCODE, NAME)                                                                  \
    r_##NAME:                                                                                   \
    if ((w & 63) == 0 && D != 63) {                                                             \
        s[D] = NAME##_1(s[A], s[B]);                                                            \
    } else {                                                                                    \
        if ((w & 0x39) != 8 || (w & 6) == 0) goto r_off_line;                                   \
        struct operand x = OPERAND(w & 4, A, space_a), y = OPERAND(w & 2, B, space_b);          \
        PUT_EACH(VECTOR(D), NAME##_4(X, Y));                                                               \
    }                                                                                           \
    GO_ON;
#define I_BINARY(OPCODE, NAME)                                                      \
    i_##NAME:                                                                       \
    if ((w & 7) == 0 && D != 63) {                                                  \
        s[D] = NAME##_1(s[A], IMMEDIATE);                                           \
    } else {                                                                        \
        if ((w & 7) != 6) goto undefined;                                           \
        PUT_EACH(VECTOR(D), NAME##_4(get(VECTOR(A), k), (vector){0} + IMMEDIATE));             \
    }                                                                               \
    GO_ON;
#define R_COMPARE(OPCODE, NAME)                                                                 \
    r_##NAME:                                                                                   \
    if ((w & 0x39) != 0 || D == 63) goto r_off_line;                                            \
    if ((w & 6) == 0) {                                                                         \
        s[D] = NAME##_1(s[A], s[B]);                                                            \
    } else {                                                                                    \
        struct operand x = OPERAND(w & 4, A, space_a), y = OPERAND(w & 2, B, space_b);          \
        vector yes = {0};                                                                       \
        EACH_VECTOR yes |= NAME##_4(X, Y) & lane_bits[k];                                       \
        s[D] = s[59] & (yes[0] | yes[1] | yes[2] | yes[3]);                                     \
    }                                                                                           \
    GO_ON;
#define I_COMPARE(OPCODE, NAME)                                                                             \
    i_##NAME:                                                                                               \
    if ((w & 5) != 0 || D == 63) goto undefined;                                                            \
    if ((w & 2) == 0) {                                                                                     \
        s[D] = NAME##_1(s[A], IMMEDIATE);                                                                   \
    } else {                                                                                                \
        vector yes = {0};                                                                                   \
        EACH_VECTOR yes |= NAME##_4(get(VECTOR(A), k), (vector){0} + IMMEDIATE) & lane_bits[k];             \
        s[D] = s[59] & (yes[0] | yes[1] | yes[2] | yes[3]);                                                 \
    }                                                                                                       \
    GO_ON;
#define R_UNARY(OPCODE, NAME)                                       \
    r_##NAME:                                                       \
    if ((w & 0xFFF) == 0 && D != 63) {                              \
        s[D] = NAME##_1(s[A]);                                      \
    } else {                                                        \
        if ((w & 0xFFF) != 12) goto r_off_line;                     \
        PUT_EACH(VECTOR(D), NAME##_4(get(VECTOR(A), k)));                      \
    }                                                               \
    GO_ON;
#define MOVE_IMMEDIATE(NAME, KEPT, VALUE)                                           \
    NAME:                                                                           \
    if ((w & 3) == 0 && D != 63) {                                                  \
        s[D] = (s[D] & KEPT) | (VALUE);                                             \
    } else {                                                                        \
        if ((w & 3) != 2) goto undefined;                                           \
        PUT_EACH(VECTOR(D), (get(VECTOR(D), k) & KEPT) | ((vector){0} + (VALUE)));             \
    }                                                                               \
    GO_ON;
#define HALF (w >> 2 & 0xFFFF)
#define SIGNED_HALF ((uint32_t)((int32_t)(w << 14) >> 16))

// The labels of M. An address is a sum in 64 bits, where a negative one is past every memory. A vector is at a multiple of 4.
#define PLACE(MULTIPLE, SIZE)                                          \
    if (w & 7) goto m_off_line;                                        \
    address = (uint64_t)s[A] + (uint64_t)(int64_t)(int32_t)IMMEDIATE;  \
    if (address & (MULTIPLE - 1)) TRAP(1);                             \
    if (address > bytes - SIZE) TRAP(2)
#define LOAD(NAME, TYPE)                               \
    NAME: {                                            \
        TYPE x;                                        \
        if (D == 63) goto m_off_line;                  \
        PLACE(sizeof x, sizeof x);                     \
        memcpy(&x, memory + address, sizeof x);        \
        s[D] = (uint32_t)x;                            \
        GO_ON;                                         \
    }
#define STORE(NAME, TYPE)                              \
    NAME: {                                            \
        PLACE(sizeof(TYPE), sizeof(TYPE));             \
        TYPE x = (TYPE)s[D];                           \
        memcpy(memory + address, &x, sizeof x);        \
        GO_ON;                                         \
    }

enum rival_answer RUN(const uint32_t *program, size_t length, uint32_t *room, uint8_t *memory, size_t bytes, struct rival_record *record,
                      uint32_t budget, uint32_t *issues, uint64_t *looks) {
#define R_LABEL(OPCODE, NAME) [OPCODE] = &&r_##NAME,
#define R_AND_I_LABELS(OPCODE, NAME) [OPCODE] = &&r_##NAME, [0x40 + OPCODE] = &&i_##NAME,
    static const void *const labels[256] = {
        [0 ... 255] = &&undefined,
        BINARIES(R_AND_I_LABELS) UNARIES(R_LABEL) COMPARES(R_AND_I_LABELS) FLOATS(R_LABEL) FLOAT_COMPARES(R_LABEL)
        [24] = &&shuffle, [25] = &&getlane, [0x40 + 25] = &&getlane_immediate, [32] = &&move,
        [45] = &&not_fitted,
        [0x60] = &&moveil, [0x61] = &&moveih, [0x62] = &&movei,
        [0x70] = &&jmp, [0x71] = &&jmpsr, [0x72] = &&jret, [0x75] = &&beqz, [0x76] = &&bnez,
        [0x78] = &&barrier, [0x79] = &&readcr, [0x7A] = &&end,
        [0x80] = &&load8, [0x81] = &&load16, [0x82] = &&load32, [0x84] = &&load8u, [0x85] = &&load16u, [0x88] = &&loadv,
        [0xA0] = &&store8, [0xA1] = &&store16, [0xA2] = &&store32, [0xA8] = &&storev,
    };
    const uint32_t words = (uint32_t)length;
    const uint8_t *after, *away;
    uint32_t running = 0, left = budget, t = record->last, pc = 0, w = 0, reason;
    uint32_t *s = room;
    uint64_t address, looked = 0;
    uint32_t shuffled[16];
    vector space_a, space_b;
    uint32_t turns[8];
    memcpy(turns, record->turns, sizeof turns);
    // By barrier: who waits, how many, and for how many. The record gets them at the end.
    uint8_t waiting[32] = {0}, arrived[32] = {0}, count[32];
    enum rival_answer answer;
    for (int u = 0; u < 8; u++) {
        const struct rival_thread *thread = &record->threads[u];
        if (thread->status == RUNNING) running |= 1u << u;
        if (thread->status == WAITING) {
            waiting[thread->id] |= (uint8_t)(1u << u);
            arrived[thread->id]++;
            count[thread->id] = thread->count;
        }
    }
    goto changed;

    BINARIES(R_BINARY)
    BINARIES(I_BINARY)
    COMPARES(R_COMPARE)
    COMPARES(I_COMPARE)
    UNARIES(R_UNARY)
    FLOATS(R_BINARY)
    FLOAT_COMPARES(R_COMPARE)
move:
    if ((w & 0xFFF) == 0 && D != 63) {
        s[D] = s[A];
    } else {
        if ((w & 0xFFF) != 12 && (w & 0xFFF) != 8) goto r_off_line;
        struct operand x = OPERAND(w & 4, A, space_a);
        PUT_EACH(VECTOR(D), X);
    }
    GO_ON;
shuffle:
    if ((w & 63) != 14) goto r_off_line;
    for (int j = 0; j < 16; j++) shuffled[j] = VECTOR(A)[VECTOR(B)[j] & 15];
    PUT_EACH(VECTOR(D), get(shuffled, k));
    GO_ON;
getlane:
    if ((w & 63) != 4 || D == 63) goto r_off_line;
    s[D] = VECTOR(A)[s[B] & 15];
    GO_ON;
getlane_immediate:
    if ((w & 7) != 2 || D == 63) goto undefined;
    s[D] = VECTOR(A)[IMMEDIATE & 15];
    GO_ON;

    MOVE_IMMEDIATE(moveil, 0xFFFF0000u, HALF)
    MOVE_IMMEDIATE(moveih, 0x0000FFFFu, HALF << 16)
    MOVE_IMMEDIATE(movei, 0u, SIGNED_HALF)

// A target is a sum modulo 2^32, where a negative one is past every program.
#define TARGET (pc + (uint32_t)((int32_t)(w << 14) >> 14))
jmp:
    if (D != 0) goto undefined;
    JUMP(TARGET);
jmpsr:
    if (D != 0) goto undefined;
    if (TARGET >= 4 * words || TARGET & 3) goto off_program;
    s[62] = pc + 4;
    JUMP(TARGET);
jret:
    if (w != 0x72000000) goto undefined;
    JUMP(s[62]);
beqz:
    if (s[D] == 0) JUMP(TARGET);
    GO_ON;
bnez:
    if (s[D] != 0) JUMP(TARGET);
    GO_ON;

barrier: {
    if (w & 0xFFF) goto undefined;
    uint32_t id = s[D], second = s[A];
    if (id > 31 || second > 7 || (arrived[id] > 0 && count[id] != second + 1)) TRAP(5);
    s[63] = pc + 4;
    if (arrived[id] == second) {
        running |= waiting[id];
        waiting[id] = arrived[id] = 0;
    } else {
        running &= ~(1u << t);
        waiting[id] |= (uint8_t)(1u << t);
        arrived[id]++;
        count[id] = (uint8_t)(second + 1);
    }
    goto changed;
}
readcr:
    if (w & 0xFFF || D == 63) goto undefined;
    switch (s[A]) {
    case 0: case 1: s[D] = 0; break;
    case 2: case 3: s[D] = t; break;
    case 6: s[D] = record->enabled; break;
    case 9: s[D] = pc; break;
    case 14: s[D] = 8; break;
    case 16: s[D] = turns[t] - 1; break; // before this issue, which is counted already
    default: TRAP(6);
    }
    GO_ON;
end:
    if (w != 0x7A000000) goto undefined;
    s[63] = pc + 4;
    record->threads[t] = (struct rival_thread){ENDED, 0, 0, 0};
    running &= ~(1u << t);
    goto changed;

    LOAD(load8, int8_t)
    LOAD(load16, int16_t)
    LOAD(load32, uint32_t)
    LOAD(load8u, uint8_t)
    LOAD(load16u, uint16_t)
    STORE(store8, uint8_t)
    STORE(store16, uint16_t)
    STORE(store32, uint32_t)
loadv:
    PLACE(4, 64);
    PUT_EACH(VECTOR(D), get(memory + address, k));
    GO_ON;
storev:
    PLACE(4, 64);
    PUT_EACH(memory + address, get(VECTOR(D), k));
    GO_ON;

r_off_line:
    TRAP(w & 16 ? 6 : 3);
m_off_line:
    TRAP(w & 6 ? 6 : 3);
undefined:
    TRAP(3);
not_fitted:
    TRAP(6);
off_program:
    TRAP(4);
trap:
    record->threads[t] = (struct rival_thread){TRAPPED, (uint8_t)reason, 0, 0};
    running &= ~(1u << t);
changed:
    after = next[running];
    away = far[running];
    if (running != 0) ISSUE;
    looked += 8;
    answer = RIVAL_STOPPED;
    for (int id = 0; id < 32; id++)
        if (arrived[id] > 0) answer = RIVAL_STUCK;
    goto out;
spent:
    looked += away[t];
    answer = RIVAL_SPENT;
out:
    record->last = (uint8_t)t;
    memcpy(record->turns, turns, sizeof turns);
    for (int u = 0; u < 8; u++)
        if (running >> u & 1) record->threads[u] = (struct rival_thread){RUNNING, 0, 0, 0};
    for (int id = 0; id < 32; id++)
        for (int u = 0; u < 8 && arrived[id] > 0; u++)
            if (waiting[id] >> u & 1) record->threads[u] = (struct rival_thread){WAITING, 0, (uint8_t)id, count[id]};
    *issues = budget - left;
    *looks = looked;
    return answer;
}
