// The benchmark: the proved library against C interpreters of the same rules, in one run and on the same programs. All have to reach the
// same machine. Times are of the processor; of several rounds that take turns the best counts. Prints tables, with --tsv a line a figure.
#include <stdarg.h>
#include <stdio.h>
#include <stdlib.h>
#include <string.h>
#include <time.h>

#include "korvammel.h"
#include "rival.h"

enum { ROUNDS = 15, BYTES = 65536, IMAGE = KORVAMMEL_IMAGE(BYTES), SIDES = 8 };

static const uint32_t scalar_words[] = {
    0x44041008, // addi s1,s1,1
    0x03082040, // xor s2,s2,s1
    0x060C2040, // mullo s3,s2,s1
    0x52101320, // cmplti s4,s1,100
    0x7613FFF0, // bnez s4: to the first
    0x7003FFEC, // jmp to the first
};
static const uint32_t vector_words[] = {
    0x040C108E, // add v3,v1,v2
    0x0310304E, // xor v4,v3,v1
    0x12143106, // cmplt s5,v3,v4
    0x4404100E, // addi v1,v1,1
    0x7003FFF0, // jmp to the first
};
static const uint32_t any_word_words[] = {
    0x62040010, // movei s1,4
    0x88041000, // loadv v1,(s1): never at a multiple of 64
    0x0408108E, // add v2,v1,v2
    0xA8081200, // storev v2,64(s1)
    0x440410C0, // addi s1,s1,24
    0x561817F8, // cmpulti s6,s1,255
    0x761BFFEC, // bnez s6: to the load
    0x7003FFE4, // jmp to the first
};
static const uint32_t barrier_words[] = {
    0x62040004, // movei s1,1
    0x78001000, // barrier s0,s1
    0x7003FFFC, // jmp to the barrier
};
static const uint32_t copy_words[] = {
    0x62040000, // movei s1,0
    0x62144000, // movei s5,4096
    0x82081000, // load32 s2,(s1)
    0xA2085000, // store32 s2,(s5)
    0x44041020, // addi s1,s1,4
    0x44145020, // addi s5,s5,4
    0x561817F8, // cmpulti s6,s1,255
    0x761BFFEC, // bnez s6: to the load
    0x7003FFE0, // jmp to the first
};
static const uint32_t mixed_words[] = {
    0x62040100, // movei s1,64
    0x88041000, // loadv v1,(s1)
    0x0408108E, // add v2,v1,v2
    0xA8081200, // storev v2,64(s1)
    0x12EC1086, // cmplt s59,v1,v2: the lane mask
    0x62EFFFFC, // movei s59,-1: all lanes on
    0x440C3008, // addi s3,s3,1
    0x82101020, // load32 s4,4(s1)
    0x061440C0, // mullo s5,s4,s3
    0xA2141040, // store32 s5,8(s1)
    0x79187000, // readcr s6,s7
    0x75180008, // beqz s6: over the next
    0x70000004, // jmp to the next
    0x7003FFD4, // jmp to the vector add
};
static const uint32_t minute_words[] = {
    0x62080008, // movei s2,2
    0x79042000, // readcr s1,s2: the thread's number
    0x820C0000, // load32 s3,(s0): the minute
    0x44101320, // addi s4,s1,100: when this thread's stair begins
    0x171440C0, // cmpule s5,s4,s3
    0xA0141200, // store8 s5,64(s1): its relay
    0x7003FFF0, // jmp to the load
};

static const uint32_t float_words[] = {
    0x6104FE00, // moveih s1: 1
    0x6108FC00, // moveih s2: a half
    0x210C3040, // fadd s3,s3,s1
    0x23103080, // fmul s4,s3,s2
    0x241440C0, // fdiv s5,s4,s3
    0x291840C0, // cmpflt s6,s4,s3
    0x311C4000, // f32toi32 s7,s4
    0x30207000, // i32tof32 s8,s7
    0x22248100, // fsub s9,s8,s4
    0x7003FFE4, // jmp to the fadd
};
static const uint32_t float_lane_words[] = {
    0x6104FE02, // moveih v1: 1
    0x6108FC02, // moveih v2: a half
    0x210C304E, // fadd v3,v3,v1
    0x2310308E, // fmul v4,v3,v2
    0x241440CE, // fdiv v5,v4,v3
    0x291840C6, // cmpflt s6,v4,v3
    0x311C400C, // f32toi32 v7,v4
    0x3020700C, // i32tof32 v8,v7
    0x2224810E, // fsub v9,v8,v4
    0x7003FFE4, // jmp to the fadd
};

struct workload {
    const char *name;
    const uint32_t *words;
    size_t length;
    uint32_t mask, budget, runs;
};

#define LENGTH(words) (sizeof(words) / sizeof *(words))

// Mixed scalar words in a row, with a jump back behind them.
static uint32_t row_256[256], row_16384[16384];

static const struct workload workloads[] = {
    {"scalar loop", scalar_words, LENGTH(scalar_words), 1, 4000000, 1},
    {"vector loop", vector_words, LENGTH(vector_words), 1, 2000000, 1},
    {"vectors at any word", any_word_words, LENGTH(any_word_words), 1, 2000000, 1},
    {"eight threads", scalar_words, LENGTH(scalar_words), 255, 4000000, 1},
    {"barrier, two threads", barrier_words, LENGTH(barrier_words), 3, 4000000, 1},
    {"memory copy", copy_words, LENGTH(copy_words), 1, 4000000, 1},
    {"mixed, four threads", mixed_words, LENGTH(mixed_words), 15, 4000000, 1},
    {"night minutes", minute_words, LENGTH(minute_words), 255, 4096, 1000},
    {"256 words in a row", row_256, LENGTH(row_256), 1, 4000000, 1},
    {"16,384 words in a row", row_16384, LENGTH(row_16384), 1, 4000000, 1},
    {"floats", float_words, LENGTH(float_words), 1, 4000000, 1},
    {"floats in lanes", float_lane_words, LENGTH(float_lane_words), 1, 2000000, 1},
};
static const struct workload *const minute = &workloads[7];

// A machine for each side: the library's first, then the rivals'.
static struct side {
    const char *name;
    rival_run *run; // none for the library
    double best;
    uint64_t looks; // of all runs since the start
    uint32_t registers[KORVAMMEL_REGISTERS] __attribute__((aligned(64)));
    uint8_t memory[BYTES] __attribute__((aligned(64)));
    struct rival_record record;
    uint8_t bytes[KORVAMMEL_RECORD]; // the library's record
} sides[SIDES];
static size_t side_count;
static int lines_only;

static double seconds(void) {
    struct timespec t;
    clock_gettime(CLOCK_PROCESS_CPUTIME_ID, &t);
    return (double)t.tv_sec + (double)t.tv_nsec / 1e9;
}

static void fail(const char *what) {
    fprintf(stderr, "bench: %s\n", what);
    exit(1);
}

// Prints a part of a table, or nothing where lines are asked for.
static void say(const char *format, ...) {
    va_list arguments;
    va_start(arguments, format);
    if (!lines_only) vprintf(format, arguments);
    va_end(arguments);
}

// Prints a figure as a line: what was measured, on what, of which side, and the number.
static void line(const char *what, const char *on, const char *side, double number) {
    if (lines_only) printf("%s\t%s\t%s\t%.4f\n", what, on, side, number);
}

// Words by a fixed sequence: s1 to s15 are worked on, memory is at s0, which stays 0.
static void fill_row(uint32_t *words, size_t length) {
    static const uint32_t kinds[] = {
        0x04000000, 0x05000000, 0x03000000, 0x02000000, 0x01000000, 0x06000000, // add sub xor and or mullo
        0x0B000000, 0x0A000000, 0x12000000, 0x16000000, 0x0E000000,             // shl shr cmplt cmpult cmpeq
        0x20000000, 0x2C000000, 0x0C000000,                                     // move sext16 clz
        0x44000000, 0x43000000, 0x4B000000, 0x50000000, 0x62000000, 0x61000000, // addi xori shli cmpgti movei moveih
        0x82000000, 0xA2000000, 0x84000000, 0xA0000000, 0x75000004, 0x76000004, // loads, stores, branches to the next
    };
    uint32_t x = 1;
    for (size_t i = 0; i + 1 < length; i++) {
        x ^= x << 13, x ^= x >> 17, x ^= x << 5;
        uint32_t word = kinds[x % LENGTH(kinds)], d = 1 + (x >> 8) % 15, a = 1 + (x >> 12) % 15, b = 1 + (x >> 16) % 15;
        uint32_t format = word >> 28;
        word |= d << 18;
        if (word >> 24 == 0x20 || word >> 24 == 0x2C || word >> 24 == 0x0C) word |= a << 12; // one operand
        else if (format < 4) word |= a << 12 | b << 6;
        else if (format < 6) word |= a << 12 | (x >> 20 & 0x1FF) << 3;
        else if (format == 6) word |= (x >> 16) << 2;
        else if (format >= 8) word |= (x >> 20 & 0x3F) << 5; // a multiple of 4 from s0
        words[i] = word;
    }
    words[length - 1] = 0x70000000 | (-4 * (uint32_t)(length - 1) & 0x3FFFF);
}

static void start(uint32_t mask) {
    for (size_t i = 0; i < side_count; i++) {
        struct side *side = &sides[i];
        memset(side->memory, 0, BYTES);
        memset(&side->record, 0, sizeof side->record);
        if (korvammel_start(mask, side->registers, KORVAMMEL_REGISTERS, side->bytes) != 0) fail("a start was refused");
        side->record.enabled = (uint8_t)mask;
        side->record.last = 7;
        for (int t = 0; t < 8; t++) side->record.threads[t].status = mask >> t & 1;
        side->best = 1e9;
        side->looks = 0;
    }
}

static void run_once(struct side *side, const struct workload *w, uint32_t budget) {
    uint32_t result[KORVAMMEL_RESULT] = {0};
    uint64_t looks = 0;
    if (side->run != NULL)
        result[0] = side->run(w->words, w->length, side->registers, side->memory, BYTES, &side->record, budget, &result[1], &looks);
    else if (korvammel_run(w->words, w->length, side->registers, KORVAMMEL_REGISTERS, side->memory, BYTES, side->bytes, budget,
                           result) != 0)
        fail("a run was refused");
    side->looks += side->run != NULL ? looks : KORVAMMEL_LOOKS(result);
    if (result[0] != KORVAMMEL_SPENT || result[1] != budget) fail("a run did not spend its budget");
}

// The best time of a run so far, on one side.
static void time_runs(struct side *side, const struct workload *w, uint32_t budget) {
    double began = seconds();
    for (uint32_t k = 0; k < w->runs; k++) run_once(side, w, budget);
    double took = (seconds() - began) / w->runs;
    if (took < side->best) side->best = took;
}

// All sides have reached the same machine, and looked as far for it.
static void compare_machines(void) {
    const struct side *ours = &sides[0];
    for (size_t i = 1; i < side_count; i++) {
        const struct side *other = &sides[i];
        int same = memcmp(ours->registers, other->registers, sizeof ours->registers) == 0 &&
                   memcmp(ours->memory, other->memory, BYTES) == 0 && ours->bytes[KORVAMMEL_LAST] == other->record.last &&
                   ours->bytes[KORVAMMEL_ENABLED] == other->record.enabled && ours->looks == other->looks;
        for (int t = 0; t < 8; t++) {
            const struct rival_thread *thread = &other->record.threads[t];
            const uint32_t turns = other->record.turns[t];
            const uint8_t entry[8] = {thread->status, thread->reason, thread->id, thread->count,
                                      (uint8_t)turns, (uint8_t)(turns >> 8), (uint8_t)(turns >> 16), (uint8_t)(turns >> 24)};
            same = same && memcmp(ours->bytes + KORVAMMEL_STATUS(t), entry, sizeof entry) == 0; // TI, behind its mark and its thread
        }
        if (!same) fail("a rival has reached another machine");
    }
}

static void print_heading(const char *first, int with_fastest) {
    say("| %-24s |", first);
    for (size_t i = with_fastest; i < side_count; i++) say(" %-15s |", sides[i].name);
    say(with_fastest ? " %-15s |\n|" : "\n|", "the fastest");
    for (size_t i = 0; i < side_count + 1; i++) say("---|");
    say("\n");
}

// Speeds in one table, and how many times as fast as each rival the library is in another.
static void measure_speeds(void) {
    static double speeds[LENGTH(workloads)][SIDES];
    print_heading("million issues a second", 0);
    for (size_t k = 0; k < LENGTH(workloads); k++) {
        const struct workload *w = &workloads[k];
        start(w->mask);
        for (int round = 0; round < ROUNDS; round++)
            for (size_t i = 0; i < side_count; i++) time_runs(&sides[i], w, w->budget);
        compare_machines();
        say("| %-24s |", w->name);
        for (size_t i = 0; i < side_count; i++) {
            speeds[k][i] = w->budget / sides[i].best / 1e6;
            say(" %15.1f |", speeds[k][i]);
            line("million issues a second", w->name, sides[i].name, speeds[k][i]);
        }
        say("\n");
        fflush(stdout);
    }
    say("\n");
    print_heading("proved divided by", 1);
    for (size_t k = 0; k < LENGTH(workloads); k++) {
        double fastest = 0;
        say("| %-24s |", workloads[k].name);
        for (size_t i = 1; i < side_count; i++) {
            if (speeds[k][i] > fastest) fastest = speeds[k][i];
            say(" %15.2f |", speeds[k][0] / speeds[k][i]);
            line("ratio", workloads[k].name, sides[i].name, speeds[k][0] / speeds[k][i]);
        }
        say(" %15.2f |\n", speeds[k][0] / fastest);
        line("ratio", workloads[k].name, "the fastest", speeds[k][0] / fastest);
    }
}

static double our_time(const struct workload *w, uint32_t budget) {
    start(w->mask);
    for (int round = 0; round < ROUNDS; round++) time_runs(&sides[0], w, budget);
    return sides[0].best;
}

// What a run costs for each issue, as the budget grows, and what it costs to make none.
static void measure_growth(void) {
    say("\n| budget of a night program | nanoseconds an issue |\n|---|---|\n");
    for (uint32_t budget = 4096; budget <= 4096 * 4096u; budget *= 16) {
        struct workload w = *minute;
        w.runs = budget < 1000000 ? 1000000 / budget : 1;
        double each = our_time(&w, budget) / budget * 1e9;
        char text[16];
        snprintf(text, sizeof text, "%u", (unsigned)budget);
        say("| %25s | %20.2f |\n", text, each);
        line("nanoseconds an issue", text, "proved", each);
    }
    double share = our_time(minute, 0) / our_time(minute, minute->budget) * 100;
    say("\nset-up: %.2f %% of a night minute\n", share);
    line("set-up", "percent of a night minute", "proved", share);
}

static double best_of(double so_far, double began) {
    double took = seconds() - began;
    return took < so_far ? took : so_far;
}

// What a saved image costs beside a plain copy of its bytes.
static void measure_image(void) {
    static uint8_t image[IMAGE], other[IMAGE];
    enum { TIMES = 200 };
    struct side *ours = &sides[0];
    double write = 1e9, read = 1e9, copy = 1e9;
    start(255);
    for (int round = 0; round < ROUNDS; round++) {
        double began = seconds();
        for (int k = 0; k < TIMES; k++)
            if (korvammel_image_write(ours->registers, KORVAMMEL_REGISTERS, ours->memory, BYTES, ours->bytes, image, IMAGE) != 0)
                fail("no image");
        write = best_of(write, began);
        began = seconds();
        for (int k = 0; k < TIMES; k++)
            if (korvammel_image_read(image, IMAGE, ours->registers, KORVAMMEL_REGISTERS, ours->memory, BYTES, ours->bytes) != 0)
                fail("no machine");
        read = best_of(read, began);
        began = seconds();
        for (int k = 0; k < TIMES; k++) {
            image[k] ^= 1; // so that each copy is made
            memcpy(other, image, IMAGE);
            __asm__ volatile("" : : "r"(other) : "memory");
            image[k] ^= 1;
        }
        copy = best_of(copy, began);
    }
    say("\nan image of %d bytes: written in %.1f times a memcpy of it, read in %.1f times\n", IMAGE, write / copy, read / copy);
    line("image", "written, in memcpys", "proved", write / copy);
    line("image", "read, in memcpys", "proved", read / copy);
}

// A loop that counts down: two issues a round, in million rounds a second.
static void measure_countdown(void) {
    static const uint32_t words[] = {
        0x44041FF8, // addi s1,s1,-1
        0x7607FFFC, // bnez s1: to the first
    };
    const struct workload countdown = {"countdown loop", words, LENGTH(words), 1, 20000000, 1};
    line("million rounds a second", countdown.name, "proved", countdown.budget / 2 / our_time(&countdown, countdown.budget) / 1e6);
}

int main(int argc, char **argv) {
    size_t count;
    const struct rival *rival = rivals(&count);
    lines_only = argc > 1;
    sides[0].name = "proved";
    for (size_t i = 0; i < count; i++) {
        sides[i + 1].name = rival[i].name;
        sides[i + 1].run = rival[i].run;
    }
    side_count = count + 1;
    if (argc > 1 && strcmp(argv[1], "--countdown") == 0) {
        measure_countdown();
        return 0;
    }
    fill_row(row_256, LENGTH(row_256));
    fill_row(row_16384, LENGTH(row_16384));
    measure_speeds();
    measure_growth();
    measure_image();
    return 0;
}
