// Holds issued float words, scalars and lanes, to cases of Berkeley TestFloat on standard input, a case a line: operands, result and flags,
// hex. The argument names TestFloat's function. Any NaN result counts as 0x7FC00000, an invalid conversion's as 0x80000000.
#include <stdio.h>
#include <stdlib.h>
#include <string.h>

#include "korvammel.h"

enum { LANES = 16, INVALID = 0x10, A = 0, B = 16, D = 32, ANSWERS = 48, LANE_MASK = 59, PROGRAM_COUNTER = 63 };

// The opcodes that a function's cases are for: as they are, and with operands exchanged or the answer turned round.
static const struct function {
    const char *name;
    int operands, opcode, exchanged, negated;
} functions[] = {
    {"f32_add", 2, 33, 0, 0}, {"f32_sub", 2, 34, 0, 0},    {"f32_mul", 2, 35, 0, 0},    {"f32_div", 2, 36, 0, 0}, {"f32_eq", 2, 37, 0, 38},
    {"f32_lt", 2, 41, 39, 0}, {"f32_le", 2, 42, 40, 0}, {"i32_to_f32", 1, 48, 0, 0}, {"f32_to_i32", 1, 49, 0, 0},
};

struct test {
    uint32_t a, b, result;
};

static uint32_t registers[KORVAMMEL_REGISTERS];
static uint8_t memory[64], record[KORVAMMEL_RECORD];
static unsigned long differences;

static void differs(const char *where, int opcode, struct test t, uint32_t found) {
    if (differences++ < 5)
        fprintf(stderr, "testfloat: opcode %d, %s: %08X %08X gives %08X, and is to give %08X\n", opcode, where, t.a, t.b, found, t.result);
}

// Issues sixteen scalar words, one for each case, and one word of lanes, and looks at what they gave.
static void judge(int opcode, const struct test *tests, int count) {
    uint32_t words[LANES + 1], result[KORVAMMEL_RESULT], top = (uint32_t)opcode << 24;
    int is_compare = opcode >= 37 && opcode <= 42, is_unary = opcode >= 48;
    for (uint32_t j = 0; j < LANES; j++) {
        words[j] = top | (D + j) << 18 | (A + j) << 12 | (is_unary ? 0 : (B + j) << 6);
        registers[KORVAMMEL_SCALAR(0, A + j)] = registers[KORVAMMEL_LANE(0, 0, j)] = tests[j].a;
        registers[KORVAMMEL_SCALAR(0, B + j)] = registers[KORVAMMEL_LANE(0, 1, j)] = tests[j].b;
    }
    words[LANES] = top | (is_compare ? ANSWERS << 18 | 1 << 6 | 3 << 1 : is_unary ? 2 << 18 | 6 << 1 : 2 << 18 | 1 << 6 | 7 << 1);
    registers[KORVAMMEL_SCALAR(0, LANE_MASK)] = 0xFFFF;
    registers[KORVAMMEL_SCALAR(0, PROGRAM_COUNTER)] = 0;
    if (korvammel_run(words, LANES + 1, registers, KORVAMMEL_REGISTERS, memory, sizeof memory, record, LANES + 1, result) != 0 ||
        result[0] != KORVAMMEL_SPENT || result[1] != LANES + 1) {
        fprintf(stderr, "testfloat: a run was refused or did not spend its budget\n");
        exit(2);
    }
    for (int j = 0; j < count; j++) {
        uint32_t scalar = registers[KORVAMMEL_SCALAR(0, D + j)], lane = registers[KORVAMMEL_LANE(0, 2, j)];
        if (is_compare) lane = registers[KORVAMMEL_SCALAR(0, ANSWERS)] >> j & 1;
        if (scalar != tests[j].result) differs("scalar", opcode, tests[j], scalar);
        if (lane != tests[j].result) differs("lane", opcode, tests[j], lane);
    }
}

// Sixteen cases for every opcode of a function; where there are fewer the others are of the sixteen before, and not looked at.
static void judge_all(const struct function *f, const struct test *tests, int count) {
    struct test others[LANES];
    judge(f->opcode, tests, count);
    for (int j = 0; j < LANES; j++) others[j] = (struct test){tests[j].b, tests[j].a, tests[j].result};
    if (f->exchanged != 0) judge(f->exchanged, others, count);
    for (int j = 0; j < LANES; j++) others[j] = (struct test){tests[j].a, tests[j].b, !tests[j].result};
    if (f->negated != 0) judge(f->negated, others, count);
}

// A case of a line; a NaN and what does not fit as the paper has them.
static struct test read_case(const struct function *f, char *line) {
    struct test t = {0, 0, 0};
    t.a = (uint32_t)strtoul(line, &line, 16);
    if (f->operands == 2) t.b = (uint32_t)strtoul(line, &line, 16);
    t.result = (uint32_t)strtoul(line, &line, 16);
    uint32_t flags = (uint32_t)strtoul(line, &line, 16);
    if (f->opcode <= 36 && (t.result & 0x7FFFFFFF) > 0x7F800000) t.result = 0x7FC00000;
    if (f->opcode == 49 && (flags & INVALID) != 0) t.result = 0x80000000;
    return t;
}

int main(int count, char **arguments) {
    const struct function *f = NULL;
    for (size_t i = 0; i < sizeof functions / sizeof *functions; i++)
        if (count == 2 && strcmp(arguments[1], functions[i].name) == 0) f = &functions[i];
    if (f == NULL || korvammel_start(1, registers, KORVAMMEL_REGISTERS, record) != 0) return 2;
    struct test tests[LANES] = {{0, 0, 0}};
    char line[128];
    unsigned long cases = 0;
    while (fgets(line, sizeof line, stdin) != NULL) {
        tests[cases++ % LANES] = read_case(f, line);
        if (cases % LANES == 0) judge_all(f, tests, LANES);
    }
    if (cases % LANES != 0) judge_all(f, tests, (int)(cases % LANES));
    printf("%s: %lu cases, %lu differences\n", f->name, cases, differences);
    return cases == 0 || differences != 0;
}
