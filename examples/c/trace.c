// A trace on a board, page by page: trace PROGRAM runs threads 0 and 1 on 128 bytes of memory, 1,000 issues at most, and prints for each
// issue the thread, the address, the word, and the thread's status after it, with its reason, barrier id and count.
// Exit status: 0 done, 1 refused, 2 for a file or an output that fails.
#include <stdio.h>

#include "korvammel.h"

enum { ROWS = 16, BUDGET = 1000 };

static uint8_t bytes[4 * 16384 + 1]; // one more than the longest program has, so that a longer file is seen
static uint32_t program[16384];
static uint32_t registers[KORVAMMEL_REGISTERS];
static uint8_t memory[128];
static uint8_t record[KORVAMMEL_RECORD];
static uint32_t rows[ROWS * KORVAMMEL_ROW];

static void print_row(size_t i) {
    printf("%u %08X %08X %u %u %u %u\n", (unsigned)rows[KORVAMMEL_ROW_THREAD(i)], (unsigned)rows[KORVAMMEL_ROW_ADDRESS(i)],
           (unsigned)rows[KORVAMMEL_ROW_WORD(i)], (unsigned)rows[KORVAMMEL_ROW_STATUS(i)], (unsigned)rows[KORVAMMEL_ROW_REASON(i)],
           (unsigned)rows[KORVAMMEL_ROW_BARRIER(i)], (unsigned)rows[KORVAMMEL_ROW_COUNT(i)]);
}

int main(int argc, char **argv) {
    FILE *file = argc == 2 ? fopen(argv[1], "rb") : NULL;
    size_t size = file ? fread(bytes, 1, sizeof bytes, file) : 0;
    uint32_t result[KORVAMMEL_RESULT], number, left = BUDGET;
    if (!file || ferror(file)) {
        fprintf(stderr, "trace takes a program's file name\n");
        return 2;
    }
    fclose(file);
    for (size_t i = 0; i < size / 4 && i < 16384; i++) {
        const uint8_t *b = bytes + 4 * i;
        program[i] = b[0] | (uint32_t)b[1] << 8 | (uint32_t)b[2] << 16 | (uint32_t)b[3] << 24;
    }
    // a file that is no whole number of words is no program
    size_t words = size % 4 == 0 ? size / 4 : 0;
    korvammel_start(3, registers, KORVAMMEL_REGISTERS, record);
    do {
        number = korvammel_run_traced(program, words, registers, KORVAMMEL_REGISTERS, memory, sizeof memory, record, left, rows,
                                      ROWS * KORVAMMEL_ROW, result);
        if (number != 0) {
            printf("refused %u\n", (unsigned)number);
            return 1;
        }
        for (size_t i = 0; i < result[1]; i++) print_row(i);
        left -= result[1];
    } while (result[0] == KORVAMMEL_SPENT && left > 0);
    return fflush(stdout) == 0 ? 0 : 2;
}
