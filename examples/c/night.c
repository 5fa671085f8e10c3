// Runs a program of words on a board, and prints what each thread did: night PROGRAM
// Exit status: 0 done, 1 refused with a number of the table, 2 for a file or an output that fails.
#include <stdio.h>
#include <stdlib.h>

#include "korvammel.h"

#if KORVAMMEL_API != 4
#error "night.c was written for version 4 of the library"
#endif

static uint8_t bytes[4 * 16384 + 1]; // one more than the longest program has, so that a longer file is seen
static uint32_t program[16384];
static uint32_t registers[KORVAMMEL_REGISTERS];
static uint8_t memory[128];
static uint8_t record[KORVAMMEL_RECORD];

// The bytes of a file; ends the program where it can't be read.
static size_t size_of(const char *path) {
    FILE *file = fopen(path, "rb");
    size_t size = file ? fread(bytes, 1, sizeof bytes, file) : 0;
    if (!file || ferror(file)) {
        perror(path);
        exit(2);
    }
    fclose(file);
    return size;
}

// The words of so many bytes, the lowest byte first; 0, which a run refuses, where they are not 1 to 16,384 whole words.
static size_t words_of(size_t size) {
    if (size % 4 != 0 || size / 4 > 16384) return 0;
    for (size_t i = 0; i < size / 4; i++) {
        const uint8_t *b = bytes + 4 * i;
        program[i] = b[0] | (uint32_t)b[1] << 8 | (uint32_t)b[2] << 16 | (uint32_t)b[3] << 24;
    }
    return size / 4;
}

// The turns that a thread has had.
static unsigned turns_of(int t) {
    const uint8_t *b = record + KORVAMMEL_TURNS(t);
    return b[0] | (uint32_t)b[1] << 8 | (uint32_t)b[2] << 16 | (uint32_t)b[3] << 24;
}

int main(int argc, char **argv) {
    static const char *const endings[] = {"refused", "stopped", "stuck", "spent"};
    static const char *const statuses[] = {"idle", "running", "ended", "trapped", "waiting"};
    if (argc != 2) {
        fprintf(stderr, "night takes a program's file name\n");
        return 2;
    }
    size_t words = words_of(size_of(argv[1]));
    uint32_t number = korvammel_start(3, registers, KORVAMMEL_REGISTERS, record);
    uint32_t result[KORVAMMEL_RESULT] = {0};
    if (number == 0) number = korvammel_run(program, words, registers, KORVAMMEL_REGISTERS, memory, sizeof memory, record, 1000, result);
    if (number != 0) {
        fprintf(stderr, "refused %u\n", (unsigned)number);
        return 1;
    }
    printf("%s after %u issue%s\n", endings[result[0]], (unsigned)result[1], result[1] == 1 ? "" : "s");
    for (int t = 0; t < 8; t++) {
        uint8_t status = record[KORVAMMEL_STATUS(t)];
        unsigned address = registers[KORVAMMEL_SCALAR(t, 63)];
        if (status != KORVAMMEL_IDLE) printf("thread %d %s at %08X, %u turns\n", t, statuses[status], address, turns_of(t));
    }
    printf("looks %llu\n", (unsigned long long)KORVAMMEL_LOOKS(result));
    for (int relay = 64; relay < 77; relay++) putchar(memory[relay] ? '1' : '0');
    putchar('\n');
    if (fflush(stdout) != 0) {
        perror("standard output");
        return 2;
    }
    return 0;
}
