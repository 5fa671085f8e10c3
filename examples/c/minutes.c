// The night box on a board: minutes PROGRAM reads a minute of the day a line, an f right behind it for the autumn fall-back, and prints
// the minute, the minutes skipped and the relays. Exit status: 0 done, 1 for a file that is no program, 2 for a file or output that fails.
#include <stdio.h>
#include <stdlib.h>

#include "korvammel.h"

#if KORVAMMEL_API != 4
#error "minutes.c was written for version 4 of the library"
#endif

static uint8_t bytes[4 * 16384 + 1]; // one more than the longest program has, so that a longer file is seen
static uint32_t program[16384];
static uint32_t registers[KORVAMMEL_REGISTERS];
static uint8_t memory[128];
static uint8_t record[KORVAMMEL_RECORD];
static uint32_t kept[KORVAMMEL_KEPT];

// The words of a file, the lowest byte first; 0 where it does not hold 1 to 16,384 whole words.
static size_t words_of(const char *path) {
    FILE *file = fopen(path, "rb");
    size_t size = file ? fread(bytes, 1, sizeof bytes, file) : 0;
    if (!file || ferror(file)) {
        perror(path);
        exit(2);
    }
    fclose(file);
    if (size % 4 != 0 || size / 4 > 16384) return 0;
    for (size_t i = 0; i < size / 4; i++) {
        const uint8_t *b = bytes + 4 * i;
        program[i] = b[0] | (uint32_t)b[1] << 8 | (uint32_t)b[2] << 16 | (uint32_t)b[3] << 24;
    }
    return size / 4;
}

// Reads a line of any length: its minute and its mark. The minute is 1440 or more, which the box refuses with 19, where the line is no such
// number. Answers 0 at the end of the input.
static int read_minute(uint32_t *minute, uint32_t *fall_back) {
    int byte = getchar(), digits = 0, wrong = 0;
    if (byte == EOF) return 0;
    *minute = *fall_back = 0;
    for (; byte != '\n' && byte != EOF; byte = getchar()) {
        if (byte >= '0' && byte <= '9' && !*fall_back) {
            digits = 1;
            if (*minute < 1440) *minute = 10 * *minute + (uint32_t)(byte - '0');
        } else if (byte == 'f' && digits && !*fall_back) {
            *fall_back = 1;
        } else {
            wrong = 1;
        }
    }
    if (!digits || wrong) *minute = 1440;
    return 1;
}

int main(int argc, char **argv) {
    uint32_t minute, fall_back, result[KORVAMMEL_NIGHT_RESULT];
    if (argc != 2) {
        fprintf(stderr, "minutes takes a program's file name\n");
        return 2;
    }
    size_t words = words_of(argv[1]);
    if (words == 0) {
        printf("refused 1\n");
        return 1;
    }
    korvammel_start(255, registers, KORVAMMEL_REGISTERS, record);
    while (read_minute(&minute, &fall_back)) {
        uint32_t number = korvammel_night_minute(program, words, registers, KORVAMMEL_REGISTERS, memory, sizeof memory, record, kept,
                                                 minute, fall_back, result);
        if (number != 0) {
            printf("refused %u\n", (unsigned)number);
        } else {
            printf("%u %u %u\n", (unsigned)minute, (unsigned)result[0], (unsigned)result[1]);
        }
        if (fflush(stdout) != 0) {
            perror("standard output");
            return 2;
        }
    }
    if (ferror(stdin)) {
        perror("standard input");
        return 2;
    }
    return 0;
}
