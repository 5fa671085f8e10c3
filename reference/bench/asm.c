// Measures the assembler on a source as long as it may be.
// asm OURS THEIRS writes the source to OURS, like lines for GNU as to THEIRS, and prints how many lines there are and what an assembly takes,
// in milliseconds; asm OURS WORDS -f assembles a file once.
#include <stdio.h>
#include <stdlib.h>
#include <time.h>

#include "korvammel.h"

enum { WORDS = 16384, LONGEST = 65536, GROUP = 5, ROUNDS = 15, TIMES = 20 };
static uint32_t program[WORDS];
static char text[LONGEST + 1], theirs[4 * LONGEST];
static size_t length, their_length;

static void fail(const char *what) {
    fprintf(stderr, "asm: %s\n", what);
    exit(1);
}

static double seconds(void) {
    struct timespec t;
    clock_gettime(CLOCK_PROCESS_CPUTIME_ID, &t);
    return t.tv_sec + t.tv_nsec / 1e9;
}

static size_t assemble(void) {
    size_t result[KORVAMMEL_ASSEMBLE_RESULT];
    if (korvammel_assemble((const uint8_t *)text, length, program, WORDS, result) != 0) fail("no words");
    return result[0];
}

static void write_file(const char *path, const void *bytes, size_t size) {
    FILE *file = fopen(path, "wb");
    if (!file || fwrite(bytes, 1, size, file) != size || fclose(file) != 0) fail("a file that can't be written");
}

static void assemble_file(const char *from, const char *to) {
    FILE *file = fopen(from, "rb");
    length = file ? fread(text, 1, sizeof text, file) : 0;
    write_file(to, program, 4 * assemble()); // the lowest byte first, as on this machine
}

// Lines in groups of five, the first sixty with a label before them that the last line jumps to: how many lines there are.
static int make(void) {
    int lines = 0;
    for (int group = 0; length + 100 < LONGEST; group++) {
        char name[3] = {(char)('a' + group % 60 / 26), (char)('a' + group % 60 % 26), 0};
        if (group < 60) {
            length += (size_t)sprintf(text + length, "%s:\n", name);
            their_length += (size_t)sprintf(theirs + their_length, "%s:\n", name);
            lines++;
        }
        length += (size_t)sprintf(text + length, "add s3,s1,s2\naddi s4,s4,-1\nload32 s2,8(s1)\nmovei s5,0x1F\nbnez s4,%s\n", name);
        their_length += (size_t)sprintf(theirs + their_length, "add %%ecx,%%edx\nadd $-1,%%ebx\nmov 8(%%rsi),%%eax\nmov $0x1F,%%edi\njnz %s\n", name);
        lines += GROUP;
    }
    return lines;
}

int main(int argc, char **argv) {
    double took = 1e9;
    if (argc == 4) {
        assemble_file(argv[1], argv[2]);
        return 0;
    }
    if (argc != 3) fail("takes two files to write");
    int lines = make();
    for (int round = 0; round < ROUNDS; round++) {
        double began = seconds();
        for (int k = 0; k < TIMES; k++) assemble();
        double ended = seconds();
        if (ended - began < took) took = ended - began;
    }
    write_file(argv[1], text, length);
    write_file(argv[2], theirs, their_length);
    printf("%d %.4f\n", lines, took / TIMES * 1e3);
    return 0;
}
