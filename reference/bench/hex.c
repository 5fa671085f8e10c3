// Measures Intel HEX: the longest program exported and imported.
// hex FILE writes its text to FILE and prints what an import and an export take, in milliseconds; hex FILE WORDS imports a file once.
#include <stdio.h>
#include <stdlib.h>
#include <string.h>
#include <time.h>

#include "korvammel.h"

enum { WORDS = 16384, ROUNDS = 15, TIMES = 20 };
static uint32_t program[WORDS], again[WORDS];
static uint8_t text[KORVAMMEL_HEX(WORDS) + 1];
static size_t length;

static void fail(const char *what) {
    fprintf(stderr, "hex: %s\n", what);
    exit(1);
}

static double seconds(void) {
    struct timespec t;
    clock_gettime(CLOCK_PROCESS_CPUTIME_ID, &t);
    return t.tv_sec + t.tv_nsec / 1e9;
}

static size_t import(void) {
    size_t result[KORVAMMEL_HEX_RESULT];
    if (korvammel_hex_import(text, length, again, WORDS, result) != 0) fail("no words");
    return result[0];
}

static void export(void) {
    if (korvammel_hex_export(program, WORDS, text, sizeof text, &length) != 0) fail("no text");
}

// Writes bytes to a file, whole.
static void write_file(const char *path, const void *bytes, size_t size) {
    FILE *file = fopen(path, "wb");
    if (!file || fwrite(bytes, 1, size, file) != size || fclose(file) != 0) fail("a file that can't be written");
}

static void import_file(const char *from, const char *to) {
    FILE *file = fopen(from, "rb");
    length = file ? fread(text, 1, sizeof text, file) : 0;
    write_file(to, again, 4 * import()); // the lowest byte first, as on this machine
}

int main(int argc, char **argv) {
    double reading = 1e9, writing = 1e9;
    if (argc == 3) {
        import_file(argv[1], argv[2]);
        return 0;
    }
    if (argc != 2) fail("takes a file to write, or one to read and one to write");
    for (uint32_t i = 0; i < WORDS; i++) program[i] = i * 0x9E3779B9u;
    for (int round = 0; round < ROUNDS; round++) {
        double began = seconds();
        for (int k = 0; k < TIMES; k++) export();
        double middle = seconds();
        for (int k = 0; k < TIMES; k++) import();
        double ended = seconds();
        if (middle - began < writing) writing = middle - began;
        if (ended - middle < reading) reading = ended - middle;
    }
    if (memcmp(program, again, sizeof program) != 0) fail("other words");
    write_file(argv[1], text, length);
    printf("%.4f %.4f\n", reading / TIMES * 1e3, writing / TIMES * 1e3);
    return 0;
}
