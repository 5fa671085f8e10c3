// Reads a program in Intel HEX on a board, and prints it again as Intel HEX: hex FILE
// Exit status: 0 done, 1 refused, as FILE:LINE:NUMBER, 2 for a file or an output that fails.
#include <stdio.h>

#include "korvammel.h"

static uint8_t text[1 << 20]; // the library takes a text of any length: what has room is the caller's to say
static uint32_t program[16384];

int main(int argc, char **argv) {
    FILE *file = argc == 2 ? fopen(argv[1], "rb") : NULL;
    size_t length = file ? fread(text, 1, sizeof text, file) : 0;
    if (!file || ferror(file) || length == sizeof text) {
        fprintf(stderr, "hex takes the name of a file under 1 MiB\n");
        return 2;
    }
    fclose(file);
    size_t result[KORVAMMEL_HEX_RESULT];
    uint32_t number = korvammel_hex_import(text, length, program, 16384, result);
    if (number != 0) {
        fprintf(stderr, "%s:%zu:%u\n", argv[1], result[1], (unsigned)number);
        return 1;
    }
    // a program that was imported has 1 to 16,384 words, and the longest text 180,236 bytes
    korvammel_hex_export(program, result[0], text, sizeof text, &length);
    return fwrite(text, 1, length, stdout) == length && fflush(stdout) == 0 ? 0 : 2;
}
