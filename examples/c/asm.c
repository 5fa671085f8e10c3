// Assembles a program on a board, and prints its words in hex, one a line: asm FILE
// Exit status: 0 done, 1 refused, as FILE:LINE:NUMBER, 2 for a file or an output that fails.
#include <stdio.h>

#include "korvammel.h"

static uint8_t source[65537]; // one byte more than a source may have, so that a longer one is refused
static uint32_t program[16384];

int main(int argc, char **argv) {
    FILE *file = argc == 2 ? fopen(argv[1], "rb") : NULL;
    size_t length = file ? fread(source, 1, sizeof source, file) : 0;
    if (!file || ferror(file)) {
        fprintf(stderr, "asm takes the name of a file\n");
        return 2;
    }
    fclose(file);
    size_t result[KORVAMMEL_ASSEMBLE_RESULT];
    uint32_t number = korvammel_assemble(source, length, program, 16384, result);
    if (number != 0) {
        fprintf(stderr, "%s:%zu:%u\n", argv[1], result[1], (unsigned)number);
        return 1;
    }
    for (size_t k = 0; k < result[0]; k++) printf("%08X\n", (unsigned)program[k]);
    return fflush(stdout) == 0 ? 0 : 2;
}
