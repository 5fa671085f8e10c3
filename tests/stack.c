// Measures the stack that the library's calls take: each is made on a stack of its own, whose bytes tell how far it was used.
// stack PROGRAM.. prints for each call the most bytes that it took over all programs.
#define _XOPEN_SOURCE 700
#include <stdio.h>
#include <string.h>
#include <ucontext.h>

#include "korvammel.h"

enum { START, RUN, TRACED, WRITE, READ, WRITE_OLD, WORDS, EXPORT, IMPORT, ASSEMBLE, NIGHT, EMPTY, CALLS };
static const char *const names[CALLS] = {"start", "run", "run_traced", "image_write", "image_read", "image_write_old",
                                         "words", "hex_export", "hex_import", "assemble", "night_minute"};

static uint8_t stack[1 << 20];
static ucontext_t here, there;
static int call;

static uint32_t program[16384], registers[KORVAMMEL_REGISTERS];
static uint32_t rows[1000 * KORVAMMEL_ROW];
static size_t words;
static uint8_t text[KORVAMMEL_HEX(16384)];
static size_t length;
// A source that goes as deep as a line of 120 bytes can: what isn't closed is read to its end all the same.
static const uint8_t source[] = "jmp "
                                "(((((((((((((((((((((((((((((((((((((((((((((((((((((((((("
                                "((((((((((((((((((((((((((((((((((((((((((((((((((((((((((";
static uint8_t memory[128], record[KORVAMMEL_RECORD], image[KORVAMMEL_IMAGE(128)], old[KORVAMMEL_OLD_IMAGE(128)];

// Every word of a program read, written again and named.
static void take_words(void) {
    for (size_t i = 0; i < words; i++) {
        uint32_t instruction[KORVAMMEL_INSTRUCTION], word;
        uint8_t name[8];
        if (korvammel_read_word(program[i], instruction) != 0) continue;
        korvammel_write_word(instruction, &word);
        korvammel_name(instruction, name);
    }
}

static void make(void) {
    uint32_t result[KORVAMMEL_RESULT];
    size_t found[KORVAMMEL_HEX_RESULT];
    uint32_t kept[KORVAMMEL_KEPT] = {1, 119}, reported[KORVAMMEL_NIGHT_RESULT];
    switch (call) {
    case START: korvammel_start(3, registers, KORVAMMEL_REGISTERS, record); break;
    case RUN: korvammel_run(program, words, registers, KORVAMMEL_REGISTERS, memory, sizeof memory, record, 1000, result); break;
    case TRACED:
        korvammel_run_traced(program, words, registers, KORVAMMEL_REGISTERS, memory, sizeof memory, record, 1000, rows, sizeof rows / 4,
                             result);
        break;
    case WRITE: korvammel_image_write(registers, KORVAMMEL_REGISTERS, memory, sizeof memory, record, image, sizeof image); break;
    case READ: korvammel_image_read(image, sizeof image, registers, KORVAMMEL_REGISTERS, memory, sizeof memory, record); break;
    case WRITE_OLD: korvammel_image_write_old(registers, KORVAMMEL_REGISTERS, memory, sizeof memory, record, 1, old, sizeof old); break;
    case WORDS: take_words(); break;
    case EXPORT: korvammel_hex_export(program, words, text, sizeof text, &length); break;
    case IMPORT: korvammel_hex_import(text, length, program, 16384, found); break;
    case ASSEMBLE: korvammel_assemble(source, sizeof source - 1, program, 16384, found); break;
    case NIGHT:
        korvammel_night_minute(program, words, registers, KORVAMMEL_REGISTERS, memory, sizeof memory, record, kept, 180, 0, reported);
        break;
    default: break;
    }
}

// The bytes of the stack that a call used, from the highest to the lowest that it changed.
static size_t used(int number) {
    size_t low = 0;
    call = number;
    memset(stack, 0xA5, sizeof stack);
    getcontext(&there);
    there.uc_stack.ss_sp = stack;
    there.uc_stack.ss_size = sizeof stack;
    there.uc_link = &here;
    makecontext(&there, make, 0);
    swapcontext(&here, &there);
    while (low < sizeof stack && stack[low] == 0xA5) low++;
    return sizeof stack - low;
}

int main(int argc, char **argv) {
    size_t most[CALLS] = {0};
    for (int i = 1; i < argc; i++) {
        FILE *file = fopen(argv[i], "rb");
        if (!file) return 2;
        words = fread(program, 4, 16384, file); // the lowest byte first, as on this machine
        fclose(file);
        size_t without = used(EMPTY);
        for (int number = 0; number < EMPTY; number++) {
            size_t with = used(number);
            if (with - without > most[number]) most[number] = with - without;
        }
    }
    for (int number = 0; number < EMPTY; number++) printf("%s %zu\n", names[number], most[number]);
    return 0;
}
