/* Korvammel for a board: the old pavement-heating core, run by proved code.
 *
 * Every function takes numbers and lent arrays, uses no heap, keeps nothing between calls, always ends, and answers 0 or a number of
 * this table. Where it answers a number of the table, every lent array holds what it held before, except where the function says
 * otherwise. (korvammel_name answers a length.)
 *
 * The library is for x86-64 Linux, in C's own calling convention there. A call needs at most 3,712 bytes of stack (on words; a
 * traced run 2,944, the others under 2,048), but for korvammel_assemble, which says its own. It uses the red zone, the 128 bytes below the
 * stack pointer, which are among these: an interrupt that comes in on the same stack has to leave them alone. Of the C library it calls
 * memset alone.
 *
 * Float words (R opcodes 33 to 42) are worked out by the processor's float unit: korvammel_run, korvammel_run_traced and
 * korvammel_night_minute have to be called with the default floating-point environment, rounding to nearest, with no flush to zero and no
 * denormals as zero (MXCSR as the system sets it). A program that is linked with -ffast-math (or -Ofast, -funsafe-math-optimizations)
 * does not have it: what GCC links in then sets both at the start. Nor has one that calls fesetround or writes MXCSR and does not set it
 * back. Floating-point exceptions have to stay masked, as they are there: a run sets the flags of that environment.
 *
 * A pointer is never null, and is aligned for its type. It points to an array of the length that stands beside it, or of the length
 * in brackets. An array that a call writes shares no byte with another that the call takes.
 *
 *    1  the program has 0 or more than 16,384 words
 *    2  the register room is not 8,704 words
 *    3  the memory's length is not allowed: a multiple of 64, from 64 to 65,536
 *    4  the machine record is not well formed, a number in it is out of range, or a field not carried is not 0
 *    5  the start mask is 0 or above 255
 *    6  the instruction has no word
 *    7  the word is undefined
 *    8  the word is not fitted
 *    9  the image's length is not that of its form: 36,980 + 68 x (memory length / 64), in the old form 36,948 + the same; reading
 *       takes either
 *   10  a record of the image (or of a machine record) has a wrong mark, or a thread, register or block number out of place
 *   11  the old form is asked for, a count of turns is not 0, and dropping the counts is not allowed
 *   12  a source is too long, a line of it too long or malformed, or its instruction has no word
 *   13  a label of a source is unknown, repeated or the 257th
 *   14  parentheses in a source are too deep, or a number or sum too large
 *   15  a line of Intel HEX is no record of type 00, 01 or 04, or its checksum is wrong
 *   16  a record of Intel HEX begins before the end of the last one, or goes past FFFF
 *   17  Intel HEX has no end record, or something behind it
 *   18  the buffer for words or text is too short
 *   19  the minute, or the one kept from the last call, is above 1439
 *   20  the memory has fewer than 128 bytes
 *
 * They are checked in the order 1, 2, 3, 5, 9, 10, 4, 11, and the first that applies is given. The calls on Intel HEX, on text and on the
 * night box say their own.
 */
#ifndef KORVAMMEL_H
#define KORVAMMEL_H

#include <stddef.h>
#include <stdint.h>

#ifdef __cplusplus
extern "C" {
#endif

/* Raised whenever an array's length, the place of something in it or the meaning of a number changes: a board's program can ask for the
 * one that it was written for. */
#define KORVAMMEL_API 4

/* Words of the register room: thread t (0..7), scalar i at 64t+i; vector i, lane j at 512+1024t+16i+j. */
#define KORVAMMEL_REGISTERS 8704
#define KORVAMMEL_SCALAR(t, i) (64 * (t) + (i))
#define KORVAMMEL_LANE(t, i, j) (512 + 1024 * (t) + 16 * (i) + (j))

/* Bytes of a machine record: as an image begins, "HD", last, enabled, and then for each of the eight threads "TI", thread, status,
 * reason, id, count, and the count of its turns in four bytes, the lowest first. */
#define KORVAMMEL_RECORD 92

/* The places of these numbers in a record; of thread t (0..7) its status, what the status carries, 0 where it does not, and the first
 * byte of its count of turns: the issues that it has had since its start, modulo 2^32. */
#define KORVAMMEL_LAST 2
#define KORVAMMEL_ENABLED 3
#define KORVAMMEL_STATUS(t) (11 * (t) + 7)
#define KORVAMMEL_REASON(t) (11 * (t) + 8)
#define KORVAMMEL_BARRIER(t) (11 * (t) + 9)
#define KORVAMMEL_COUNT(t) (11 * (t) + 10)
#define KORVAMMEL_TURNS(t) (11 * (t) + 11)

/* Statuses. */
#define KORVAMMEL_IDLE 0
#define KORVAMMEL_RUNNING 1
#define KORVAMMEL_ENDED 2
#define KORVAMMEL_TRAPPED 3 /* with a reason, 1 to 6 */
#define KORVAMMEL_WAITING 4 /* with a barrier id, 0 to 31, and a count, 1 to 8 */

/* Bytes of the image of a machine with so many bytes of memory, and of one in the old form, which has no counts of turns ("TH" in place
 * of "TI", without the last four bytes). */
#define KORVAMMEL_IMAGE(memory_length) (36980 + 68 * ((memory_length) / 64))
#define KORVAMMEL_OLD_IMAGE(memory_length) (36948 + 68 * ((memory_length) / 64))

/* An instruction is six numbers: its format (0 R, 1 I, 2 MOVEI, 3 J, 4 C, 5 M), its opcode in that format, its vector flags, and
 *   R      d, a, b              flags of d, a and b, d highest
 *   I      d, a, immediate      flags of d and a, d highest
 *   MOVEI  d, immediate, 0      the flag of d; movei's immediate is signed, -32768 to 32767, moveil's and moveih's are 0 to 65535
 *   J      register, offset, 0  0
 *   C      first, second, 0     0
 *   M      register, base, offset  0
 * A signed number is held modulo 2^32: -1 is 0xFFFFFFFF. */
#define KORVAMMEL_INSTRUCTION 6

/* Reads a word into the six numbers of its instruction. Answers 0, 7 or 8. */
uint32_t korvammel_read_word(uint32_t word, uint32_t instruction[KORVAMMEL_INSTRUCTION]);

/* Writes the word of an instruction. Answers 0 or 6: also where the numbers are those of no instruction, because a number is too large
 * for its field, no line of that format has the opcode, or a number that the format does not use is not 0. */
uint32_t korvammel_write_word(const uint32_t instruction[KORVAMMEL_INSTRUCTION], uint32_t *word);

/* Bytes that an instruction's name is put into. */
#define KORVAMMEL_NAME 8

/* Puts an instruction's name, in ASCII with zeros behind it, and answers its length, 2 to 8. Where the instruction has no word, so that
 * korvammel_write_word answers 6, it answers 0 and leaves `name`. */
size_t korvammel_name(const uint32_t instruction[KORVAMMEL_INSTRUCTION], uint8_t name[KORVAMMEL_NAME]);

/* Bytes of the text that a program of so many words, 1 to 16,384, is exported as. */
#define KORVAMMEL_HEX(words) (12 * (((words) + 3) / 4) + 8 * (words) + 12)

/* Numbers that an import reports: how many words, and the line that is refused. */
#define KORVAMMEL_HEX_RESULT 2

/* Imports a program from Intel HEX, a text of any length: puts its words at the start of `program`, and leaves what stands behind them.
 * Lines end in LF or CR LF, the last too; addresses rise, and what no record covers below the last one's end is zero. Answers 0; 15, 16 or
 * 17, the first in the file and on one line in the order 17, 15, 16; then 1, also for part words; then 18. `result` becomes the number of
 * words and 0, or, where it answers a number of the table, 0 and the line, counted from 1, or 0 for 1 and 18; `program` is then left. */
uint32_t korvammel_hex_import(const uint8_t *text, size_t text_length, uint32_t *program, size_t program_length,
                              size_t result[KORVAMMEL_HEX_RESULT]);

/* Exports a program into Intel HEX: 16 data bytes a record, the last may be shorter, LF behind each line, no type 04. Puts the text at the
 * start of `text`, leaves what stands behind it, and puts its length, KORVAMMEL_HEX(program_length), into `length`. Answers 0, 1, then
 * 18. Importing the text gives the program again. */
uint32_t korvammel_hex_export(const uint32_t *program, size_t program_length, uint8_t *text, size_t text_length, size_t *length);

/* Numbers that an assembly reports: how many words, and the line that is refused. */
#define KORVAMMEL_ASSEMBLE_RESULT 2

/* Assembles a program that is written as text (docs/WRITING-PROGRAMS.md), a source of any length: puts its words at the start of `program`,
 * and leaves what stands behind them. 16,384 words are always room enough. Answers 0; 12 for a source of more than 65,536 bytes; then 12
 * for the first line that is too long or malformed; then 13 for the first with a label that is unknown, repeated or the 257th; then, for
 * the first of these, 14 where parentheses are too deep or a number or sum too large, else 12 where the instruction has no word; then 1;
 * then 18. `result` becomes the number of words and 0, or, where it answers a number of the table, 0 and the line, counted from 1, or 0
 * for 1, 18 and a source that is too long; `program` is then left.
 * It needs up to 221,184 bytes of stack, for a table of the source's labels. */
uint32_t korvammel_assemble(const uint8_t *source, size_t source_length, uint32_t *program, size_t program_length,
                            size_t result[KORVAMMEL_ASSEMBLE_RESULT]);

/* Starts the threads of a mask, bit t for thread t: clears the registers, sets every s59 to 0xFFFF, and writes the record. Answers 0,
 * 2 or 5; where it answers 2 or 5 it writes a record with every number 0, and leaves the registers. */
uint32_t korvammel_start(uint32_t mask, uint32_t *registers, size_t registers_length, uint8_t record[KORVAMMEL_RECORD]);

/* How a run ended. */
#define KORVAMMEL_REFUSED 0 /* it did not begin */
#define KORVAMMEL_STOPPED 1 /* no thread is running, and none waits */
#define KORVAMMEL_STUCK 2   /* no thread is running, and one waits at a barrier */
#define KORVAMMEL_SPENT 3   /* the budget of issues is used up */

/* Numbers that a run reports: how it ended, how many issues it made, and how many thread entries it looked at to choose whose turn it is,
 * the low 32 bits and then the high ones. */
#define KORVAMMEL_RESULT 4

/* How many entries that is: for each issue the distance from the last thread issued round to its own, 1 to 8; and once more at the end,
 * 8 where no thread is running. At most 8 times the issues plus 8. */
#define KORVAMMEL_LOOKS(result) ((uint64_t)(result)[3] << 32 | (result)[2])

/* Runs a program until it is stopped, stuck or spent. Leaves the registers, the memory and the record as the issues made them, and
 * puts how it ended, the number of issues made and its looks into `result`. Answers 0, 1, 2, 3, 10 or 4; where it answers a number of
 * the table, every number of `result` becomes 0 (refused, no issue, no look), and all else is left. */
uint32_t korvammel_run(const uint32_t *program, size_t program_length, uint32_t *registers, size_t registers_length, uint8_t *memory,
                       size_t memory_length, uint8_t record[KORVAMMEL_RECORD], uint32_t budget, uint32_t result[KORVAMMEL_RESULT]);

/* Numbers of a row of a trace, one row for each issue in order: the thread; the address of its word, s63 before the issue; the word, 0
 * where s63 is no word's address, so that none was fetched; and the thread's status after the issue, with its reason, barrier id and
 * count, 0 where that status does not carry them. */
#define KORVAMMEL_ROW 7
#define KORVAMMEL_ROW_THREAD(i) (7 * (i))
#define KORVAMMEL_ROW_ADDRESS(i) (7 * (i) + 1)
#define KORVAMMEL_ROW_WORD(i) (7 * (i) + 2)
#define KORVAMMEL_ROW_STATUS(i) (7 * (i) + 3)
#define KORVAMMEL_ROW_REASON(i) (7 * (i) + 4)
#define KORVAMMEL_ROW_BARRIER(i) (7 * (i) + 5)
#define KORVAMMEL_ROW_COUNT(i) (7 * (i) + 6)

/* Runs a program as korvammel_run does, with the smaller of the budget and the number of whole rows that `rows` has room for
 * (rows_length / KORVAMMEL_ROW, and it may be 0), and puts a row for each issue at the start of `rows`: row i, counted from 0, is issue
 * i + 1. What stands behind the last row is left, and so is what is left over of a length that is no whole number of rows. Answers what
 * korvammel_run answers; where that is a number of the table, `rows` is left too. To go on with a list that was too short, call it again
 * with what is left of the budget: the issues are those of one longer call, and so is all but `result`, whose looks count the thread
 * that is next in both. */
uint32_t korvammel_run_traced(const uint32_t *program, size_t program_length, uint32_t *registers, size_t registers_length, uint8_t *memory,
                              size_t memory_length, uint8_t record[KORVAMMEL_RECORD], uint32_t budget, uint32_t *rows,
                              size_t rows_length, uint32_t result[KORVAMMEL_RESULT]);

/* Numbers that the night box keeps from call to call: { 0, any } before the first, and then { 1, the minute } of the last call that was
 * not refused. Any first number but 0 says that the second is a minute. */
#define KORVAMMEL_KEPT 2

/* Numbers that a minute reports: the minutes skipped since the last one, and the relays, 0 to 65535. */
#define KORVAMMEL_NIGHT_RESULT 2

/* One local minute of the night box. Puts `minute`, 0 to 1439, into bytes 0 to 3 of memory and the minutes skipped since the last call into
 * bytes 4 to 7, runs 4,096 issues, and takes the relays from the low 16 bits of the word at byte 64. Skipped are the minutes strictly
 * between the kept one and this, forward round midnight; none where nothing is kept, the minute is the same, or `fall_back` is not 0: any
 * number but 0 marks that the clock fell back in autumn. Leaves the registers, the memory and the record as the issues made them, and puts
 * the minute into `kept` and what it reports into `result`. Answers 0; 20, 19, 1, 2, 3, 10 or 4, in this order; where it answers a
 * number of the table, `result` becomes 0, 0, and all else is left, `kept` too. */
uint32_t korvammel_night_minute(const uint32_t *program, size_t program_length, uint32_t *registers, size_t registers_length,
                                uint8_t *memory, size_t memory_length, uint8_t record[KORVAMMEL_RECORD], uint32_t kept[KORVAMMEL_KEPT],
                                uint32_t minute, uint32_t fall_back, uint32_t result[KORVAMMEL_NIGHT_RESULT]);

/* Writes a machine's image: every byte of it. Answers 0, 2, 3, 9, 10 or 4. */
uint32_t korvammel_image_write(const uint32_t *registers, size_t registers_length, const uint8_t *memory, size_t memory_length,
                               const uint8_t record[KORVAMMEL_RECORD], uint8_t *image, size_t image_length);

/* Writes a machine's image in the old form, which has no counts of turns: every byte of it. They are 0, or `drop` allows them to be left
 * out: it does where it is not 0. Answers 0, 2, 3, 9, 10, 4 or 11. */
uint32_t korvammel_image_write_old(const uint32_t *registers, size_t registers_length, const uint8_t *memory, size_t memory_length,
                                   const uint8_t record[KORVAMMEL_RECORD], uint32_t drop, uint8_t *image, size_t image_length);

/* Reads an image of either form, which its length tells, into registers, memory and record; from an old one every count of turns is 0.
 * Answers 0, 2, 3, 9, 10 or 4; where it answers a number it writes a record with every number 0, and leaves registers and memory. */
uint32_t korvammel_image_read(const uint8_t *image, size_t image_length, uint32_t *registers, size_t registers_length, uint8_t *memory,
                              size_t memory_length, uint8_t record[KORVAMMEL_RECORD]);

#ifdef __cplusplus
}
#endif

#endif
