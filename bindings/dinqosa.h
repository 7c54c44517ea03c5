/* Which blocks of a farm script can run: the library behind libdinqosa.a.
 *
 * dinqosa_analyze_in needs one block of memory and is the call to take. dinqosa_analyze is lent the parts one by one.
 * dinqosa_read reads the frames of a stored answer back.
 * docs/MEMORY.md says what the answer part holds. */
#ifndef DINQOSA_H
#define DINQOSA_H

#include <stddef.h>
#include <stdint.h>
#include <string.h>

#ifdef __cplusplus
extern "C" {
#endif

/* Bytes of the longest script, and the published lengths in words of 8 bytes. */
#define DINQOSA_SCRIPT_MOST 16384
#define DINQOSA_ANSWER_WORDS 22788
#define DINQOSA_PROGRAM_WORDS 57088
#define DINQOSA_STATE_WORDS 54272

/* Bytes of stack to give a call. Measured, not proved: the deepest script found takes 190,056 (docs/MEMORY.md). */
#define DINQOSA_STACK_BYTES 786432

/* Where the answer part has its tables: totals (functions, blocks, instructions, count), then by block: live;
 * by instruction: kind and payload (a number's in two's complement); users of instruction i stand at users[starts[i]] to users[starts[i + 1] - 1];
 * DINQOSA_ROW_WORDS words of bits a function: its callers. */
#define DINQOSA_LIVE 4
#define DINQOSA_TAGS 259
#define DINQOSA_PAYLOADS 2307
#define DINQOSA_STARTS 4355
#define DINQOSA_USERS 6404
#define DINQOSA_CALLERS 18692
#define DINQOSA_ROW_WORDS 32

/* What a call gives (docs/QUESTIONS.md). 1 and 2 leave all memory as it was; the others clear the published words of all
 * three parts. An answer clears the two work parts and the places of the answer part that it doesn't use. */
enum {
    DINQOSA_ANSWERED = 0,
    DINQOSA_SCRIPT_TOO_LONG = 1,
    DINQOSA_MEMORY_TOO_SHORT = 2,
    DINQOSA_BAD_BYTE = 3,
    DINQOSA_NUMBER_TOO_LARGE = 4,
    DINQOSA_UNEXPECTED_WORD = 5,
    DINQOSA_UNBOUND_NAME = 6,
    DINQOSA_NAME_TAKEN = 7,
    DINQOSA_NOT_CALLABLE = 8,
    DINQOSA_ATTRIBUTE_OUTSIDE_METHOD = 9,
    DINQOSA_AFTER_TERMINATOR = 10,
    DINQOSA_LIMIT = 11,
    DINQOSA_NO_FUNCTION = 12,
    DINQOSA_UNDECLARED_IN_CONSTRUCTOR = 13,
    DINQOSA_RECEIVER_NOT_OBJECT = 14,
    DINQOSA_MEMBER_MISSING = 15,
    DINQOSA_ARGUMENT_MISSING = 16,
    DINQOSA_BARE_CALL_OF_METHOD = 17,
    /* No longer given: a difference has a kind, as a sum has. */
    DINQOSA_SUBTRACTION = 18,
    DINQOSA_KINDS_CLASH = 19,
    DINQOSA_WORKLIST_FULL = 20
};

/* The call as the library has it. The script and the three parts must not overlap: the call can't see it, and gives wrong live
 * blocks. Each part may be longer than its published length; words beyond it are never changed. */
uint8_t dinqosa_analyze(const uint8_t *script, size_t script_len,
                        uint64_t *answer, size_t answer_len,
                        uint64_t *program, size_t program_len,
                        uint64_t *state, size_t state_len);

/* All that a call is lent, side by side. The script's place has one byte more than the longest script, so that a script can be
 * read into it and be found too long. 1,089,576 bytes: not for the stack. */
struct dinqosa_memory {
    uint64_t answer[DINQOSA_ANSWER_WORDS];
    uint64_t program[DINQOSA_PROGRAM_WORDS];
    uint64_t state[DINQOSA_STATE_WORDS];
    uint8_t script[DINQOSA_SCRIPT_MOST + 1];
};

/* The call over one block: the script is copied to its place there first, so nothing overlaps. It may stand anywhere: outside,
 * at its own place in the block (then it isn't moved), or in a part, which the call then overwrites. A script that is too long
 * isn't copied and changes nothing. Never gives DINQOSA_MEMORY_TOO_SHORT. The copy of the script is left in the block. */
static inline uint8_t dinqosa_analyze_in(struct dinqosa_memory *memory, const uint8_t *script, size_t script_len) {
    if (DINQOSA_SCRIPT_MOST < script_len) return DINQOSA_SCRIPT_TOO_LONG;
    if (script_len != 0) memmove(memory->script, script, script_len);
    return dinqosa_analyze(memory->script, script_len, memory->answer, DINQOSA_ANSWER_WORDS,
                           memory->program, DINQOSA_PROGRAM_WORDS, memory->state, DINQOSA_STATE_WORDS);
}

/* What is added to the number of a refusal that was read. */
#define DINQOSA_READ 256
/* Why nothing was read, besides DINQOSA_MEMORY_TOO_SHORT. */
enum {
    /* A line is no legal frame, or isn't ended. */
    DINQOSA_ILLEGAL_LINE = 21,
    /* A frame is missing, repeated or misplaced, a number reaches a total, or there are too many uses. */
    DINQOSA_MISPLACED = 22
};

/* Reads frames, as `live` writes them, of any length. What it gives doesn't fit a uint8_t:
 * DINQOSA_ANSWERED: an answer was read, and the answer part holds what it held after the call that gave it.
 * DINQOSA_READ + n: the refusal n was read, and the published words are clear.
 * DINQOSA_ILLEGAL_LINE, DINQOSA_MISPLACED: nothing was read, and the published words are clear.
 * DINQOSA_MEMORY_TOO_SHORT: nothing was read, and all memory is as it was.
 * The text and the answer part must not overlap. The answer part may be longer than its published length; words beyond it are never
 * changed. */
uint16_t dinqosa_read(const uint8_t *text, size_t text_len, uint64_t *answer, size_t answer_len);

#ifdef __cplusplus
}
#endif

#endif
