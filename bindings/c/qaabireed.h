/*
 * Qaabireed: a validator for Ink stories of which every function is proved.
 *
 * Link libqaabireed.a, which `tools/archive` writes to target/staticlib/. It needs
 * nothing but the C library, keeps no state, takes no memory from the heap and holds no pointer
 * after a call, so that calls with different buffers may run at the same time. Every file that was
 * tried took less than 1.75 MiB of stack (docs/DECISIONS.md, Stack).
 *
 * What a caller owes, for both functions:
 * - no pointer is null, also where its length is 0;
 * - each pointer is good for so many elements as its length says, and those to numbers are
 *   aligned as a uint32_t is;
 * - the buffers that are written (index, message, result) overlap no other buffer.
 *
 * Nothing is asked of the bytes of file and target: any content and any length is answered.
 */

#ifndef QAABIREED_H
#define QAABIREED_H

#include <stddef.h>
#include <stdint.h>

#ifdef __cplusplus
extern "C" {
#endif

/* What both functions return: the result was written, or its buffer is too short. */
#define QAABIREED_OK UINT32_C(0)
#define QAABIREED_RESULT_TOO_SHORT UINT32_C(1)

/* Stands where there is no place, name or entry. */
#define QAABIREED_NONE UINT32_C(4294967295)

/* The shortest and the longest file that is not refused. */
#define QAABIREED_SHORTEST_FILE 20
#define QAABIREED_LONGEST_FILE 1048576

/* The shortest message buffer that is not refused. */
#define QAABIREED_MESSAGE_LENGTH 640

/* The shortest index that is not refused for a file of this length, in numbers. */
#define QAABIREED_INDEX_LENGTH(file_len) \
    ((file_len) > QAABIREED_SHORTEST_FILE ? 3 * ((size_t)(file_len) - QAABIREED_SHORTEST_FILE) : 0)

/* The numbers of a check's result. */
enum {
    QAABIREED_CHECK_OUTCOME = 0,        /* QAABIREED_ACCEPTED, _BREACH or _REFUSED */
    QAABIREED_CHECK_NUMBER = 1,         /* accepted: 0; breach: the rule, 1 to 15; refused: 1 to 8 */
    QAABIREED_CHECK_PLACE = 2,          /* the breach's place in the file, else none */
    QAABIREED_CHECK_FIRST_NAME = 3,     /* the place of the count byte of the text's first name, or none */
    QAABIREED_CHECK_SECOND_NAME = 4,    /* likewise of its second name (rule 14 alone has one), or none */
    QAABIREED_CHECK_ENTRIES = 5,        /* how many entries were written to the index; refused: 0 */
    QAABIREED_CHECK_MESSAGE_LENGTH = 6, /* how many bytes were written to the message; no breach: 0 */
    QAABIREED_CHECK_RESULT_LENGTH = 7   /* how many numbers the result has */
};

/* The numbers of a lookup's result. */
enum {
    QAABIREED_LOOKUP_OUTCOME = 0,      /* QAABIREED_ANSWERED or QAABIREED_REFUSED */
    QAABIREED_LOOKUP_NUMBER = 1,       /* answered: QAABIREED_PASS and on; refused: 1 to 7 */
    QAABIREED_LOOKUP_ENTRY = 2,        /* the entry's number in the index, from 0, or none */
    QAABIREED_LOOKUP_ENTRIES = 3,      /* how many entries were written to the index; refused: 0 */
    QAABIREED_LOOKUP_RESULT_LENGTH = 4 /* how many numbers the result has */
};

/* Outcomes. */
enum {
    QAABIREED_ACCEPTED = 0, /* a check found no breach */
    QAABIREED_ANSWERED = 0, /* a lookup was answered */
    QAABIREED_BREACH = 1,
    QAABIREED_REFUSED = 2
};

/* Answers of a lookup. */
enum {
    QAABIREED_PASS = 0,     /* the target is empty, "->" or starts with "$" */
    QAABIREED_FUNCTION = 1, /* it is a function's name */
    QAABIREED_RESERVED = 2, /* it is END, DONE or ->-> */
    QAABIREED_EXACT = 3,    /* it is the spelling of the entry */
    QAABIREED_ENDING = 4,   /* the spelling of the entry ends in "." and the target */
    QAABIREED_MISSING = 5   /* nothing matches */
};

/*
 * Refusals: 1 the file has under 20 or over 1,048,576 bytes; 2 its last four bytes are not the
 * mark; 3 its section starts are out of order; 4 a field or piece runs past its container, or a
 * container has bytes left over; 5 a kind, flag or mode has no meaning; 6 records nest deeper
 * than 64; 7 the index is too short; 8 the message buffer is too short (checks alone).
 */

/*
 * Checks a story file. docs/FORMAT.md says what is in one.
 *
 * Where nothing is refused, the index holds an entry of three numbers for each name that a divert
 * may lead to: flow, stitch and own name, each the place of a count byte or none. On a breach the
 * message is its text, without a final 0. The rest of both buffers stays as it was. A refusal
 * writes to the result alone. Where result_len is under 7, nothing is written anywhere.
 */
uint32_t qaabireed_check(const uint8_t *file, size_t file_len,
                         uint32_t *index, size_t index_len,
                         uint8_t *message, size_t message_len,
                         uint32_t *result, size_t result_len);

/*
 * Looks up what a divert to a target would reach.
 *
 * The index is written as by a check and the rest of it stays; it is not read before. A refusal
 * writes to the result alone. Where result_len is under 4, nothing is written anywhere.
 */
uint32_t qaabireed_lookup(const uint8_t *file, size_t file_len,
                          uint32_t *index, size_t index_len,
                          const uint8_t *target, size_t target_len,
                          uint32_t *result, size_t result_len);

#ifdef __cplusplus
}
#endif

#endif
