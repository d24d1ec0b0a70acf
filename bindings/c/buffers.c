/* Holds both functions to what the header says of short, exact and longer buffers. */

#include "qaabireed.h"

#include <stdio.h>
#include <string.h>

/* The empty story with one global "a": 22 bytes. */
static const uint8_t story[] = {1, 'a', 0, 0, 0, 0, 2, 0, 0, 0, 2, 0, 0, 0, 2, 0, 0, 0, 0x49, 0x4B, 1, 0};

/* A divert to "x", which is not there: 27 bytes. */
static const uint8_t breach[] = {3, 2, 0, 0, 0, 1, 'x', 0, 0, 0, 0, 0, 0, 0,
                                 0, 0, 0, 0, 0, 7, 0, 0, 0, 0x49, 0x4B, 1, 0};

static uint32_t index_numbers[99], result[9];
static uint8_t message[700];
static int failures;

/* Fills every buffer with bytes A5. */
static void fill(void)
{
    memset(index_numbers, 0xA5, sizeof index_numbers);
    memset(message, 0xA5, sizeof message);
    memset(result, 0xA5, sizeof result);
}

/* Whether all bytes from a place on are still A5. */
static int old(const void *buffer, size_t from, size_t size)
{
    const uint8_t *bytes = buffer;
    while (from < size)
        if (bytes[from++] != 0xA5)
            return 0;
    return 1;
}

/* Notes a failure. */
static void expect(int holds, const char *what)
{
    if (!holds) {
        printf("FAILED: %s\n", what);
        failures++;
    }
}

/* Whether index and message are as they were from these lengths on. */
static int untouched(size_t numbers, size_t bytes)
{
    return old(index_numbers, 4 * numbers, sizeof index_numbers) && old(message, bytes, sizeof message);
}

/* Checks with buffers of these lengths. */
static uint32_t check(const uint8_t *file, size_t file_len, size_t index_len, size_t message_len, size_t result_len)
{
    fill();
    return qaabireed_check(file, file_len, index_numbers, index_len, message, message_len, result, result_len);
}

/* Looks "a" up with buffers of these lengths. */
static uint32_t look_up(size_t index_len, size_t result_len)
{
    static const uint8_t target[] = {'a'};
    fill();
    return qaabireed_lookup(story, sizeof story, index_numbers, index_len, target, 1, result, result_len);
}

/* Checks. */
static void checks(void)
{
    expect(check(story, sizeof story, 6, 640, 6) == QAABIREED_RESULT_TOO_SHORT, "check: six numbers are too few");
    expect(untouched(0, 0) && old(result, 0, sizeof result), "check: nothing is written");
    expect(check(story, sizeof story, 6, 640, 0) == QAABIREED_RESULT_TOO_SHORT, "check: no number is too few");
    expect(check(story, sizeof story, 6, 640, 9) == QAABIREED_OK, "check: nine numbers are enough");
    expect(result[0] == 0 && result[1] == 0 && result[2] == QAABIREED_NONE, "check: accepted");
    expect(result[3] == QAABIREED_NONE && result[4] == QAABIREED_NONE, "check: no names");
    expect(result[5] == 1 && result[6] == 0 && old(result, 28, sizeof result), "check: one entry, the rest stays");
    expect(index_numbers[0] == QAABIREED_NONE && index_numbers[1] == QAABIREED_NONE && index_numbers[2] == 0,
           "check: the entry");
    expect(untouched(3, 0), "check: the rest of the index stays");
    expect(check(story, sizeof story, 5, 640, 7) == QAABIREED_OK && result[0] == 2 && result[1] == 7,
           "check: refused 7");
    expect(result[2] == QAABIREED_NONE && result[5] == 0 && result[6] == 0 && untouched(0, 0), "check: 7 writes nothing");
    expect(check(story, sizeof story, 6, 639, 7) == QAABIREED_OK && result[0] == 2 && result[1] == 8,
           "check: refused 8");
    expect(untouched(0, 0), "check: 8 writes nothing");
    expect(check(breach, sizeof breach, 21, 700, 7) == QAABIREED_OK && result[0] == 1 && result[1] == 2,
           "check: breach 2");
    expect(result[2] == 0 && result[3] == 5 && result[4] == QAABIREED_NONE && result[6] == 31, "check: its numbers");
    expect(memcmp(message, "Divert target not found: '-> x'", 31) == 0 && untouched(0, 31), "check: its text");
}

/* Lookups. */
static void lookups(void)
{
    expect(look_up(6, 3) == QAABIREED_RESULT_TOO_SHORT, "lookup: three numbers are too few");
    expect(untouched(0, 0) && old(result, 0, sizeof result), "lookup: nothing is written");
    expect(look_up(6, 9) == QAABIREED_OK, "lookup: nine numbers are enough");
    expect(result[0] == 0 && result[1] == QAABIREED_EXACT && result[2] == 0 && result[3] == 1, "lookup: exact");
    expect(old(result, 16, sizeof result) && untouched(3, 0), "lookup: the rest stays");
    expect(look_up(5, 4) == QAABIREED_OK && result[0] == 2 && result[1] == 7, "lookup: refused 7");
    expect(result[2] == QAABIREED_NONE && result[3] == 0 && untouched(0, 0), "lookup: 7 writes nothing");
}

int main(void)
{
    checks();
    lookups();
    puts(failures == 0 ? "passed" : "failed");
    return failures != 0;
}
