/* Checks the story file on standard input, then looks up each argument as a divert's target. */

#include "qaabireed.h"

#include <stdio.h>
#include <stdlib.h>
#include <string.h>

/* One byte more than the longest file, so that a longer one is seen to be longer. */
static uint8_t file[QAABIREED_LONGEST_FILE + 1];

/* Prints a check's result as one line and gives the exit status. */
static int report(const uint32_t *result, const uint8_t *message)
{
    switch (result[QAABIREED_CHECK_OUTCOME]) {
    case QAABIREED_ACCEPTED:
        printf("accepted, %lu entries\n", (unsigned long)result[QAABIREED_CHECK_ENTRIES]);
        return 0;
    case QAABIREED_BREACH:
        printf("breach %lu at %lu: %.*s\n", (unsigned long)result[QAABIREED_CHECK_NUMBER],
               (unsigned long)result[QAABIREED_CHECK_PLACE],
               (int)result[QAABIREED_CHECK_MESSAGE_LENGTH], (const char *)message);
        return 1;
    default:
        printf("refused %lu\n", (unsigned long)result[QAABIREED_CHECK_NUMBER]);
        return 2;
    }
}

/* Prints the name whose count byte is at a place, and what follows it. */
static void print_name(uint32_t place, const char *after)
{
    if (place != QAABIREED_NONE)
        printf("%.*s%s", file[place], (const char *)&file[place + 1], after);
}

/* Looks a target up and prints the answer, with the spelling of the entry found. */
static void look_up(size_t length, uint32_t *index, size_t index_length, const char *target)
{
    static const char *const answers[] = {"pass", "function", "reserved", "exact", "ending", "missing"};
    uint32_t result[QAABIREED_LOOKUP_RESULT_LENGTH];
    qaabireed_lookup(file, length, index, index_length, (const uint8_t *)target, strlen(target),
                     result, QAABIREED_LOOKUP_RESULT_LENGTH);
    if (result[QAABIREED_LOOKUP_OUTCOME] != QAABIREED_ANSWERED)
        return;
    printf("-> %s: %s", target, answers[result[QAABIREED_LOOKUP_NUMBER]]);
    if (result[QAABIREED_LOOKUP_ENTRY] != QAABIREED_NONE) {
        const uint32_t *entry = &index[3 * (size_t)result[QAABIREED_LOOKUP_ENTRY]];
        printf(" ");
        print_name(entry[0], ".");
        print_name(entry[1], ".");
        print_name(entry[2], "");
    }
    printf("\n");
}

int main(int count, char **arguments)
{
    uint8_t message[QAABIREED_MESSAGE_LENGTH];
    uint32_t result[QAABIREED_CHECK_RESULT_LENGTH];
    size_t length = fread(file, 1, sizeof file, stdin);
    size_t index_length = QAABIREED_INDEX_LENGTH(length);
    /* One number more, since no pointer may be null. */
    uint32_t *index = malloc((index_length + 1) * sizeof *index);
    int status, number;
    if (index == NULL) {
        fputs("no memory for the index\n", stderr);
        return 2;
    }
    if (qaabireed_check(file, length, index, index_length, message, sizeof message, result,
                        QAABIREED_CHECK_RESULT_LENGTH) != QAABIREED_OK)
        abort(); /* the result has its seven numbers */
    status = report(result, message);
    for (number = 1; number < count; number++)
        look_up(length, index, index_length, arguments[number]);
    free(index);
    return status;
}
