/* An example host: runs document 01's session line by line through the library,
 * prints each answer and then the held line. It holds the lines of the session,
 * one function that prints what a lent buffer was filled with, and main. */
#include "jilghvani.h"

#include <assert.h>
#include <stdio.h>
#include <string.h>

static_assert(sizeof(uint64_t) == 8, "a column has 64 bits");
static_assert(sizeof(size_t) == 8, "lengths and counts have 64 bits");
static_assert(sizeof(uint64_t[JILGHVANI_RECORD]) == 488, "a record has 488 bytes");
static_assert(JILGHVANI_DIGESTER_AT == JILGHVANI_SLUDGE_AT + JILGHVANI_ASM1,
              "the digester stands behind the sludge");
static_assert(JILGHVANI_REJECT_AT == JILGHVANI_DIGESTER_AT + JILGHVANI_DIGESTER,
              "reject stands behind the digester");
static_assert(JILGHVANI_FIGURES_AT == JILGHVANI_REJECT_AT + JILGHVANI_ASM1,
              "the figures stand behind reject");
static_assert(JILGHVANI_RECORD == JILGHVANI_FIGURES_AT + JILGHVANI_FIGURES,
              "the figures stand last");

/* The lines of the session, without their newlines. */
static const char *const session[] = {
    "(receive (ss 10000) (xs 30000) (so 5000) (sno 100000000))",
    "(feed 1000)",
    "(feed 0)",
    "(return 1000)",
    "(release 1000)",
};

/* Prints the first count bytes of a buffer as a line; gives 0 where there are
 * none, since then the buffer was refused, or where they cannot be printed. */
static int print_answer(const uint8_t *buf, size_t count)
{
    return count > 0 && fwrite(buf, 1, count, stdout) == count && putchar('\n') != EOF;
}

/* Runs the session on a fresh record. */
int main(void)
{
    uint64_t record[JILGHVANI_RECORD];
    uint8_t buf[JILGHVANI_BUFFER];
    size_t lines = sizeof session / sizeof session[0];

    jilghvani_fresh(record);
    for (size_t i = 0; i < lines; i++) {
        const uint8_t *line = (const uint8_t *)session[i];
        size_t count = jilghvani_line(record, line, strlen(session[i]), buf, sizeof buf);
        if (!print_answer(buf, count))
            return 1;
    }
    if (!print_answer(buf, jilghvani_held(record, buf, sizeof buf)))
        return 1;
    return fflush(stdout) == 0 ? 0 : 1;
}
