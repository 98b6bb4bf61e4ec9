/* An example host: memory for the answers of a session, reserved ahead. It asks how
 * long the answers will be, reserves just so many bytes, makes the calls line by line,
 * and puts each answer and the held line there with a newline behind it. It holds:
 *
 *   - the lines of a session, and of a year that it makes,
 *   - reserved memory, and a function that puts an answer into it,
 *   - functions that cut the next line off, make the calls of the lines that count,
 *     reserve for them, and go through a session in parts where not all of it counts,
 *   - main: sessions from a fresh record and from one that is refused, no line at all,
 *     and the year, whose lines are more than count at once.
 *
 * An answer goes through a buffer of its own, because jilghvani_line takes none under
 * 512 bytes and less than that is left of the memory in the end. */
#include "printing.h"

#include <stdlib.h>
#include <string.h>

/* Document 01's session, with a preview in it, an empty line, a line that is no form, and
 * no newline behind the last one. */
static const char session[] =
    "(receive (ss 10000) (xs 30000) (so 5000) (sno 100000000))\n"
    "(preview (feed 500))\n"
    "(feed 1000)\n"
    "\n"
    "(feed 0)\n"
    "(return  1000)\n"
    "(return 1000)\n"
    "(release 1000)";

/* The days of a year, and the lines of a day with the most bytes that they take. */
enum { DAYS = 365, DAY_BYTES = 128 };

/* Writes the lines of a year, three a day; gives how many bytes they are. */
static size_t write_year(char year[DAYS * DAY_BYTES])
{
    size_t length = 0;

    for (int day = 1; day <= DAYS; day++)
        length += (size_t)snprintf(year + length, DAY_BYTES,
                                   "(receive (ss %d) (xs %d) (so %d) (sno %d) (xnd %d))\n"
                                   "(feed 1000)\n"
                                   "(return %d)\n",
                                   9000 * day, 70000 * day, 40 * day, 210000 * day, 190000 * day,
                                   day);
    return length;
}

/* Memory that is reserved for answers, how much of it is filled, and where the held
 * line stands. */
struct answers {
    uint8_t *bytes;
    size_t size, filled, held;
};

/* Puts the first count bytes of a buffer there, and a newline; gives 0 where there are
 * none, since then the buffer was refused, or where they do not fit. */
static int put(struct answers *a, const uint8_t *buf, size_t count)
{
    if (count == 0 || count >= a->size - a->filled)
        return 0;
    memcpy(a->bytes + a->filled, buf, count);
    a->filled += count;
    a->bytes[a->filled++] = '\n';
    return 1;
}

/* Lines that are still to be answered. */
struct lines {
    const uint8_t *next, *end;
};

/* How many bytes are left, and how many of them are the next line's without its newline. */
static size_t left(const struct lines *l)
{
    return (size_t)(l->end - l->next);
}

static size_t next_line(const struct lines *l)
{
    const uint8_t *newline = memchr(l->next, '\n', left(l));

    return newline != NULL ? (size_t)(newline - l->next) : left(l);
}

/* Makes the calls of the lines that count, and puts their answers and then the held
 * line; gives whether the memory has done for them. */
static int make_calls(uint64_t record[JILGHVANI_RECORD], struct lines *l, struct answers *a)
{
    uint8_t buf[JILGHVANI_BUFFER];

    for (int i = 0; i < JILGHVANI_COUNTED_LINES && left(l) > 0; i++) {
        size_t length = next_line(l);
        if (!put(a, buf, jilghvani_line(record, l->next, length, buf, sizeof buf)))
            return 0;
        l->next += length;
        if (left(l) > 0)
            l->next++;
    }
    a->held = a->filled;
    return put(a, buf, jilghvani_held(record, buf, sizeof buf));
}

/* Reserves for the lines that count, makes their calls, and prints what was told, the
 * answers or the held line alone, and how much of the memory is filled; gives whether
 * all of it is. */
static int one_part(uint64_t record[JILGHVANI_RECORD], struct lines *l, int all_answers)
{
    uint64_t told[2];
    struct answers a = {.filled = 0};
    size_t from;
    int made;

    jilghvani_answer_bytes(record, l->next, left(l), told);
    printf("  told: %" PRIu64 " bytes, %" PRIu64 " lines not counted\n", told[0], told[1]);
    a.size = (size_t)told[0];
    a.bytes = malloc(a.size);
    if (a.bytes == NULL)
        return 0;
    made = make_calls(record, l, &a);
    from = all_answers ? 0 : a.held;
    fwrite(a.bytes + from, 1, a.filled - from, stdout);
    printf("  filled: %zu of %zu bytes\n", a.filled, a.size);
    free(a.bytes);
    return made && a.filled == a.size;
}

/* Goes through a session, the lines that count first, and then from the record as it is
 * by then; gives whether each part has filled its memory. */
static int go_through(uint64_t record[JILGHVANI_RECORD], const char *title, const char *text,
                      size_t length, int all_answers)
{
    struct lines l = {(const uint8_t *)text, (const uint8_t *)text + length};

    puts(title);
    do {
        if (!one_part(record, &l, all_answers))
            return 0;
    } while (left(&l) > 0);
    return 1;
}

int main(void)
{
    static char year[DAYS * DAY_BYTES];
    uint64_t record[JILGHVANI_RECORD];

    jilghvani_fresh(record);
    if (!go_through(record, "a session", session, strlen(session), 1)
        || !go_through(record, "no line", "", 0, 1))
        return 1;
    record[JILGHVANI_SLUDGE_AT + JILGHVANI_ASM1_SS] = 1000000000001;
    if (!go_through(record, "a record above its ceiling", session, strlen(session), 1))
        return 1;
    jilghvani_fresh(record);
    if (!go_through(record, "a year", year, write_year(year), 0))
        return 1;
    return all_printed() ? 0 : 1;
}
