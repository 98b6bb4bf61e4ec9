/* An example host: a journal. It makes calls by numbers and writes the line of each
 * behind the one before, then reads the journal again, line by line, on a fresh
 * record. What is printed is the journal, which is an input of sludgeline as it
 * stands, then the answers to its lines, and whether the two records are the same.
 * It holds the journal, a function for each call of the host, one that reads the
 * journal, and main. */
#include "printing.h"

#include <string.h>

/* Lines one behind the other, each with its newline; there is room for ten. */
struct journal {
    uint8_t bytes[10 * JILGHVANI_LINE_BUFFER];
    size_t length;
};

/* Where the next line goes, and the bytes that are left there. */
static uint8_t *next(struct journal *j)
{
    return j->bytes + j->length;
}

static size_t room(const struct journal *j)
{
    return sizeof j->bytes - j->length;
}

/* ---- Calls by numbers, each with its line in the journal ---- */

static void receive(struct journal *j, uint64_t record[JILGHVANI_RECORD],
                    const uint64_t v[JILGHVANI_ASM1])
{
    j->length += jilghvani_write_receive(v, 0, next(j), room(j));
    jilghvani_receive(record, v);
}

/* Feeds k thousandths; a preview of it stands in the journal too. */
static void feed(struct journal *j, uint64_t record[JILGHVANI_RECORD], uint64_t k)
{
    uint64_t told[4];

    j->length += jilghvani_write_feed(k, 1, next(j), room(j));
    j->length += jilghvani_write_feed(k, 0, next(j), room(j));
    jilghvani_feed(record, k, told);
}

/* Settles with all of the digester but a tenth of its carbohydrates, which goes as
 * gas. */
static void settle(struct journal *j, uint64_t record[JILGHVANI_RECORD])
{
    uint64_t d[JILGHVANI_DIGESTER];
    uint64_t gas;

    memcpy(d, record + JILGHVANI_DIGESTER_AT, sizeof d);
    gas = d[JILGHVANI_DIGESTER_XCH] / 10;
    d[JILGHVANI_DIGESTER_XCH] -= gas;
    j->length += jilghvani_write_settle(gas, d, 0, next(j), room(j));
    jilghvani_settle(record, gas, d);
}

static void give_back(struct journal *j, uint64_t record[JILGHVANI_RECORD], uint64_t k)
{
    uint64_t stripped;

    j->length += jilghvani_write_return(k, 0, next(j), room(j));
    jilghvani_return(record, k, &stripped);
}

static void recycle(struct journal *j, uint64_t record[JILGHVANI_RECORD], uint64_t k)
{
    j->length += jilghvani_write_recycle(k, 0, next(j), room(j));
    jilghvani_recycle(record, k);
}

static void release(struct journal *j, uint64_t record[JILGHVANI_RECORD], uint64_t k)
{
    uint64_t v[JILGHVANI_ASM1];

    j->length += jilghvani_write_release(k, 0, next(j), room(j));
    jilghvani_release(record, k, v);
}

/* ---- The journal again ---- */

/* Reads the lines of a journal on a record and prints the answer to each. */
static void read_again(const struct journal *j, uint64_t record[JILGHVANI_RECORD])
{
    uint8_t buf[JILGHVANI_BUFFER];
    const uint8_t *line = j->bytes;
    const uint8_t *end = j->bytes + j->length;

    while (line < end) {
        const uint8_t *newline = memchr(line, '\n', (size_t)(end - line));
        size_t count = jilghvani_line(record, line, (size_t)(newline - line), buf, sizeof buf);
        printf("%.*s\n", (int)count, (const char *)buf);
        line = newline + 1;
    }
}

int main(void)
{
    struct journal j = {.length = 0};
    uint64_t made[JILGHVANI_RECORD], read[JILGHVANI_RECORD];
    uint64_t v[JILGHVANI_ASM1] = {
        [JILGHVANI_ASM1_SS] = 10000, [JILGHVANI_ASM1_XS] = 300000,
        [JILGHVANI_ASM1_SO] = 5000,  [JILGHVANI_ASM1_SNO] = 100000000,
        [JILGHVANI_ASM1_XND] = 30000000,
    };

    jilghvani_fresh(made);
    receive(&j, made, v);
    feed(&j, made, 1000);
    settle(&j, made);
    give_back(&j, made, 500);
    recycle(&j, made, 250);
    release(&j, made, 1000);
    fwrite(j.bytes, 1, j.length, stdout);
    jilghvani_fresh(read);
    read_again(&j, read);
    puts(memcmp(made, read, sizeof made) == 0 ? "the same record" : "ANOTHER RECORD");
    return all_printed() ? 0 : 1;
}
