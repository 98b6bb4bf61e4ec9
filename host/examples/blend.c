/* An example host: a haulier's day. A dairy's, a brewery's and a septic tank's load
 * come to the works; half of the first, all of the second and a quarter of the third
 * are blended into the sludge tank. It holds:
 *
 *   - the loads and their thousandths,
 *   - functions that fill the slices, blend them, and print what comes of it,
 *   - blends that are sent away and change nothing,
 *   - main: the day forwards and backwards, which give the same sludge tank, and then
 *     what was left of the loads, whole. */
#include "printing.h"

#include <string.h>

enum { DAIRY, BREWERY, SEPTIC, LOADS, COLUMNS = LOADS * JILGHVANI_ASM1 };

static const char *const load_names[LOADS] = {"dairy", "brewery", "septic"};

/* What each load holds: mg, ticks and mmol. */
static const uint64_t hauled[LOADS][JILGHVANI_ASM1] = {
    [DAIRY] = {[JILGHVANI_ASM1_SI] = 2400000,      [JILGHVANI_ASM1_SS] = 96000001,
               [JILGHVANI_ASM1_XI] = 14400000,     [JILGHVANI_ASM1_XS] = 180500333,
               [JILGHVANI_ASM1_XBH] = 1200007,     [JILGHVANI_ASM1_SO] = 6001,
               [JILGHVANI_ASM1_SNO] = 4800001,     [JILGHVANI_ASM1_SNH] = 5400000003,
               [JILGHVANI_ASM1_SND] = 7200000000,  [JILGHVANI_ASM1_XND] = 16800000005,
               [JILGHVANI_ASM1_SALK] = 84001},
    [BREWERY] = {[JILGHVANI_ASM1_SI] = 1500000,    [JILGHVANI_ASM1_SS] = 240000000,
                 [JILGHVANI_ASM1_XI] = 9000000,    [JILGHVANI_ASM1_XS] = 75000019,
                 [JILGHVANI_ASM1_XBH] = 30000000,  [JILGHVANI_ASM1_XP] = 333,
                 [JILGHVANI_ASM1_SNH] = 1500000000, [JILGHVANI_ASM1_SND] = 9000000001,
                 [JILGHVANI_ASM1_XND] = 6000000000, [JILGHVANI_ASM1_SALK] = 30000},
    [SEPTIC] = {[JILGHVANI_ASM1_SI] = 1200000,     [JILGHVANI_ASM1_SS] = 8000003,
                [JILGHVANI_ASM1_XI] = 64000001,    [JILGHVANI_ASM1_XS] = 88000002,
                [JILGHVANI_ASM1_XBH] = 16000000,   [JILGHVANI_ASM1_XBA] = 3,
                [JILGHVANI_ASM1_XP] = 24000000,    [JILGHVANI_ASM1_SNH] = 40000000002,
                [JILGHVANI_ASM1_SND] = 3200000000, [JILGHVANI_ASM1_XND] = 22400000001,
                [JILGHVANI_ASM1_SALK] = 400007},
};

/* How many thousandths of each are drawn. */
static const uint64_t drawn[LOADS] = {[DAIRY] = 500, [BREWERY] = 1000, [SEPTIC] = 250};

/* The loads in the order in which they came, and the other way round. */
static const int forwards[LOADS] = {DAIRY, BREWERY, SEPTIC};
static const int backwards[LOADS] = {SEPTIC, BREWERY, DAIRY};

/* A works and what is lent to a blend: the loads behind one another, and their ks. */
struct works {
    uint64_t record[JILGHVANI_RECORD];
    uint64_t loads[COLUMNS];
    uint64_t ks[LOADS];
};

/* Makes the record fresh and fills both slices, in this order of the loads. */
static void begin(struct works *w, const int order[LOADS])
{
    jilghvani_fresh(w->record);
    for (int i = 0; i < LOADS; i++) {
        memcpy(w->loads + i * JILGHVANI_ASM1, hauled[order[i]], sizeof hauled[0]);
        w->ks[i] = drawn[order[i]];
    }
}

/* Blends the loads, the first so many of the ks with them; prints and gives the
 * answer. */
static uint64_t blend(struct works *w, const char *title, size_t ks_len)
{
    uint64_t refusal = jilghvani_blend(w->record, w->loads, COLUMNS, w->ks, ks_len);

    printf("%s: %" PRIu64 ", %s\n", title, refusal, jilghvani_refusal_text(refusal));
    return refusal;
}

/* Prints the sludge tank, what the record holds, and what is left of the loads, which
 * stand in this order. Gives whether the record could be asked. */
static int print_works(const struct works *w, const int order[LOADS])
{
    uint64_t told[4];

    if (jilghvani_totals(w->record, told) != JILGHVANI_ACCEPTED)
        return 0;
    print_vector("sludge", asm1_names, w->record + JILGHVANI_SLUDGE_AT, JILGHVANI_ASM1);
    printf("    held cod %" PRIu64 " tkn %" PRIu64 " oxygen %" PRIu64 " nitrate %" PRIu64 "\n",
           told[0], told[1], told[2], told[3]);
    for (int i = 0; i < LOADS; i++)
        print_vector(load_names[order[i]], asm1_names, w->loads + i * JILGHVANI_ASM1,
                     JILGHVANI_ASM1);
    return 1;
}

/* Makes a blend that has to be sent away by this number, and prints whether anything has
 * changed; gives whether all is as it has to be. */
static int send_away(const struct works *before, const char *title, size_t ks_len, uint64_t number)
{
    struct works after = *before;
    uint64_t refusal = blend(&after, title, ks_len);
    int same = memcmp(before, &after, sizeof after) == 0;

    puts(same ? "  record and loads as before" : "  NO LONGER AS BEFORE");
    return refusal == number && same;
}

/* What is sent away: too few ks, a k out of range, and a day for which a full tank has
 * no room. The day draws 172001 mmol of salk. */
static int send_some_away(void)
{
    struct works w, full;
    int away;

    begin(&w, forwards);
    away = send_away(&w, "no k for the septic load", LOADS - 1, JILGHVANI_NO_BLEND);
    w.ks[BREWERY] = 1001;
    away &= send_away(&w, "more than all of the brewery's", LOADS, JILGHVANI_K_OUT_OF_RANGE);
    w.ks[BREWERY] = drawn[BREWERY];
    w.record[JILGHVANI_SLUDGE_AT + JILGHVANI_ASM1_SALK] = 1000000000000 - 172001;
    full = w;
    away &= blend(&full, "a tank with just enough room", LOADS) == JILGHVANI_ACCEPTED;
    w.record[JILGHVANI_SLUDGE_AT + JILGHVANI_ASM1_SALK] += 1;
    away &= send_away(&w, "with a mmol less", LOADS, JILGHVANI_DESTINATION_ABOVE_CEILING);
    return away;
}

int main(void)
{
    struct works w, other;

    begin(&w, forwards);
    begin(&other, backwards);
    if (blend(&w, "the day", LOADS) || !print_works(&w, forwards)
        || blend(&other, "the day backwards", LOADS) || !print_works(&other, backwards))
        return 1;
    puts(memcmp(w.record, other.record, sizeof w.record) == 0 ? "the same record"
                                                              : "ANOTHER RECORD");

    for (int i = 0; i < LOADS; i++)
        w.ks[i] = 1000;
    if (blend(&w, "what was left, whole", LOADS) || !print_works(&w, forwards) || !send_some_away())
        return 1;
    return all_printed() ? 0 : 1;
}
