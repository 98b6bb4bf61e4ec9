/* An example host: figures of one's own. A dairy works measured its sludge, and one
 * load goes through a record of its set and through one of the house set: it is
 * received, fed, returned and released. Behind each call stand the tank that it
 * filled and what the record holds. COD and TKN stay to the last count, each TKN by
 * the figures of its record. It holds the dairy's set and the load, the way through
 * a plant, what its water is in a record of another set, the wishes and records that
 * are refused, and main. */
#include "printing.h"

#include <string.h>

static const uint64_t dairy[JILGHVANI_FIGURES] = {
    [JILGHVANI_FIGURE_IXB] = 850, [JILGHVANI_FIGURE_IXE] = 640,
    [JILGHVANI_FIGURE_NXC] = 410, [JILGHVANI_FIGURE_NI] = 220,
    [JILGHVANI_FIGURE_NAA] = 1120, [JILGHVANI_FIGURE_NBAC] = 910,
    [JILGHVANI_FIGURE_FXI] = 7350, [JILGHVANI_FIGURE_FCH] = 1200,
    [JILGHVANI_FIGURE_FLI] = 5800,
};

static const uint64_t load[JILGHVANI_ASM1] = {
    [JILGHVANI_ASM1_SS] = 100,    [JILGHVANI_ASM1_XI] = 10,
    [JILGHVANI_ASM1_XS] = 200,    [JILGHVANI_ASM1_XBH] = 20,
    [JILGHVANI_ASM1_XP] = 10,     [JILGHVANI_ASM1_SNH] = 1000,
    [JILGHVANI_ASM1_SND] = 10000, [JILGHVANI_ASM1_XND] = 30000,
};

/* Whether a call was accepted; prints where it was not. */
static int accepted(const char *call, uint64_t refusal)
{
    if (refusal != JILGHVANI_ACCEPTED)
        printf("%s: refused with %" PRIu64 ", %s\n", call, refusal, jilghvani_refusal_text(refusal));
    return refusal == JILGHVANI_ACCEPTED;
}

/* Prints a set of figures, zeros too. */
static void print_figures(const char *title, const uint64_t figures[JILGHVANI_FIGURES])
{
    printf("%s", title);
    for (int i = 0; i < JILGHVANI_FIGURES; i++)
        print_column(figure_names[i], figures[i]);
    putchar('\n');
}

/* Prints COD and TKN of a record; gives whether it could be asked for them. */
static int print_held(const uint64_t record[JILGHVANI_RECORD])
{
    uint64_t told[4];

    if (!accepted("totals", jilghvani_totals(record, told)))
        return 0;
    printf("    held cod %" PRIu64 " tkn %" PRIu64 "\n", told[0], told[1]);
    return 1;
}

/* ---- One load through a plant ---- */

/* Runs the load through a record of these figures; released gets the water that is
 * released last. Gives whether all was accepted, and the figures are as they were. */
static int run_plant(const char *name, const uint64_t figures[JILGHVANI_FIGURES],
                     uint64_t released[JILGHVANI_ASM1])
{
    uint64_t record[JILGHVANI_RECORD], told[4], stripped;

    if (!accepted("make", jilghvani_make(record, figures)))
        return 0;
    print_figures(name, record + JILGHVANI_FIGURES_AT);

    if (!accepted("receive", jilghvani_receive(record, load)))
        return 0;
    print_vector("sludge", asm1_names, record + JILGHVANI_SLUDGE_AT, JILGHVANI_ASM1);
    if (!print_held(record) || !accepted("feed", jilghvani_feed(record, 1000, told)))
        return 0;
    print_vector("digester", digester_names, record + JILGHVANI_DIGESTER_AT, JILGHVANI_DIGESTER);
    if (!print_held(record) || !accepted("return", jilghvani_return(record, 1000, &stripped)))
        return 0;
    print_vector("reject", asm1_names, record + JILGHVANI_REJECT_AT, JILGHVANI_ASM1);
    if (!print_held(record) || !accepted("release", jilghvani_release(record, 1000, released)))
        return 0;
    printf("  burnt %" PRIu64 " stripped %" PRIu64 ", all released\n", told[0], stripped);
    return print_held(record)
           && memcmp(record + JILGHVANI_FIGURES_AT, figures, JILGHVANI_FIGURES * sizeof *figures) == 0;
}

/* Receives water that was released from a plant of other figures into a record of
 * the house set. Its columns are the same; its TKN is another, because the nitrogen
 * of inerts is counted by ixe. */
static int carry_over(const uint64_t water[JILGHVANI_ASM1])
{
    uint64_t record[JILGHVANI_RECORD];

    jilghvani_fresh(record);
    if (!accepted("receive", jilghvani_receive(record, water)))
        return 0;
    puts("the dairy's water in a record of the house set");
    print_vector("sludge", asm1_names, record + JILGHVANI_SLUDGE_AT, JILGHVANI_ASM1);
    return print_held(record);
}

/* ---- What is permitted, and what is refused ---- */

/* Wishes for a record of these figures; prints the answer and the figures that the
 * record has. */
static void wish(const char *name, const uint64_t figures[JILGHVANI_FIGURES])
{
    uint64_t record[JILGHVANI_RECORD];
    uint64_t refusal = jilghvani_make(record, figures);

    printf("%s: %" PRIu64 ", %s\n", name, refusal, jilghvani_refusal_text(refusal));
    print_figures("  record of", record + JILGHVANI_FIGURES_AT);
}

/* Converts the load with these figures; prints the answer. */
static void convert(const char *name, const uint64_t figures[JILGHVANI_FIGURES])
{
    uint64_t d[JILGHVANI_DIGESTER], told[4];
    uint64_t refusal = jilghvani_asm_to_adm(figures, load, d, told);

    printf("%s: %" PRIu64 ", %s\n", name, refusal, jilghvani_refusal_text(refusal));
    print_vector("digester", digester_names, d, JILGHVANI_DIGESTER);
}

/* Lends 61 zeros for a record: no call takes them, by number or by line, and they
 * stay zeros. */
static void lend_zeros(void)
{
    static const uint64_t zeros[JILGHVANI_RECORD];
    static const char line[] = "(feed 1000)";
    uint64_t record[JILGHVANI_RECORD] = {0};
    uint8_t buf[JILGHVANI_BUFFER];
    size_t count;

    printf("61 zeros: receive %" PRIu64, jilghvani_receive(record, load));
    count = jilghvani_line(record, (const uint8_t *)line, strlen(line), buf, sizeof buf);
    printf(", %s %.*s", line, (int)count, (const char *)buf);
    count = jilghvani_held(record, buf, sizeof buf);
    printf(", held line %.*s\n", (int)count, (const char *)buf);
    puts(memcmp(record, zeros, sizeof record) == 0 ? "  zeros as before" : "  NO LONGER ZEROS");
}

int main(void)
{
    static const uint64_t least[JILGHVANI_FIGURES] = {0, 0, 1, 0, 1, 0, 0, 1, 0};
    static const uint64_t most[JILGHVANI_FIGURES] = {
        10000, 10000, 10000, 10000, 10000, 10000, 10000, 10000, 10000,
    };
    uint64_t bad[JILGHVANI_FIGURES], water[JILGHVANI_ASM1], other[JILGHVANI_ASM1];

    if (!run_plant("dairy", dairy, water) || !run_plant("house", jilghvani_house, other)
        || !carry_over(water))
        return 1;
    wish("the least", least);
    wish("the most", most);
    memcpy(bad, dairy, sizeof bad);
    bad[JILGHVANI_FIGURE_NAA] = 0;
    wish("the dairy's with naa 0", bad);
    convert("a conversion by these", bad);
    convert("a conversion by the dairy's", dairy);
    lend_zeros();
    return all_printed() ? 0 : 1;
}
