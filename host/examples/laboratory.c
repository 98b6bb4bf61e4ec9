/* An example host: a laboratory's sheets, in grams, into a plant. It holds:
 *
 *   - the sheets: one as it should be, one with limits and gaps, and some that are
 *     sent away,
 *   - a function that hands a sheet over and prints what comes of it, and main.
 *
 * The values stay floats up to the call: what a laboratory's program has in
 * single precision is counted there, exactly. */
#include "printing.h"

#include <math.h>
#include <string.h>

/* A sheet: an entry's kind and its value or limit, in the order of the columns. */
struct sheet {
    const char *name;
    uint8_t kinds[JILGHVANI_ASM1];
    float values[JILGHVANI_ASM1];
};

/* Zero means measured; the kinds that are not named are. */
static const struct sheet sheets[] = {
    {"measured",
     {0},
     {30.1f, 63.25f, 51.2f, 202.32f, 28.17f, 0.1f, 0.007f, 2.0003f, 5.37f, 31.56f, 6.95f, 10.59f, 7.0005f}},
    {"limits and gaps",
     {[JILGHVANI_ASM1_XBA] = JILGHVANI_BELOW_LIMIT,
      [JILGHVANI_ASM1_SO] = JILGHVANI_BELOW_LIMIT,
      [JILGHVANI_ASM1_SNO] = JILGHVANI_BELOW_LIMIT,
      [JILGHVANI_ASM1_XND] = JILGHVANI_NOT_SAMPLED,
      [JILGHVANI_ASM1_SALK] = JILGHVANI_BELOW_LIMIT},
     {30.1f, 63.25f, 51.2f, 202.32f, 28.17f, 0.05f, 0.007f, 0.5f, 0.0001f, 31.56f, 6.95f, NAN, 0.25f}},
    {"negative limit",
     {[JILGHVANI_ASM1_SO] = JILGHVANI_BELOW_LIMIT},
     {[JILGHVANI_ASM1_SO] = -0.5f}},
    {"no kind", {[JILGHVANI_ASM1_SALK] = 3}, {0}},
    {"too much of nitrogen", {0}, {[JILGHVANI_ASM1_SNH] = 1000000064.0f, [JILGHVANI_ASM1_SALK] = INFINITY}},
};

/* Hands a sheet over and prints the answer: the refusal's text, or what was told,
 * and the sludge tank. */
static void hand_over(uint64_t record[JILGHVANI_RECORD], const char *name,
                      const uint8_t *kinds, const float *values)
{
    uint64_t told[4];
    uint64_t refusal = jilghvani_sheet(record, kinds, values, told);

    printf("%s: %s", name, jilghvani_refusal_text(refusal));
    printf("; unseen %" PRIu64 " mg, %" PRIu64 " ticks, %" PRIu64 " mmol; not sampled %" PRIu64 "\n",
           told[0], told[1], told[2], told[3]);
    printf("  sludge");
    for (int i = 0; i < JILGHVANI_ASM1; i++)
        print_column(asm1_names[i], record[JILGHVANI_SLUDGE_AT + i]);
    printf("\n");
}

/* Hands over a sheet whose ss has these bits, which may be a NaN's of any kind. */
static void hand_over_bits(uint64_t record[JILGHVANI_RECORD], const char *name, uint32_t bits)
{
    static const uint8_t kinds[JILGHVANI_ASM1] = {0};
    float values[JILGHVANI_ASM1] = {0};

    memcpy(&values[JILGHVANI_ASM1_SS], &bits, sizeof bits);
    hand_over(record, name, kinds, values);
}

int main(void)
{
    uint64_t record[JILGHVANI_RECORD];

    jilghvani_fresh(record);
    for (size_t i = 0; i < sizeof sheets / sizeof *sheets; i++)
        hand_over(record, sheets[i].name, sheets[i].kinds, sheets[i].values);
    hand_over_bits(record, "quiet NaN", 0x7fc00000u);
    hand_over_bits(record, "signalling NaN", 0x7f800001u);
    hand_over_bits(record, "negative signalling NaN", 0xffbfffffu);
    hand_over_bits(record, "smallest above zero", 0x00000001u);
    return all_printed() ? 0 : 1;
}
