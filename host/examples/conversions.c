/* An example host: the two conversions by themselves, vector to vector, as
 * asm2adm and adm2asm of BSM2 are called, with the house set of figures. Each runs
 * on a plant of document 01 and on a vector that it refuses, and the first also on a
 * leachate, whose amino acids give way to its inerts. What goes in and what comes out
 * is printed by the columns' names; columns that are zero are left out. */
#include "printing.h"

/* Prints what was converted and whether it was refused. */
static void print_outcome(const char *name, const char *conversion, uint64_t refusal)
{
    printf("%s, %s: ", name, conversion);
    if (refusal == JILGHVANI_ACCEPTED)
        puts(jilghvani_refusal_text(refusal));
    else
        printf("refused with %" PRIu64 ", %s\n", refusal, jilghvani_refusal_text(refusal));
}

/* Converts an ASM1 vector and prints both sides. */
static void to_digester(const char *name, const uint64_t v[JILGHVANI_ASM1])
{
    uint64_t d[JILGHVANI_DIGESTER], told[4];

    print_outcome(name, "asm_to_adm", jilghvani_asm_to_adm(jilghvani_house, v, d, told));
    print_vector("ASM1", asm1_names, v, JILGHVANI_ASM1);
    print_vector("digester", digester_names, d, JILGHVANI_DIGESTER);
    printf("  burnt %" PRIu64 " oxygen %" PRIu64 " nitrate %" PRIu64 " warn %" PRIu64 "\n",
           told[0], told[1], told[2], told[3]);
}

/* Converts a digester vector and prints both sides. */
static void to_asm1(const char *name, const uint64_t d[JILGHVANI_DIGESTER])
{
    uint64_t v[JILGHVANI_ASM1], stripped;

    print_outcome(name, "adm_to_asm", jilghvani_adm_to_asm(jilghvani_house, d, v, &stripped));
    print_vector("digester", digester_names, d, JILGHVANI_DIGESTER);
    print_vector("ASM1", asm1_names, v, JILGHVANI_ASM1);
    printf("  stripped %" PRIu64 "\n", stripped);
}

/* Converts plants a and j, the refused ones of f and k, and a leachate. Its soluble inert
 * needs 280 ticks. All 980 that it brings are in an amino acid, which becomes a sugar; the
 * other 700 are left as inorganic nitrogen. */
int main(void)
{
    const uint64_t a[JILGHVANI_ASM1] = {
        [JILGHVANI_ASM1_SS] = 40000,
        [JILGHVANI_ASM1_SO] = 5000,
        [JILGHVANI_ASM1_SNO] = 100000000,
    };
    const uint64_t f[JILGHVANI_ASM1] = {
        [JILGHVANI_ASM1_SI] = 1,
        [JILGHVANI_ASM1_SNH] = 279,
    };
    const uint64_t leachate[JILGHVANI_ASM1] = {
        [JILGHVANI_ASM1_SI] = 1,
        [JILGHVANI_ASM1_SS] = 1,
        [JILGHVANI_ASM1_SND] = 980,
    };
    const uint64_t j[JILGHVANI_DIGESTER] = {
        [JILGHVANI_DIGESTER_XI] = 8,
        [JILGHVANI_DIGESTER_XC] = 2,
        [JILGHVANI_DIGESTER_SIN] = 6000,
    };
    const uint64_t k[JILGHVANI_DIGESTER] = {
        [JILGHVANI_DIGESTER_XI] = 1,
        [JILGHVANI_DIGESTER_SIN] = 599,
    };

    to_digester("plant a", a);
    to_digester("plant f with 279", f);
    to_digester("a leachate", leachate);
    to_asm1("plant j", j);
    to_asm1("plant k with 599", k);
    return all_printed() ? 0 : 1;
}
