/* An example host: document 01's session by numbers. It prints the same lines as
 * session.c, made here from what the calls tell. It holds a function for each
 * call of the session, which makes the call and prints its answer, and main. */
#include "printing.h"

/* Prints the answer to a refused call; gives whether there was a refusal. */
static int refused(uint64_t refusal)
{
    if (refusal != JILGHVANI_ACCEPTED)
        printf("(no %" PRIu64 ")\n", refusal);
    return refusal != JILGHVANI_ACCEPTED;
}

/* Receives a vector into the sludge tank. */
static void receive(uint64_t record[JILGHVANI_RECORD], const uint64_t v[JILGHVANI_ASM1])
{
    if (!refused(jilghvani_receive(record, v)))
        puts("(ok receive)");
}

/* Feeds k thousandths of the sludge to the digester. */
static void feed(uint64_t record[JILGHVANI_RECORD], uint64_t k)
{
    uint64_t told[4];

    if (!refused(jilghvani_feed(record, k, told)))
        printf("(ok feed burnt %" PRIu64 " oxygen %" PRIu64 " nitrate %" PRIu64 " warn %" PRIu64 ")\n",
               told[0], told[1], told[2], told[3]);
}

/* Returns k thousandths of the digester to the reject tank. */
static void give_back(uint64_t record[JILGHVANI_RECORD], uint64_t k)
{
    uint64_t stripped;

    if (!refused(jilghvani_return(record, k, &stripped)))
        printf("(ok return stripped %" PRIu64 ")\n", stripped);
}

/* Releases k thousandths of the reject tank. */
static void release(uint64_t record[JILGHVANI_RECORD], uint64_t k)
{
    uint64_t v[JILGHVANI_ASM1];

    if (refused(jilghvani_release(record, k, v)))
        return;
    printf("(ok release");
    for (int i = 0; i < JILGHVANI_ASM1; i++)
        print_column(asm1_names[i], v[i]);
    puts(")");
}

/* Prints what the three tanks hold, as the held line does. */
static void print_held(const uint64_t record[JILGHVANI_RECORD])
{
    uint64_t told[4];

    if (!refused(jilghvani_totals(record, told)))
        printf("(held cod %" PRIu64 " tkn %" PRIu64 " oxygen %" PRIu64 " nitrate %" PRIu64 ")\n",
               told[0], told[1], told[2], told[3]);
}

/* Runs the session on a fresh record. */
int main(void)
{
    const uint64_t sludge[JILGHVANI_ASM1] = {
        [JILGHVANI_ASM1_SS] = 10000,
        [JILGHVANI_ASM1_XS] = 30000,
        [JILGHVANI_ASM1_SO] = 5000,
        [JILGHVANI_ASM1_SNO] = 100000000,
    };
    uint64_t record[JILGHVANI_RECORD];

    jilghvani_fresh(record);
    receive(record, sludge);
    feed(record, 1000);
    feed(record, 0);
    give_back(record, 1000);
    release(record, 1000);
    print_held(record);
    return all_printed() ? 0 : 1;
}
