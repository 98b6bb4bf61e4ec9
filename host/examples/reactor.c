/* An example host: a side-stream reactor. Most of the reject water is drawn to a reactor
 * that is the host's own, and comes back with nitrite, which ASM1 has no column for. The
 * host adds its balance of nitrate up by hand. It holds:
 *
 *   - the water of a reactor, and toys of SHARON and Anammox,
 *   - a works, and functions that make a call, count its nitrate, and print the two calls
 *     of the reactor as lines,
 *   - a function that prints the balance,
 *   - what is sent away and changes nothing,
 *   - main: three days. */
#include "printing.h"

#include <string.h>

/* ---- The reactor ---- */

/* Its water: an ASM1 vector, and ticks of nitrite and of the N2 that it has let go. */
struct water {
    uint64_t v[JILGHVANI_ASM1];
    uint64_t nitrite, n2;
};

/* SHARON: 57 of a hundred ticks of ammonia become nitrite. */
static void sharon(struct water *w)
{
    uint64_t oxidized = w->v[JILGHVANI_ASM1_SNH] / 100 * 57;

    w->v[JILGHVANI_ASM1_SNH] -= oxidized;
    w->nitrite += oxidized;
}

/* Anammox: 100 ticks of ammonia and 132 of nitrite become 206 of N2 and 26 of nitrate, as
 * often as both are there. */
static void anammox(struct water *w)
{
    uint64_t by_ammonia = w->v[JILGHVANI_ASM1_SNH] / 100, by_nitrite = w->nitrite / 132;
    uint64_t times = by_ammonia < by_nitrite ? by_ammonia : by_nitrite;

    w->v[JILGHVANI_ASM1_SNH] -= 100 * times;
    w->nitrite -= 132 * times;
    w->n2 += 206 * times;
    w->v[JILGHVANI_ASM1_SNO] += 26 * times;
}

/* ---- The works ---- */

/* Its record, and the ticks of nitrate that have come in and gone out. */
struct works {
    uint64_t record[JILGHVANI_RECORD];
    uint64_t received, left;
};

/* Prints a refusal where there is one; gives whether the call was accepted. */
static int accepted(uint64_t refusal)
{
    if (refusal != JILGHVANI_ACCEPTED)
        printf("  no %" PRIu64 ": %s\n", refusal, jilghvani_refusal_text(refusal));
    return refusal == JILGHVANI_ACCEPTED;
}

/* Draws reject water for the reactor, and prints the call and what was drawn. */
static int draw(struct works *w, uint64_t k, struct water *out)
{
    uint8_t buf[JILGHVANI_LINE_BUFFER];

    fwrite(buf, 1, jilghvani_write_draw(k, 0, buf, sizeof buf), stdout);
    out->nitrite = out->n2 = 0;
    if (!accepted(jilghvani_draw(w->record, k, out->v)))
        return 0;
    print_vector("drawn", asm1_names, out->v, JILGHVANI_ASM1);
    w->left += out->v[JILGHVANI_ASM1_SNO];
    return 1;
}

/* Accepts what the reactor hands back, and prints the call and the N2 that is told; the
 * reactor's own N2 is gone already, and no part of the call. */
static int accept(struct works *w, const struct water *back)
{
    uint8_t buf[JILGHVANI_LINE_BUFFER];
    uint64_t told[1];

    fwrite(buf, 1, jilghvani_write_accept(back->v, back->nitrite, 0, buf, sizeof buf), stdout);
    if (!accepted(jilghvani_accept(w->record, back->v, back->nitrite, told)))
        return 0;
    printf("  n2 %" PRIu64 "; in the sludge sno %" PRIu64 "\n", told[0],
           w->record[JILGHVANI_SLUDGE_AT + JILGHVANI_ASM1_SNO]);
    w->received += back->v[JILGHVANI_ASM1_SNO] + back->nitrite;
    w->left += told[0];
    return 1;
}

/* A day's sludge comes in, all of the sludge tank is fed, and all of the digester
 * returned. */
static int day(struct works *w, const uint64_t sludge[JILGHVANI_ASM1])
{
    uint64_t fed[4], stripped[1];

    if (!accepted(jilghvani_receive(w->record, sludge))
        || !accepted(jilghvani_feed(w->record, 1000, fed))
        || !accepted(jilghvani_return(w->record, 1000, stripped)))
        return 0;
    printf("  fed: nitrate reduced %" PRIu64 ", warn %" PRIu64 "\n", fed[2], fed[3]);
    w->received += sludge[JILGHVANI_ASM1_SNO];
    w->left += fed[2];
    return 1;
}

/* Prints the balance of nitrate; gives whether it closes. */
static int print_balance(const struct works *w)
{
    uint64_t told[4];
    int closes;

    if (!accepted(jilghvani_totals(w->record, told)))
        return 0;
    closes = w->received == told[3] + w->left;
    printf("  nitrate: received %" PRIu64 " %s held %" PRIu64 " + left %" PRIu64 "\n", w->received,
           closes ? "=" : "IS NOT", told[3], w->left);
    return closes;
}

/* ---- What is sent away ---- */

/* Makes an accept that has to be sent away; gives whether it was, with the works as
 * before. */
static int send_away(const struct works *before, const struct water *back)
{
    struct works after = *before;
    int away = !accept(&after, back) && memcmp(before, &after, sizeof after) == 0;

    puts(away ? "  as before" : "  NO LONGER AS BEFORE");
    return away;
}

/* Nitrite above its ceiling, and a tank with room for three ticks of nitrate, which is the
 * share of six ticks of nitrite and not of seven; and a draw of nothing. */
static int send_some_away(void)
{
    struct works w = {.received = 0, .left = 0}, before;
    struct water back = {.nitrite = 10000000000000001};
    int away;

    jilghvani_fresh(w.record);
    away = send_away(&w, &back);
    w.record[JILGHVANI_SLUDGE_AT + JILGHVANI_ASM1_SNO] = 10000000000000000 - 5;
    back.v[JILGHVANI_ASM1_SNO] = 2;
    back.nitrite = 7;
    away &= send_away(&w, &back);
    back.nitrite = 6;
    away &= accept(&w, &back);
    before = w;
    away &= !draw(&w, 0, &back) && memcmp(&before, &w, sizeof w) == 0;
    puts(away ? "  as before" : "  NO LONGER AS BEFORE");
    return away;
}

int main(void)
{
    const uint64_t sludge[JILGHVANI_ASM1] = {
        [JILGHVANI_ASM1_SI] = 30000,     [JILGHVANI_ASM1_SS] = 250000,
        [JILGHVANI_ASM1_XI] = 480000,    [JILGHVANI_ASM1_XS] = 1900000,
        [JILGHVANI_ASM1_XBH] = 360000,   [JILGHVANI_ASM1_SO] = 2000,
        [JILGHVANI_ASM1_SNO] = 900000,   [JILGHVANI_ASM1_SNH] = 310000000,
        [JILGHVANI_ASM1_SND] = 40000000, [JILGHVANI_ASM1_XND] = 95000000,
        [JILGHVANI_ASM1_SALK] = 65000,
    };
    struct works w = {.received = 0, .left = 0};
    struct water water;

    jilghvani_fresh(w.record);
    for (int number = 1; number <= 3; number++) {
        printf("day %d\n", number);
        if (!day(&w, sludge) || !draw(&w, 800, &water))
            return 1;
        sharon(&water);
        anammox(&water);
        printf("  the reactor lets %" PRIu64 " ticks of N2 go\n", water.n2);
        if (!accept(&w, &water) || !print_balance(&w))
            return 1;
    }
    puts("sent away");
    return send_some_away() && all_printed() ? 0 : 1;
}
