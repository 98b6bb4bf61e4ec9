/* An example host: a works over twenty days. Each day it receives a thickened
 * sludge, feeds the digester, lets a solver in double precision work on it, closes
 * what the solver proposes, settles, returns, recycles a part of the reject water
 * and releases most of the rest. It holds:
 *
 *   - the day's sludge, from concentrations to counts,
 *   - the sums that the host keeps, and the four balances over them,
 *   - the toy solver: first-order arrows from column to column,
 *   - a function for each part of a day, and main.
 *
 * Counts stay whole numbers here, but for the solver's. A proposal is only a
 * proposal: whatever the doubles lost, settle tests the last count, and
 * jilghvani_close makes it right. The solver uses + - * / alone, in a fixed
 * order, so that what is printed is the same on every machine with IEEE doubles
 * (compiled with -ffp-contract=off).
 *
 * The works is of the size of the benchmark plant BSM2; the solver is a toy and
 * no digester model. */
#include "printing.h"

enum {
    DAYS = 20,
    VOLUME = 178,   /* m3 of thickened sludge a day */
    FED = 950,      /* thousandths of the sludge that are fed a day */
    RETURNED = 52,  /* thousandths of the digester that return a day: 178 of 3400 m3 */
    RECYCLED = 200, /* thousandths of the reject water that go back to the sludge a day */
    RELEASED = 900  /* thousandths of what is left of it that are released a day */
};

/* What a cubic metre of thickened sludge holds: COD, oxygen and nitrogen in mg,
 * alkalinity in mmol. */
static const uint64_t sludge_in_m3[JILGHVANI_ASM1] = {
    [JILGHVANI_ASM1_SI] = 28000,     [JILGHVANI_ASM1_SS] = 49000,
    [JILGHVANI_ASM1_XI] = 10400000,  [JILGHVANI_ASM1_XS] = 20400000,
    [JILGHVANI_ASM1_XBH] = 10200000, [JILGHVANI_ASM1_XBA] = 550000,
    [JILGHVANI_ASM1_XP] = 3200000,   [JILGHVANI_ASM1_SO] = 250,
    [JILGHVANI_ASM1_SNO] = 1700,     [JILGHVANI_ASM1_SNH] = 29000,
    [JILGHVANI_ASM1_SND] = 4700,     [JILGHVANI_ASM1_XND] = 906000,
    [JILGHVANI_ASM1_SALK] = 7200,
};

/* The sludge of a day in counts: mg, mmol, and for nitrogen 10000 ticks a mg. */
static void make_sludge(uint64_t v[JILGHVANI_ASM1])
{
    for (int i = 0; i < JILGHVANI_ASM1; i++) {
        int is_nitrogen = i >= JILGHVANI_ASM1_SNO && i <= JILGHVANI_ASM1_XND;
        v[i] = sludge_in_m3[i] * VOLUME * (is_nitrogen ? 10000 : 1);
    }
}

/* ---- The sums that the host keeps ---- */

/* The quantities that balance. */
enum { COD, TKN, OXYGEN, NITRATE, QUANTITIES };

static const char *const quantity_names[QUANTITIES] = {"COD", "TKN", "oxygen", "nitrate"};

/* A works: the link's record, and the sums of what was received, of what was
 * released, and of what was let go (COD burnt, gas and stripped; oxygen and
 * nitrate reduced). These days' sums stay far below 2^64. */
struct works {
    uint64_t record[JILGHVANI_RECORD];
    uint64_t received[QUANTITIES];
    uint64_t released[QUANTITIES];
    uint64_t let_go[QUANTITIES];
};

/* Adds an ASM1 vector to sums; the figures, those of the works' record, tell how
 * many ticks of nitrogen are in a mg COD of biomass and of inerts. */
static void add_vector(uint64_t sums[QUANTITIES], const uint64_t v[JILGHVANI_ASM1],
                       const uint64_t figures[JILGHVANI_FIGURES])
{
    for (int i = JILGHVANI_ASM1_SI; i <= JILGHVANI_ASM1_XP; i++)
        sums[COD] += v[i];
    sums[TKN] += v[JILGHVANI_ASM1_SNH] + v[JILGHVANI_ASM1_SND] + v[JILGHVANI_ASM1_XND]
                 + figures[JILGHVANI_FIGURE_IXB] * (v[JILGHVANI_ASM1_XBH] + v[JILGHVANI_ASM1_XBA])
                 + figures[JILGHVANI_FIGURE_IXE] * (v[JILGHVANI_ASM1_XI] + v[JILGHVANI_ASM1_XP]);
    sums[OXYGEN] += v[JILGHVANI_ASM1_SO];
    sums[NITRATE] += v[JILGHVANI_ASM1_SNO];
}

/* Prints both sides of a quantity's balance; gives whether they are equal. */
static int balances(const struct works *w, const uint64_t held[QUANTITIES], int q)
{
    uint64_t right = held[q] + w->released[q] + w->let_go[q];

    printf("%s: received %" PRIu64 ", held %" PRIu64 " + released %" PRIu64 " + let go %" PRIu64
           " = %" PRIu64 "\n",
           quantity_names[q], w->received[q], held[q], w->released[q], w->let_go[q], right);
    return w->received[q] == right;
}

/* ---- The toy solver ---- */

/* Where the solver keeps what has left as gas: behind the digester's columns. */
enum { GAS = JILGHVANI_DIGESTER, SOLVED };

/* What part of a column's COD goes to another column in a day. */
struct arrow {
    int from, to;
    double rate;
};

static const struct arrow arrows[] = {
    /* composites fall apart */
    {JILGHVANI_DIGESTER_XC, JILGHVANI_DIGESTER_SI, 0.05},
    {JILGHVANI_DIGESTER_XC, JILGHVANI_DIGESTER_XI, 0.10},
    {JILGHVANI_DIGESTER_XC, JILGHVANI_DIGESTER_XCH, 0.10},
    {JILGHVANI_DIGESTER_XC, JILGHVANI_DIGESTER_XPR, 0.10},
    {JILGHVANI_DIGESTER_XC, JILGHVANI_DIGESTER_XLI, 0.15},
    /* hydrolysis */
    {JILGHVANI_DIGESTER_XCH, JILGHVANI_DIGESTER_SSU, 10.0},
    {JILGHVANI_DIGESTER_XPR, JILGHVANI_DIGESTER_SAA, 10.0},
    {JILGHVANI_DIGESTER_XLI, JILGHVANI_DIGESTER_SFA, 10.0},
    /* uptake, with a little biomass */
    {JILGHVANI_DIGESTER_SSU, JILGHVANI_DIGESTER_SAC, 7.2},
    {JILGHVANI_DIGESTER_SSU, JILGHVANI_DIGESTER_XSU, 0.8},
    {JILGHVANI_DIGESTER_SAA, JILGHVANI_DIGESTER_SAC, 7.4},
    {JILGHVANI_DIGESTER_SAA, JILGHVANI_DIGESTER_XAA, 0.6},
    {JILGHVANI_DIGESTER_SFA, JILGHVANI_DIGESTER_SAC, 3.7},
    {JILGHVANI_DIGESTER_SFA, JILGHVANI_DIGESTER_XFA, 0.3},
    {JILGHVANI_DIGESTER_SAC, JILGHVANI_DIGESTER_SCH4, 3.8},
    {JILGHVANI_DIGESTER_SAC, JILGHVANI_DIGESTER_XAC, 0.2},
    /* decay */
    {JILGHVANI_DIGESTER_XSU, JILGHVANI_DIGESTER_XC, 0.02},
    {JILGHVANI_DIGESTER_XAA, JILGHVANI_DIGESTER_XC, 0.02},
    {JILGHVANI_DIGESTER_XFA, JILGHVANI_DIGESTER_XC, 0.02},
    {JILGHVANI_DIGESTER_XAC, JILGHVANI_DIGESTER_XC, 0.02},
    /* methane leaves */
    {JILGHVANI_DIGESTER_SCH4, GAS, 5.0},
};

/* One step of that many days: every arrow goes by the columns at the step's
 * start. A column that a step too long takes below zero is set to zero, and COD
 * is made from nothing. */
static void take_step(double x[SOLVED], double days)
{
    double change[SOLVED] = {0};

    for (size_t i = 0; i < sizeof arrows / sizeof arrows[0]; i++) {
        double moved = x[arrows[i].from] * arrows[i].rate * days;
        change[arrows[i].from] -= moved;
        change[arrows[i].to] += moved;
    }
    for (int i = 0; i < SOLVED; i++) {
        x[i] += change[i];
        if (x[i] < 0.0)
            x[i] = 0.0;
    }
}

/* The whole counts in a double, rounded down. What is no count is 0; what is too
 * much for any column, and may be too much for uint64_t, is 10^17, which is
 * above every ceiling. */
static uint64_t floor_to_counts(double x)
{
    if (!(x > 0.0))
        return 0;
    return x < 1e17 ? (uint64_t)x : UINT64_C(100000000000000000);
}

/* Lets the solver work for a day in that many steps: d gets its proposal; gives
 * the gas that it counted.
 *
 * A double has every count up to 2^53. COD goes up to 10^12; sin and cn may be
 * above it and lose their last counts here, which does no harm, since close puts
 * its own sin, co and cn in the proposal's place. Rounding takes none of them
 * above its ceiling, because 10^16 is a double. Nitrogen that proteins and
 * biomass free or bind is left to close as well. */
static uint64_t propose(const uint64_t record[JILGHVANI_RECORD], int steps,
                        uint64_t d[JILGHVANI_DIGESTER])
{
    double x[SOLVED] = {0};

    for (int i = 0; i < JILGHVANI_DIGESTER; i++)
        x[i] = (double)record[JILGHVANI_DIGESTER_AT + i];
    for (int i = 0; i < steps; i++)
        take_step(x, 1.0 / steps);
    for (int i = 0; i < JILGHVANI_DIGESTER; i++)
        d[i] = floor_to_counts(x[i]);
    return floor_to_counts(x[GAS]);
}

/* ---- A day ---- */

/* Whether a call was accepted; says on standard error where it was not. */
static int accepted(const char *call, uint64_t refusal)
{
    if (refusal != JILGHVANI_ACCEPTED)
        fprintf(stderr, "%s refused with %" PRIu64 ", %s\n", call, refusal,
                jilghvani_refusal_text(refusal));
    return refusal == JILGHVANI_ACCEPTED;
}

/* Receives a day's sludge. */
static int receive(struct works *w)
{
    uint64_t v[JILGHVANI_ASM1];

    make_sludge(v);
    if (!accepted("receive", jilghvani_receive(w->record, v)))
        return 0;
    add_vector(w->received, v, w->record + JILGHVANI_FIGURES_AT);
    return 1;
}

/* Feeds the digester; tells the COD burnt. */
static int feed(struct works *w, uint64_t *burnt)
{
    uint64_t told[4];

    if (!accepted("feed", jilghvani_feed(w->record, FED, told)))
        return 0;
    *burnt = told[0];
    w->let_go[COD] += told[0];
    w->let_go[OXYGEN] += told[1];
    w->let_go[NITRATE] += told[2];
    return 1;
}

/* Solves a day, closes the proposal and settles; tells the gas. */
static int settle(struct works *w, uint64_t *gas)
{
    uint64_t d[JILGHVANI_DIGESTER];

    propose(w->record, 96, d);
    if (!accepted("close", jilghvani_close(w->record, d, gas))
        || !accepted("settle", jilghvani_settle(w->record, *gas, d)))
        return 0;
    w->let_go[COD] += *gas;
    return 1;
}

/* Returns from the digester; tells the COD stripped. */
static int give_back(struct works *w, uint64_t *stripped)
{
    if (!accepted("return", jilghvani_return(w->record, RETURNED, stripped)))
        return 0;
    w->let_go[COD] += *stripped;
    return 1;
}

/* Recycles reject water; it stays in the works, so that no sum has a term for it. */
static int recycle(struct works *w)
{
    return accepted("recycle", jilghvani_recycle(w->record, RECYCLED));
}

/* Releases reject water. */
static int release(struct works *w)
{
    uint64_t v[JILGHVANI_ASM1];

    if (!accepted("release", jilghvani_release(w->record, RELEASED, v)))
        return 0;
    add_vector(w->released, v, w->record + JILGHVANI_FIGURES_AT);
    return 1;
}

/* Prints how a proposal fares as the solver made it: what settle says of it with
 * the solver's own gas, what close says, and the gap. All on copies, so that the
 * works stays as it is. */
static int print_unclosed(const struct works *w, int steps)
{
    struct works copy = *w;
    uint64_t d[JILGHVANI_DIGESTER], gap[3], gas;
    uint64_t solver_gas = propose(w->record, steps, d);

    printf("a proposal of %d steps\n", steps);
    printf("  settle with the solver's gas: %s\n",
           jilghvani_refusal_text(jilghvani_settle(copy.record, solver_gas, d)));
    if (!accepted("gap", jilghvani_gap(w->record, d, gap)))
        return 0;
    printf("  gap: COD %" PRIu64 " mg, nitrogen %" PRIu64 " ticks, sin %" PRIu64 " ticks\n",
           gap[0], gap[1], gap[2]);
    printf("  close: %s\n", jilghvani_refusal_text(jilghvani_close(w->record, d, &gas)));
    printf("  gas: solver %" PRIu64 " mg, close %" PRIu64 " mg\n", solver_gas, gas);
    return 1;
}

/* One day of the works. On the first, a solver with too few steps and one with
 * enough are shown unclosed. */
static int run_day(struct works *w, int day)
{
    uint64_t burnt, gas, stripped;

    if (!receive(w) || !feed(w, &burnt))
        return 0;
    if (day == 1 && (!print_unclosed(w, 2) || !print_unclosed(w, 96)))
        return 0;
    if (!settle(w, &gas) || !give_back(w, &stripped) || !recycle(w) || !release(w))
        return 0;
    printf("day %d: burnt %" PRIu64 " gas %" PRIu64 " stripped %" PRIu64 "\n",
           day, burnt, gas, stripped);
    return 1;
}

/* Runs the days and holds the four balances. */
int main(void)
{
    struct works w = {0};
    uint64_t held[QUANTITIES];
    int all_balance = 1;

    jilghvani_fresh(w.record);
    for (int day = 1; day <= DAYS; day++)
        if (!run_day(&w, day))
            return 1;
    if (!accepted("totals", jilghvani_totals(w.record, held)))
        return 1;
    for (int q = 0; q < QUANTITIES; q++)
        all_balance &= balances(&w, held, q);
    return all_balance && all_printed() ? 0 : 1;
}
