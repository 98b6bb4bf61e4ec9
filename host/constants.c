/* The header's constants held against the library: the places of the columns by the
 * names that a line gives them, the refusals by calls that get them, the lengths of the
 * buffers, the most lines whose answers are counted, the most loads of a blend, the kinds
 * of a sheet and the version. host/run compiles it as C and as C++, so that a host in C++
 * is linked too. It prints what the library does not bear out. The places of tanks and
 * figures, and the house set, are held by the examples. JILGHVANI_LINE is not held: no
 * line near it is a form. */
#include "jilghvani.h"

#include <stdio.h>
#include <string.h>

static int wrong = 0;

/* Prints a constant's name where what is asked of it does not hold. */
static void ask(int holds, const char *name)
{
    if (!holds) {
        puts(name);
        wrong = 1;
    }
}

/* Whether these bytes are this word and, in brackets behind it, a column with 1. */
static int is_line(const uint8_t *buf, size_t count, const char *word, const char *column)
{
    char line[64];
    int length = snprintf(line, sizeof line, "(%s (%s 1))\n", word, column);

    return length > 0 && count == (size_t)length && memcmp(buf, line, count) == 0;
}

/* Asks that an ASM1 column is written with this name. */
static void asm1_place(int place, const char *name)
{
    uint64_t v[JILGHVANI_ASM1] = {0};
    uint8_t buf[2048];

    v[place] = 1;
    ask(is_line(buf, jilghvani_write_receive(v, 0, buf, sizeof buf), "receive", name), name);
}

/* Asks that a digester column is written with this name. */
static void digester_place(int place, const char *name)
{
    uint64_t d[JILGHVANI_DIGESTER] = {0};
    uint8_t buf[2048];

    d[place] = 1;
    ask(is_line(buf, jilghvani_write_settle(0, d, 0, buf, sizeof buf), "settle 0", name), name);
}

#define ASM1(NAME, name) asm1_place(JILGHVANI_ASM1_##NAME, #name)
#define DIGESTER(NAME, name) digester_place(JILGHVANI_DIGESTER_##NAME, #name)

/* The places of the columns. */
static void places(void)
{
    ASM1(SI, si), ASM1(SS, ss), ASM1(XI, xi), ASM1(XS, xs), ASM1(XBH, xbh);
    ASM1(XBA, xba), ASM1(XP, xp), ASM1(SO, so), ASM1(SNO, sno), ASM1(SNH, snh);
    ASM1(SND, snd), ASM1(XND, xnd), ASM1(SALK, salk);
    DIGESTER(SI, si), DIGESTER(SSU, ssu), DIGESTER(SAA, saa), DIGESTER(SFA, sfa);
    DIGESTER(SVA, sva), DIGESTER(SBU, sbu), DIGESTER(SPRO, spro), DIGESTER(SAC, sac);
    DIGESTER(SH2, sh2), DIGESTER(SCH4, sch4), DIGESTER(XI, xi), DIGESTER(XC, xc);
    DIGESTER(XCH, xch), DIGESTER(XPR, xpr), DIGESTER(XLI, xli), DIGESTER(XSU, xsu);
    DIGESTER(XAA, xaa), DIGESTER(XFA, xfa), DIGESTER(XC4, xc4), DIGESTER(XPRO, xpro);
    DIGESTER(XAC, xac), DIGESTER(XH2, xh2), DIGESTER(SIN, sin), DIGESTER(SIC, sic);
    DIGESTER(CO, co), DIGESTER(CN, cn);
}

/* The refusal of a receive of one column into a sludge tank that holds one column. */
static uint64_t received(uint64_t held, uint64_t count)
{
    uint64_t record[JILGHVANI_RECORD], v[JILGHVANI_ASM1] = {0};

    jilghvani_fresh(record);
    record[JILGHVANI_SLUDGE_AT + JILGHVANI_ASM1_SS] = held;
    v[JILGHVANI_ASM1_SS] = count;
    return jilghvani_receive(record, v);
}

/* The refusal of an accept of nitrite alone on a fresh record. */
static uint64_t accepted(uint64_t nitrite)
{
    uint64_t record[JILGHVANI_RECORD], told[1];
    const uint64_t v[JILGHVANI_ASM1] = {0};

    jilghvani_fresh(record);
    return jilghvani_accept(record, v, nitrite, told);
}

/* The refusal of a settle of one column on a fresh record. */
static uint64_t settled(uint64_t gas, int place)
{
    uint64_t record[JILGHVANI_RECORD], d[JILGHVANI_DIGESTER] = {0};

    jilghvani_fresh(record);
    d[place] = 1;
    return jilghvani_settle(record, gas, d);
}

/* The refusal of a sheet whose entries are all of one kind and value. */
static uint64_t sheet(int kind, float value, uint64_t told[4])
{
    uint64_t record[JILGHVANI_RECORD];
    uint8_t kinds[JILGHVANI_ASM1];
    float values[JILGHVANI_ASM1];

    jilghvani_fresh(record);
    for (int i = 0; i < JILGHVANI_ASM1; i++) {
        kinds[i] = (uint8_t)kind;
        values[i] = value;
    }
    return jilghvani_sheet(record, kinds, values, told);
}

/* The refusal of a blend of so many empty loads, at most nine, into a fresh record. */
static uint64_t blended(int number)
{
    uint64_t record[JILGHVANI_RECORD], loads[9 * JILGHVANI_ASM1] = {0};
    const uint64_t ks[9] = {1, 1, 1, 1, 1, 1, 1, 1, 1};

    jilghvani_fresh(record);
    return jilghvani_blend(record, loads, (size_t)number * JILGHVANI_ASM1, ks, (size_t)number);
}

/* How many of so many empty lines, at most one more than count, do not count; the bytes
 * that are told stand in *bytes. */
static uint64_t not_counted(size_t number, uint64_t *bytes)
{
    static uint8_t newlines[JILGHVANI_COUNTED_LINES + 1];
    uint64_t record[JILGHVANI_RECORD], told[2];

    jilghvani_fresh(record);
    memset(newlines, '\n', sizeof newlines);
    jilghvani_answer_bytes(record, number > 0 ? newlines : NULL, number, told);
    *bytes = told[0];
    return told[1];
}

/* The refusals, each by a call that gets it. 6 has none, and 12 is told by a count. */
static void refusals(void)
{
    uint64_t record[JILGHVANI_RECORD], told[4], d[JILGHVANI_DIGESTER] = {0}, v[JILGHVANI_ASM1] = {0};
    const uint64_t none[JILGHVANI_FIGURES] = {0};
    uint8_t buf[2048];
    char no_form[16];

    jilghvani_fresh(record);
    ask(jilghvani_recycle(record, 1) == JILGHVANI_ACCEPTED, "ACCEPTED");
    ask(jilghvani_recycle(record, 0) == JILGHVANI_K_OUT_OF_RANGE, "K_OUT_OF_RANGE");
    ask(received(1000000000001, 0) == JILGHVANI_RECORD_ABOVE_CEILING, "RECORD_ABOVE_CEILING");
    ask(received(0, 1000000000001) == JILGHVANI_COLUMN_ABOVE_CEILING
            && accepted(10000000000000000) == JILGHVANI_ACCEPTED
            && accepted(10000000000000001) == JILGHVANI_COLUMN_ABOVE_CEILING, "COLUMN_ABOVE_CEILING");
    ask(received(1000000000000, 1) == JILGHVANI_DESTINATION_ABOVE_CEILING, "DESTINATION_ABOVE_CEILING");
    v[JILGHVANI_ASM1_SI] = 1;
    ask(jilghvani_asm_to_adm(jilghvani_house, v, d, told) == JILGHVANI_FEED_NITROGEN_SHORT,
        "FEED_NITROGEN_SHORT");
    d[JILGHVANI_DIGESTER_XI] = 1;
    ask(jilghvani_adm_to_asm(jilghvani_house, d, v, told) == JILGHVANI_RETURN_NITROGEN_SHORT,
        "RETURN_NITROGEN_SHORT");
    ask(settled(0, JILGHVANI_DIGESTER_SSU) == JILGHVANI_COD_OPEN, "COD_OPEN");
    ask(settled(0, JILGHVANI_DIGESTER_SIN) == JILGHVANI_TKN_DIFFERS, "TKN_DIFFERS");
    ask(settled(0, JILGHVANI_DIGESTER_CO) == JILGHVANI_CARRIED_DIFFERS, "CARRIED_DIFFERS");
    snprintf(no_form, sizeof no_form, "(no %d)", (int)JILGHVANI_NO_FORM);
    ask(jilghvani_line(record, NULL, 0, buf, sizeof buf) == strlen(no_form)
            && memcmp(buf, no_form, strlen(no_form)) == 0, "NO_FORM");
    ask(sheet(3, 1.0f, told) == JILGHVANI_VALUE_NO_AMOUNT, "VALUE_NO_AMOUNT");
    ask(sheet(JILGHVANI_MEASURED, 1e30f, told) == JILGHVANI_VALUE_ABOVE_CEILING, "VALUE_ABOVE_CEILING");
    ask(jilghvani_make(record, none) == JILGHVANI_FIGURES_NOT_PERMITTED, "FIGURES_NOT_PERMITTED");
    ask(jilghvani_blend(record, NULL, 0, NULL, 0) == JILGHVANI_NO_BLEND
            && jilghvani_blend(record, v, JILGHVANI_ASM1, NULL, 0) == JILGHVANI_NO_BLEND
            && jilghvani_blend(record, NULL, 0, none, 1) == JILGHVANI_NO_BLEND, "NO_BLEND");
    ask(strcmp(jilghvani_refusal_text(6), jilghvani_refusal_text(99)) == 0, "6, which is not used again");
    ask(strstr(jilghvani_refusal_text(12), "512") != NULL, "BUFFER_SHORT");
}

/* The shortest buffers, the most lines whose answers are counted, the most loads of a
 * blend, the kinds of a sheet's entries, and the version. */
static void others(void)
{
    uint64_t record[JILGHVANI_RECORD], told[4], held, all, bytes;
    uint8_t buf[2048];
    char version[32];

    jilghvani_fresh(record);
    ask(jilghvani_held(record, buf, JILGHVANI_BUFFER) > 0
            && jilghvani_held(record, buf, JILGHVANI_BUFFER - 1) == 0, "BUFFER");
    ask(jilghvani_write_feed(1, 0, buf, JILGHVANI_LINE_BUFFER) > 0
            && jilghvani_write_feed(1, 0, buf, JILGHVANI_LINE_BUFFER - 1) == 0, "LINE_BUFFER");
    ask(not_counted(0, &held) == 0 && held == strlen("(held cod 0 tkn 0 oxygen 0 nitrate 0)\n")
            && not_counted(JILGHVANI_COUNTED_LINES, &all) == 0
            && all == held + JILGHVANI_COUNTED_LINES * strlen("(no 11)\n")
            && not_counted(JILGHVANI_COUNTED_LINES + 1, &bytes) == 1 && bytes == all,
        "COUNTED_LINES");
    ask(blended(JILGHVANI_MOST_LOADS) == JILGHVANI_ACCEPTED
            && blended(JILGHVANI_MOST_LOADS + 1) == JILGHVANI_NO_BLEND, "MOST_LOADS");
    ask(sheet(JILGHVANI_MEASURED, 1.0f, told) == 0 && told[0] == 0 && told[3] == 0, "MEASURED");
    ask(sheet(JILGHVANI_BELOW_LIMIT, 1.0f, told) == 0 && told[0] == 8000 && told[3] == 0, "BELOW_LIMIT");
    ask(sheet(JILGHVANI_NOT_SAMPLED, 1.0f, told) == 0 && told[0] == 0 && told[3] == 13, "NOT_SAMPLED");
    snprintf(version, sizeof version, "%d.%d.%d", JILGHVANI_VERSION_MAJOR, JILGHVANI_VERSION_MINOR,
             JILGHVANI_VERSION_PATCH);
    ask(strcmp(version, JILGHVANI_VERSION) == 0, "VERSION");
}

int main(void)
{
    places();
    refusals();
    others();
    return wrong;
}
