/* The ASM1 and ADM1 link as a C library for x86-64 Linux (host/build makes
 * libjilghvani.a and libjilghvani.so). This file holds:
 *
 *   - the version,
 *   - the sizes, the places of the columns and of the figures, and the layout of a
 *     plant record,
 *   - the house set of figures,
 *   - the refusals and their texts,
 *   - the functions: the two on text, the one that tells how long answers will be,
 *     the eight that write a call as a line, the calls by numbers, the one for a
 *     laboratory sheet, the one for hauled loads, the two conversions by themselves,
 *     and the two for a solver's proposal. Above each stands who owns what, what is
 *     read and written, and what a refusal leaves.
 *
 * Memory. A record is an array of 61 uint64_t that the caller owns, and so are
 * vectors, figures, told numbers, loads and their ks, lines and buffers. There is no
 * other state: the library keeps nothing between calls, allocates nothing and holds
 * no pointer after it returns. Of an array it touches as many numbers as its
 * declaration names, or, where a length is handed over beside it, no more than that.
 *
 * Threads. Calls may run at the same time in any threads, as long as none of
 * them is lent for writing what another is lent. So calls that change one record
 * are the caller's to order, and calls that only read it need no order.
 *
 * Overlap. What a call writes must not overlap anything else that is lent to the
 * same call. What it only reads may: jilghvani_gap takes the digester's columns
 * of its own record as d, and jilghvani_settle does not; jilghvani_asm_to_adm
 * takes the figures of a record where they stand, and jilghvani_make does not take
 * those of the record that it makes.
 *
 * Pointers. Records, vectors, figures, told numbers, loads and their ks are aligned
 * as uint64_t is, the values of a sheet as float is; its kinds, lines and buffers
 * stand anywhere. No pointer may be null, except one whose length is 0.
 *
 * Refusals. A function by numbers gives the refusal's number, or 0 where it is
 * accepted. Its tests run in the order that is given above it, and the first
 * that applies is told. A refused call leaves the record as it was, and zeros in
 * all that it tells or hands out; jilghvani_make alone writes a record where it is
 * refused, one of the house set. What is told or handed out is always written and
 * never read, so that it needs no values before the call.
 *
 * Counts. Every number is a whole count; a vector is a mass and no
 * concentration. A column's ticks go up to 10^16, past 2^53, so that a double does
 * not hold each of them; its COD, oxygen and millimoles, up to 10^12, it does. Keep
 * counts in integers; who has grams hands them over as a sheet (jilghvani_sheet).
 *
 * All that an accepted call by numbers takes or gives is at most 2.7 * 10^17,
 * whatever the figures are, so that a signed integer of 64 bits holds it as well.
 * The greatest are those of nitrogen, with every figure 10000 but ixe in the third
 * row and ni in the fourth, which are 0 there:
 *
 *    TKN of jilghvani_totals               2.7 * 10^17 ticks: 0.7 * 10^17 in each
 *                                          ASM1 tank, 1.3 * 10^17 in the digester
 *    TKN and sin of jilghvani_gap          1.2 * 10^17
 *    xnd of jilghvani_adm_to_asm           10^17
 *    sin of jilghvani_asm_to_adm           0.7 * 10^17
 *    the ticks of jilghvani_sheet          0.4 * 10^17
 *
 * All else in ticks is at most 0.3 * 10^17, as the nitrate of jilghvani_totals; the
 * nitrite that jilghvani_accept takes is at most 0.1 * 10^17, and the N2 that it
 * tells 0.04 * 10^17. All in mg or mmol is at most 3.6 * 10^13 (the COD of
 * jilghvani_totals).
 *
 * The numbers of a record stand in this order (mg: COD and oxygen in mg; ticks:
 * 0.0001 mg N; mmol: millimoles):
 *
 *    sludge tank (ASM1)
 *      0 si mg     1 ss mg     2 xi mg     3 xs mg     4 xbh mg    5 xba mg
 *      6 xp mg     7 so mg     8 sno ticks 9 snh ticks 10 snd ticks
 *     11 xnd ticks 12 salk mmol
 *    digester
 *     13 si mg    14 ssu mg   15 saa mg   16 sfa mg   17 sva mg   18 sbu mg
 *     19 spro mg  20 sac mg   21 sh2 mg   22 sch4 mg  23 xi mg    24 xc mg
 *     25 xch mg   26 xpr mg   27 xli mg   28 xsu mg   29 xaa mg   30 xfa mg
 *     31 xc4 mg   32 xpro mg  33 xac mg   34 xh2 mg   35 sin ticks
 *     36 sic mmol 37 co mg    38 cn ticks
 *    reject tank (ASM1)
 *     39 si mg    40 ss mg    41 xi mg    42 xs mg    43 xbh mg   44 xba mg
 *     45 xp mg    46 so mg    47 sno ticks 48 snh ticks 49 snd ticks
 *     50 xnd ticks 51 salk mmol
 *    figures: ticks of nitrogen in a mg of COD
 *     52 ixb biomass, 53 ixe inerts (ASM1); 54 nxc composites, 55 ni inerts,
 *     56 naa amino acids and protein, 57 nbac degraders (digester)
 *    figures: parts in ten thousand
 *     58 fxi inerts that stay inert in a feed; 59 fch carbohydrate and 60 fli
 *     lipid, which share what composites leave as fch to fli
 *
 * Ceilings for one column: 10^12 for mg and mmol, 10^16 for ticks. A record with a
 * column above its ceiling is refused (1). Nitrite has no column; its ceiling is
 * 10^16 too.
 *
 * Figures. A set of figures is permitted where each is 0 to 10000, nxc and naa are
 * at least 1, and fch + fli is at least 1. They are chosen when the record is made
 * (jilghvani_make; jilghvani_fresh takes the house set), and no call changes them.
 * A host does not change them either: all that the record holds is counted by them.
 * A record whose figures are no permitted set is refused (15, before 1).
 *
 * A fresh record has zeros in its 52 columns and a permitted set behind them. So 61
 * zeros are no fresh record: a call that reads them is refused (15).
 *
 * Versions. Before 0.12.0 a record was the 52 columns alone. A host that was
 * compiled with an earlier header lends 52 numbers to functions that now write 61,
 * so it has to be compiled anew, with records of JILGHVANI_RECORD numbers, each
 * made by jilghvani_fresh or jilghvani_make. JILGHVANI_COLUMNS, which was a
 * record's length, is gone, so that none is 52 long by it. While the version's first
 * number is 0, the shared library's soname has the second one too, as
 * libjilghvani.so.0.18, so that the loader does not start a host with a library that
 * it was not linked for. The archive has no such guard.
 */
#ifndef JILGHVANI_H
#define JILGHVANI_H

#include <stddef.h>
#include <stdint.h>

#ifdef __cplusplus
extern "C" {
#endif

/* The version of this header, and its three numbers. */
#define JILGHVANI_VERSION "0.18.0"
#define JILGHVANI_VERSION_MAJOR 0
#define JILGHVANI_VERSION_MINOR 18
#define JILGHVANI_VERSION_PATCH 0

/* Sizes, and the places of columns and figures: record[JILGHVANI_DIGESTER_AT +
 * JILGHVANI_DIGESTER_SIN] is the digester's sin, and record[JILGHVANI_FIGURES_AT +
 * JILGHVANI_FIGURE_IXB] the record's ixb. All are of one type, because C++ from
 * 2020 on does not want sums of two. */
enum {
    JILGHVANI_ASM1 = 13,      /* columns of an ASM1 vector */
    JILGHVANI_DIGESTER = 26,  /* columns of a digester vector */
    JILGHVANI_FIGURES = 9,    /* figures of a set */
    JILGHVANI_RECORD = 61,    /* numbers of a record: 52 columns and the figures */
    JILGHVANI_SLUDGE_AT = 0,  /* where each tank begins in a record, */
    JILGHVANI_DIGESTER_AT = 13,
    JILGHVANI_REJECT_AT = 39,
    JILGHVANI_FIGURES_AT = 52, /* and the figures, right behind the columns */
    JILGHVANI_BUFFER = 512,   /* the shortest buffer for an answer or a held line */
    JILGHVANI_LINE_BUFFER = 1025, /* the shortest buffer for a call's line */
    JILGHVANI_LINE = 1024,    /* the longest line that is read; no form is longer
                               * than 739 bytes, so that a longer line gets refusal
                               * 11, or 12 before it where the buffer is short */
    JILGHVANI_MOST_LOADS = 8, /* the most hauled loads that one blend takes */
    JILGHVANI_COUNTED_LINES = 1000, /* the most lines of a list that
                               * jilghvani_answer_bytes counts */

    /* the kinds of a sheet's entries */
    JILGHVANI_MEASURED = 0,    /* a measured value */
    JILGHVANI_BELOW_LIMIT = 1, /* a result below a detection limit, with that limit */
    JILGHVANI_NOT_SAMPLED = 2, /* none */

    /* the columns of an ASM1 vector */
    JILGHVANI_ASM1_SI = 0,    /* soluble inert COD, mg */
    JILGHVANI_ASM1_SS = 1,    /* readily biodegradable COD, mg */
    JILGHVANI_ASM1_XI = 2,    /* particulate inert COD, mg */
    JILGHVANI_ASM1_XS = 3,    /* slowly biodegradable COD, mg */
    JILGHVANI_ASM1_XBH = 4,   /* heterotrophic biomass, mg COD */
    JILGHVANI_ASM1_XBA = 5,   /* autotrophic biomass, mg COD */
    JILGHVANI_ASM1_XP = 6,    /* inert products of decay, mg COD */
    JILGHVANI_ASM1_SO = 7,    /* oxygen, mg */
    JILGHVANI_ASM1_SNO = 8,   /* nitrate, ticks */
    JILGHVANI_ASM1_SNH = 9,   /* ammonia, ticks */
    JILGHVANI_ASM1_SND = 10,  /* soluble organic nitrogen, ticks */
    JILGHVANI_ASM1_XND = 11,  /* particulate organic nitrogen, ticks */
    JILGHVANI_ASM1_SALK = 12, /* alkalinity, mmol */

    /* the columns of a digester vector */
    JILGHVANI_DIGESTER_SI = 0,    /* soluble inerts, mg COD */
    JILGHVANI_DIGESTER_SSU = 1,   /* sugars, mg COD */
    JILGHVANI_DIGESTER_SAA = 2,   /* amino acids, mg COD */
    JILGHVANI_DIGESTER_SFA = 3,   /* long-chain fatty acids, mg COD */
    JILGHVANI_DIGESTER_SVA = 4,   /* valerate, mg COD */
    JILGHVANI_DIGESTER_SBU = 5,   /* butyrate, mg COD */
    JILGHVANI_DIGESTER_SPRO = 6,  /* propionate, mg COD */
    JILGHVANI_DIGESTER_SAC = 7,   /* acetate, mg COD */
    JILGHVANI_DIGESTER_SH2 = 8,   /* dissolved hydrogen, mg COD */
    JILGHVANI_DIGESTER_SCH4 = 9,  /* dissolved methane, mg COD */
    JILGHVANI_DIGESTER_XI = 10,   /* particulate inerts, mg COD */
    JILGHVANI_DIGESTER_XC = 11,   /* composites, mg COD */
    JILGHVANI_DIGESTER_XCH = 12,  /* carbohydrates, mg COD */
    JILGHVANI_DIGESTER_XPR = 13,  /* proteins, mg COD */
    JILGHVANI_DIGESTER_XLI = 14,  /* lipids, mg COD */
    JILGHVANI_DIGESTER_XSU = 15,  /* degraders of sugars, mg COD */
    JILGHVANI_DIGESTER_XAA = 16,  /* of amino acids */
    JILGHVANI_DIGESTER_XFA = 17,  /* of long-chain fatty acids */
    JILGHVANI_DIGESTER_XC4 = 18,  /* of valerate and butyrate */
    JILGHVANI_DIGESTER_XPRO = 19, /* of propionate */
    JILGHVANI_DIGESTER_XAC = 20,  /* of acetate */
    JILGHVANI_DIGESTER_XH2 = 21,  /* of hydrogen */
    JILGHVANI_DIGESTER_SIN = 22,  /* inorganic nitrogen, ticks */
    JILGHVANI_DIGESTER_SIC = 23,  /* inorganic carbon, mmol */
    JILGHVANI_DIGESTER_CO = 24,   /* oxygen carried through, mg */
    JILGHVANI_DIGESTER_CN = 25,   /* nitrate carried through, ticks */

    /* the figures of a set: nitrogen in ticks for a mg of COD, */
    JILGHVANI_FIGURE_IXB = 0,  /* of biomass (ASM1) */
    JILGHVANI_FIGURE_IXE = 1,  /* of inerts (ASM1) */
    JILGHVANI_FIGURE_NXC = 2,  /* of composites */
    JILGHVANI_FIGURE_NI = 3,   /* of inerts (digester) */
    JILGHVANI_FIGURE_NAA = 4,  /* of amino acids and protein */
    JILGHVANI_FIGURE_NBAC = 5, /* of degraders */
    /* and parts in ten thousand */
    JILGHVANI_FIGURE_FXI = 6,  /* of inerts that stay inert */
    JILGHVANI_FIGURE_FCH = 7,  /* of carbohydrate */
    JILGHVANI_FIGURE_FLI = 8   /* of lipid */
};

/* The house set, in the order of the places above. */
static const uint64_t jilghvani_house[JILGHVANI_FIGURES] = {
    880, 880, 280, 280, 980, 875, 8000, 2000, 2500,
};

/* What a call is sent away for; an answer in text gives the number as "(no N)". */
enum jilghvani_refusal {
    JILGHVANI_ACCEPTED = 0,
    JILGHVANI_RECORD_ABOVE_CEILING = 1,
    JILGHVANI_K_OUT_OF_RANGE = 2,
    JILGHVANI_COLUMN_ABOVE_CEILING = 3,
    JILGHVANI_FEED_NITROGEN_SHORT = 4,
    JILGHVANI_RETURN_NITROGEN_SHORT = 5,
    /* 6 had a name before 0.13.0; no call gives it, and it is not used again */
    JILGHVANI_COD_OPEN = 7,
    JILGHVANI_TKN_DIFFERS = 8,
    JILGHVANI_CARRIED_DIFFERS = 9,
    JILGHVANI_DESTINATION_ABOVE_CEILING = 10,
    JILGHVANI_NO_FORM = 11,
    JILGHVANI_BUFFER_SHORT = 12,
    JILGHVANI_VALUE_NO_AMOUNT = 13,
    JILGHVANI_VALUE_ABOVE_CEILING = 14,
    JILGHVANI_FIGURES_NOT_PERMITTED = 15,
    JILGHVANI_NO_BLEND = 16
};

/* The text of a refusal's number: a constant string, for any number, that nobody
 * frees. */
static inline const char *jilghvani_refusal_text(uint64_t refusal)
{
    switch (refusal) {
    case JILGHVANI_ACCEPTED:
        return "accepted";
    case JILGHVANI_RECORD_ABOVE_CEILING:
        return "a column of the record is above its ceiling";
    case JILGHVANI_K_OUT_OF_RANGE:
        return "k is not 1 to 1000";
    case JILGHVANI_COLUMN_ABOVE_CEILING:
        return "a column or nitrite handed over, or the sin that closes, is above its ceiling";
    case JILGHVANI_FEED_NITROGEN_SHORT:
        return "the sludge has too little nitrogen for its inerts";
    case JILGHVANI_RETURN_NITROGEN_SHORT:
        return "the digester has too little nitrogen for the inerts that return";
    case JILGHVANI_COD_OPEN:
        return "the proposal's COD and the gas are not the digester's COD";
    case JILGHVANI_TKN_DIFFERS:
        return "the proposal's TKN is not the digester's";
    case JILGHVANI_CARRIED_DIFFERS:
        return "the proposal's co or cn is not the digester's";
    case JILGHVANI_DESTINATION_ABOVE_CEILING:
        return "a column would pass its ceiling in the tank that it goes to";
    case JILGHVANI_NO_FORM:
        return "the line is no form";
    case JILGHVANI_BUFFER_SHORT:
        return "the buffer has fewer than 512 bytes, or 1,025 for a call's line";
    case JILGHVANI_VALUE_NO_AMOUNT:
        return "a value or limit is negative, infinite or no number, or its kind is none";
    case JILGHVANI_VALUE_ABOVE_CEILING:
        return "a value's or limit's count is above its column's ceiling";
    case JILGHVANI_FIGURES_NOT_PERMITTED:
        return "a figure is above 10000, or nxc, naa or fch + fli is 0";
    case JILGHVANI_NO_BLEND:
        return "there are no loads, more than eight, or not thirteen columns for each k";
    default:
        return "no refusal has this number";
    }
}

/* ---- The calls as text ---- */

/* Makes the call that a line in brackets asks for, as "(feed 1000)", and writes
 * its answer, as "(ok feed burnt 0 oxygen 0 nitrate 0 warn 0)" or "(no 2)". A
 * preview, as "(preview (feed 1000))", writes the same answer and changes nothing.
 *
 * record    the caller's 61 numbers, read and written; columns are changed by an
 *           accepted call only. A refused call and a preview leave every number as
 *           it was.
 * line      line_len bytes that the caller owns, without the newline; they are
 *           read and never written. They need no ending zero. Fields stand in
 *           the order of the columns, as "(receive (ss 10) (xs 30))"; in
 *           another order the line gets 11.
 * buf       buf_len bytes that the caller lends; the answer stands first in it,
 *           without newline and without ending zero. Bytes behind the answer
 *           keep their values. 512 bytes hold every answer.
 *
 * Record, line and buffer must not overlap. Gives the number of answer bytes.
 * Under refusal 12, buf_len below 512, it gives 0 and leaves record and buffer
 * as they were. Refusals: 12, 11, then those of the call. */
size_t jilghvani_line(uint64_t record[JILGHVANI_RECORD],
                      const uint8_t *line, size_t line_len,
                      uint8_t *buf, size_t buf_len);

/* Writes the held line of a record, as "(held cod 0 tkn 0 oxygen 0 nitrate 0)":
 * what the three tanks hold together; or "(no 15)" for a record whose figures are
 * no permitted set, "(no 1)" for one with a column above its ceiling.
 *
 * record    the caller's 61 numbers; read and never written.
 * buf       as in jilghvani_line.
 *
 * Record and buffer must not overlap. Gives the number of bytes written; 0 under
 * refusal 12, with the buffer as it was. Refusals: 12, 15, 1. */
size_t jilghvani_held(const uint64_t record[JILGHVANI_RECORD],
                      uint8_t *buf, size_t buf_len);

/* ---- How long answers will be ---- */

/* Tells how many bytes sludgeline would print for a list of lines from a record:
 * the answer to each line, then the held line, each with its newline. No answer is
 * written and the record stays as it is, so that a host can reserve memory ahead of a
 * session. jilghvani_line and jilghvani_held, called for the same lines on the same
 * record, write the same answers without the newlines; the lines are the host's to
 * cut then, and each answer needs a buffer of 512 bytes.
 *
 * The lines are cut as sludgeline cuts its input. Each ends with a newline, which
 * the last one may lack; nothing behind a final newline is a line. An empty line is
 * one, and so is a line of more than 1,024 bytes, however long it is: both get
 * "(no 11)". A refused line counts with its "(no N)". A preview counts with its
 * answer, and changes nothing for the lines behind it.
 *
 * At most the first 1,000 lines count (JILGHVANI_COUNTED_LINES). Of later ones it is
 * told how many there are and no more: the bytes are those for the counted lines
 * alone, and the held line among them is that of the record after these.
 *
 * record    the caller's 61 numbers, any numbers; read and never written.
 * lines     len bytes that the caller owns, the lines one behind another; read and
 *           never written.
 * told      two numbers that the caller owns, all written: the bytes, and how many
 *           lines did not count.
 *
 * Told must not overlap record or lines. It has no refusal: of a record that is
 * refused each form gets "(no 15)" or "(no 1)", and so does the held line, and these
 * are counted. */
void jilghvani_answer_bytes(const uint64_t record[JILGHVANI_RECORD],
                            const uint8_t *lines, size_t len, uint64_t told[2]);

/* ---- Calls as lines ---- */

/* Write the line that jilghvani_line reads, or sludgeline, and a newline: of each
 * call one function, which takes what the call takes. The columns of a vector
 * stand in order, and a column that is 0 is left away; the number of the call, k,
 * gas or n, is always written. So jilghvani_write_receive of ss 10 and xs 30 writes
 * "(receive (ss 10) (xs 30))" and a newline. Reading the line, without its
 * newline, gives the call and its vector again, and no other line that names no
 * column with 0 does. No call is made, and any numbers are written, those that
 * the call would refuse too.
 *
 * k, gas, n any number.
 * v, d      13 or 26 columns that the caller owns; read and never written.
 * preview   0 for the call's own line; any other number for its preview, as
 *           "(preview (feed 1000))".
 * buf       buf_len bytes that the caller lends; line and newline stand first in
 *           it, without ending zero. Bytes behind the newline keep their values.
 *           1,025 bytes hold every line.
 *
 * Vector and buffer must not overlap. Each gives the number of bytes written, the
 * newline among them. Under refusal 12, buf_len below 1025, it gives 0 and leaves
 * the buffer as it was; there is no other refusal. */
size_t jilghvani_write_receive(const uint64_t v[JILGHVANI_ASM1],
                               uint64_t preview, uint8_t *buf, size_t buf_len);
size_t jilghvani_write_feed(uint64_t k,
                            uint64_t preview, uint8_t *buf, size_t buf_len);
size_t jilghvani_write_settle(uint64_t gas, const uint64_t d[JILGHVANI_DIGESTER],
                              uint64_t preview, uint8_t *buf, size_t buf_len);
size_t jilghvani_write_return(uint64_t k,
                              uint64_t preview, uint8_t *buf, size_t buf_len);
size_t jilghvani_write_release(uint64_t k,
                               uint64_t preview, uint8_t *buf, size_t buf_len);
size_t jilghvani_write_recycle(uint64_t k,
                               uint64_t preview, uint8_t *buf, size_t buf_len);
size_t jilghvani_write_draw(uint64_t k,
                            uint64_t preview, uint8_t *buf, size_t buf_len);
size_t jilghvani_write_accept(const uint64_t v[JILGHVANI_ASM1], uint64_t n,
                              uint64_t preview, uint8_t *buf, size_t buf_len);

/* ---- The calls by numbers ---- */

/* Makes a fresh record of the house set: every column zero, and jilghvani_house
 * behind them.
 *
 * record    61 numbers that the caller owns; all are written, none is read.
 *
 * It is never refused. */
void jilghvani_fresh(uint64_t record[JILGHVANI_RECORD]);

/* Makes a fresh record of nine figures of one's own: every column zero, and the
 * figures behind them.
 *
 * record    61 numbers that the caller owns; all are written, none is read.
 * figures   9 numbers that the caller owns, in the order ixb ixe nxc ni naa nbac fxi
 *           fch fli, any numbers; read and never written.
 *
 * Record and figures must not overlap. Gives 0 or the refusal: 15 where the figures
 * are no permitted set; then the record is a fresh one of the house set. */
uint64_t jilghvani_make(uint64_t record[JILGHVANI_RECORD],
                        const uint64_t figures[JILGHVANI_FIGURES]);

/* Receive: adds an ASM1 vector to the sludge tank.
 *
 * record    the caller's 61 numbers, read and written; the sludge tank is changed
 *           where the call is accepted. A refused one leaves every number as it
 *           was.
 * v         13 columns that the caller owns; read and never written.
 *
 * Record and v must not overlap. Gives 0 or the refusal: 15, 1, 3, 10. */
uint64_t jilghvani_receive(uint64_t record[JILGHVANI_RECORD],
                           const uint64_t v[JILGHVANI_ASM1]);

/* Feed k: draws k thousandths of the sludge tank, converts them and adds them to
 * the digester. The inerts there take their nitrogen from the organic nitrogen that
 * no amino acids hold, then from ammonia. What both lack comes from amino acids: as
 * many whole mg of them as hold it become sugars, and what these hold more is left for
 * composites and sin. The feed gets 4 exactly where the drawn TKN is less than the
 * inerts need. Before 0.18.0 amino acids did not give way, and 4 came as soon as the
 * other organic nitrogen and ammonia were short.
 *
 * record    the caller's 61 numbers, read and written; sludge and digester are
 *           changed where the call is accepted. A refused one leaves every number
 *           as it was.
 * k         the thousandths to draw, 1 to 1000.
 * told      four numbers that the caller owns, all written: COD burnt, oxygen
 *           reduced, nitrate reduced, warn (0 or 1); four zeros where the call is
 *           refused.
 *
 * Record and told must not overlap. Gives 0 or the refusal: 15, 1, 2, 4, 10. */
uint64_t jilghvani_feed(uint64_t record[JILGHVANI_RECORD], uint64_t k,
                        uint64_t told[4]);

/* Settle: d takes the digester's place where COD of the digester = COD of d + gas,
 * TKN is equal, and co and cn are equal; sic is free. jilghvani_close makes such
 * a d and its gas from what a solver proposes.
 *
 * record    the caller's 61 numbers, read and written; the digester is replaced
 *           where the call is accepted. A refused one leaves every number as it
 *           was.
 * gas       the COD that left as gas, mg; any number.
 * d         26 columns that the caller owns; read and never written.
 *
 * Record and d must not overlap. Gives 0 or the refusal: 15, 1, 3, 7, 8, 9. */
uint64_t jilghvani_settle(uint64_t record[JILGHVANI_RECORD], uint64_t gas,
                          const uint64_t d[JILGHVANI_DIGESTER]);

/* Return k: draws k thousandths of the digester, converts them and adds them to
 * the reject tank.
 *
 * record    the caller's 61 numbers, read and written; digester and reject are
 *           changed where the call is accepted. A refused one leaves every number
 *           as it was.
 * k         the thousandths to draw, 1 to 1000.
 * told      one number that the caller owns, written: COD stripped, 0 where the
 *           call is refused.
 *
 * Record and told must not overlap. Gives 0 or the refusal: 15, 1, 2, 5, 10. */
uint64_t jilghvani_return(uint64_t record[JILGHVANI_RECORD], uint64_t k,
                          uint64_t told[1]);

/* Release k: draws k thousandths of the reject tank and hands them out.
 *
 * record    the caller's 61 numbers, read and written; the reject tank is changed
 *           where the call is accepted. A refused one leaves every number as it
 *           was.
 * k         the thousandths to draw, 1 to 1000.
 * v         13 columns that the caller owns, all written: the ASM1 vector that is
 *           handed out, zeros where the call is refused.
 *
 * Record and v must not overlap. Gives 0 or the refusal: 15, 1, 2. */
uint64_t jilghvani_release(uint64_t record[JILGHVANI_RECORD], uint64_t k,
                           uint64_t v[JILGHVANI_ASM1]);

/* Recycle k: draws k thousandths of the reject tank and adds them to the sludge
 * tank, column by column. It converts nothing and tells nothing, and what the
 * three tanks hold together stays the same.
 *
 * record    the caller's 61 numbers, read and written; reject and sludge are
 *           changed where the call is accepted. A refused one leaves every number
 *           as it was.
 * k         the thousandths to draw, 1 to 1000.
 *
 * Gives 0 or the refusal: 15, 1, 2, 10. */
uint64_t jilghvani_recycle(uint64_t record[JILGHVANI_RECORD], uint64_t k);

/* Draw k: draws k thousandths of the reject tank and hands them to the host of the
 * side-stream reactor. It does what jilghvani_release does, and in the balances of a
 * list of calls what is drawn counts as released.
 *
 * record    the caller's 61 numbers, read and written; the reject tank is changed
 *           where the call is accepted. A refused one leaves every number as it
 *           was.
 * k         the thousandths to draw, 1 to 1000.
 * v         13 columns that the caller owns, all written: the ASM1 vector that is
 *           handed out, zeros where the call is refused.
 *
 * Record and v must not overlap. Gives 0 or the refusal: 15, 1, 2. */
uint64_t jilghvani_draw(uint64_t record[JILGHVANI_RECORD], uint64_t k,
                        uint64_t v[JILGHVANI_ASM1]);

/* Accept: adds what the host of the side-stream reactor hands back to the sludge
 * tank: an ASM1 vector, and n ticks of nitrite, which ASM1 has no column for. Of n
 * the floor of 3 * n / 5 joins sno, and the rest is told as N2. In the balances of a
 * list of calls v counts as received, n as received nitrate, and the N2 as nitrate
 * that has left. In the line n stands first, as "(accept 603 (xi 4) (snh 302))".
 *
 * record    the caller's 61 numbers, read and written; the sludge tank is changed
 *           where the call is accepted. A refused one leaves every number as it
 *           was.
 * v         13 columns that the caller owns; read and never written.
 * n         the nitrite, ticks, at most 10^16.
 * told      one number that the caller owns, written: the N2, ticks, 0 where the
 *           call is refused.
 *
 * Record, v and told must not overlap. Gives 0 or the refusal: 15; 1; 3 where a
 * column of v or n is above its ceiling; 10, where sno counts with its share of n. */
uint64_t jilghvani_accept(uint64_t record[JILGHVANI_RECORD],
                          const uint64_t v[JILGHVANI_ASM1], uint64_t n,
                          uint64_t told[1]);

/* Totals: what the three tanks hold together, as in the held line.
 *
 * record    the caller's 61 numbers; read and never written.
 * told      four numbers that the caller owns, all written: COD (mg), TKN (ticks),
 *           oxygen (mg), nitrate (ticks); four zeros where the call is refused.
 *
 * Record and told must not overlap. Gives 0 or the refusal: 15, 1. */
uint64_t jilghvani_totals(const uint64_t record[JILGHVANI_RECORD],
                          uint64_t told[4]);

/* ---- A laboratory sheet ---- */

/* Sheet: counts what a laboratory sends in single-precision grams (salk in moles)
 * and receives it. The thirteen entries stand in the order of the ASM1 columns.
 * A measured value counts as the floor of its exact binary value times 1,000 in
 * si to so and salk, and times 10^7 in sno to xnd. A result below a detection
 * limit counts as zero, and the limit's count, by the same rule, is told. An
 * entry that was not sampled counts as zero, and how many there are is told.
 * Minus zero counts as zero.
 *
 * record    the caller's 61 numbers, read and written; the sludge tank is changed
 *           where the call is accepted. A refused one leaves every number as it
 *           was.
 * kinds     13 numbers that the caller owns, read and never written: 0, 1 or 2
 *           (JILGHVANI_MEASURED, _BELOW_LIMIT, _NOT_SAMPLED). Any other gets
 *           refusal 13 at that column.
 * values    13 floats that the caller owns, read and never written: the value or
 *           the limit of each entry, any bits at all. The one beside kind 2 or
 *           beside a kind that is none is not read.
 * told      four numbers that the caller owns, all written: the counts of the
 *           limits, added up in milligrams (COD and oxygen), in ticks and in
 *           millimoles, and the number of entries not sampled; four zeros where
 *           the call is refused.
 *
 * Record and told must not overlap each other, kinds or values. Gives 0 or the
 * refusal: 13 or 14, that of the first column that is bad, then 15, 1, 10. Of one
 * column 13 comes before 14. */
uint64_t jilghvani_sheet(uint64_t record[JILGHVANI_RECORD],
                         const uint8_t kinds[JILGHVANI_ASM1],
                         const float values[JILGHVANI_ASM1], uint64_t told[4]);

/* ---- Hauled loads ---- */

/* Blend: draws of each of one to eight hauled loads the thousandths that stand for
 * it, adds all draws to the sludge tank, column by column, and leaves the rest of
 * each load in its place. Of a column the floor of column * k / 1000 is drawn, so
 * that each load's column before is its draw and its rest after, to the last count.
 * The same loads in another order, each with its k, give the same sludge tank. In
 * the balances of a list of calls the draws count as received.
 *
 * record    the caller's 61 numbers, read and written; the sludge tank is changed
 *           where the call is accepted. A refused one leaves every number as it
 *           was.
 * loads     loads_len numbers that the caller owns, read and written: the loads one
 *           behind another, 13 columns each in the order of the ASM1 columns. Where
 *           the call is accepted they are what is left of each load; a refused one
 *           leaves every number as it was.
 * ks        ks_len numbers that the caller owns, read and never written: for each
 *           load, in the order of the loads, the thousandths to draw, 1 to 1000.
 *
 * The lengths are counted in numbers, not in bytes: ks_len is 1 to 8
 * (JILGHVANI_MOST_LOADS), and loads_len 13 * ks_len. Any other lengths get 16.
 * Where a length is 0 its pointer may be null.
 *
 * Record, loads and ks must not overlap. Gives 0 or the refusal: 15; 1; 16; 2 where
 * any k is not 1 to 1000; 3 where any column of any load is above its ceiling; 10. */
uint64_t jilghvani_blend(uint64_t record[JILGHVANI_RECORD],
                         uint64_t *loads, size_t loads_len,
                         const uint64_t *ks, size_t ks_len);

/* ---- The conversions by themselves ---- */

/* The feed's conversion of a whole vector, ASM1 to digester, without record and
 * without draw, as asm2adm of BSM2 is called. Amino acids give way to inerts as in
 * jilghvani_feed.
 *
 * figures   9 numbers that the caller owns; read and never written:
 *           jilghvani_house, a set of one's own, or those of a record where they
 *           stand (record + JILGHVANI_FIGURES_AT).
 * v         13 columns that the caller owns; read and never written.
 * d         26 columns that the caller owns, all written: the digester vector,
 *           zeros where the call is refused. A column may be above its ceiling;
 *           a record that it is added to refuses it then (10).
 * told      four numbers that the caller owns, all written: COD burnt, oxygen
 *           reduced, nitrate reduced, warn (0 or 1); four zeros where the call is
 *           refused.
 *
 * d and told must not overlap each other, figures or v. Gives 0 or the refusal: 15,
 * 3, 4. */
uint64_t jilghvani_asm_to_adm(const uint64_t figures[JILGHVANI_FIGURES],
                              const uint64_t v[JILGHVANI_ASM1],
                              uint64_t d[JILGHVANI_DIGESTER], uint64_t told[4]);

/* The return's conversion of a whole vector, digester to ASM1, without record and
 * without draw, as adm2asm of BSM2 is called.
 *
 * figures   9 numbers that the caller owns; read and never written, as above.
 * d         26 columns that the caller owns; read and never written.
 * v         13 columns that the caller owns, all written: the ASM1 vector, zeros
 *           where the call is refused. A column may be above its ceiling, as
 *           above.
 * told      one number that the caller owns, written: COD stripped, 0 where the
 *           call is refused.
 *
 * v and told must not overlap each other, figures or d. Gives 0 or the refusal: 15,
 * 3, 5. */
uint64_t jilghvani_adm_to_asm(const uint64_t figures[JILGHVANI_FIGURES],
                              const uint64_t d[JILGHVANI_DIGESTER],
                              uint64_t v[JILGHVANI_ASM1], uint64_t told[1]);

/* ---- A solver's proposal ---- */

/* Close: makes of a digester vector that a solver proposes one that settle
 * accepts, and tells the gas. With old for the record's digester:
 *
 *   gas       = COD of old - COD of d
 *   d's sin   = TKN of old - TKN of all other columns of d, by the record's figures
 *   d's co, cn as in old; all other columns of d as proposed
 *
 * Where it is accepted, jilghvani_settle(record, told[0], d) is accepted too.
 *
 * record    the caller's 61 numbers; read and never written.
 * d         26 columns that the caller owns, read and written: the proposal, and
 *           where the call is accepted what closes. A refused call leaves every
 *           column of d as it was.
 * told      one number that the caller owns, written: the gas, mg COD, 0 where
 *           the call is refused.
 *
 * Record, d and told must not overlap. Gives 0 or the refusal: 15; 1; 3 where a
 * column of d (sin, co and cn too, although they are replaced), or the sin that
 * closes, is above its ceiling; 7 where COD of d is above COD of old; 8 where the
 * TKN of all other columns of d is above TKN of old. Under 7, 8, and 3 for the sin
 * that closes, no gas, sin, co and cn would do: the other columns must change, and
 * jilghvani_gap tells by how much. */
uint64_t jilghvani_close(const uint64_t record[JILGHVANI_RECORD],
                         uint64_t d[JILGHVANI_DIGESTER], uint64_t told[1]);

/* Gap: how far a proposal is from one that jilghvani_close accepts.
 *
 * record    the caller's 61 numbers; read and never written.
 * d         26 columns that the caller owns; read and never written.
 * told      three numbers that the caller owns, all written, each 0 where nothing
 *           is amiss: COD of d above COD of the digester (mg); TKN of d's columns
 *           other than sin above TKN of the digester (ticks); the sin that closes
 *           above 10^16 (ticks). Three zeros where the call is refused.
 *
 * Told must not overlap record or d; record and d may overlap. Gives 0 or the
 * refusal: 15, 1, 3 (a column of d). Where it gives 0 and tells three zeros,
 * jilghvani_close accepts d, and nowhere else. */
uint64_t jilghvani_gap(const uint64_t record[JILGHVANI_RECORD],
                       const uint64_t d[JILGHVANI_DIGESTER], uint64_t told[3]);

#ifdef __cplusplus
}
#endif

#endif
