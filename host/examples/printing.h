/* What the examples print with: the names of the columns and of the figures, a
 * function that prints a column as text has it, one that prints a vector's, and one
 * that tells whether all was printed. */
#ifndef JILGHVANI_EXAMPLES_PRINTING_H
#define JILGHVANI_EXAMPLES_PRINTING_H

#include "jilghvani.h"

#include <inttypes.h>
#include <stdio.h>

static const char *const asm1_names[JILGHVANI_ASM1] = {
    "si", "ss", "xi", "xs", "xbh", "xba", "xp", "so", "sno", "snh", "snd", "xnd", "salk",
};

static const char *const digester_names[JILGHVANI_DIGESTER] = {
    "si", "ssu", "saa", "sfa", "sva", "sbu", "spro", "sac", "sh2", "sch4", "xi", "xc", "xch",
    "xpr", "xli", "xsu", "xaa", "xfa", "xc4", "xpro", "xac", "xh2", "sin", "sic", "co", "cn",
};

static const char *const figure_names[JILGHVANI_FIGURES] = {
    "ixb", "ixe", "nxc", "ni", "naa", "nbac", "fxi", "fch", "fli",
};

/* Prints a column behind a space, as " (ss 6400)". */
static inline void print_column(const char *name, uint64_t count)
{
    printf(" (%s %" PRIu64 ")", name, count);
}

/* Prints those of n columns that are not zero, on a line behind a title. */
static inline void print_vector(const char *title, const char *const names[],
                                const uint64_t columns[], int n)
{
    printf("  %s", title);
    for (int i = 0; i < n; i++)
        if (columns[i] != 0)
            print_column(names[i], columns[i]);
    putchar('\n');
}

/* Whether everything that was printed has reached standard output. */
static inline int all_printed(void)
{
    return fflush(stdout) == 0 && !ferror(stdout);
}

#endif
