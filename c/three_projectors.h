/* Document 01's example, which the programs here cut and join: one unknown and a PSD cone of dimension 3 with the cliques
 * {0, 1} and {1, 2}; row 2, the pair (1, 1), is in both. */
#ifndef THREE_PROJECTORS_H
#define THREE_PROJECTORS_H

#include "chordal.h"

#include <fenv.h>
#include <stdio.h>
#include <stdlib.h>
#include <string.h>

#define N 1
#define M 6

/* a table as pointer and length; tables without entries have a pointer too */
#define ALL(table) (table), sizeof(table) / sizeof((table)[0])
#define NO_WORDS no_words, 0
#define NO_VALUES no_values, 0

static const uint32_t no_words[1] = {0};
static const double no_values[1] = {0};

static const uint32_t p_starts[] = {0, 0};
static const double q[] = {0};
static const uint32_t a_starts[] = {0, 5};
static const uint32_t a_rows[] = {0, 1, 2, 4, 5};
static const double a_values[] = {10, 20, 30, 40, 50};
static const double b[M] = {1, 2, 3, 0, 4, 5};
static const uint32_t cones[] = {6, 3, 0};
/* orig_index, vertices, cliques; ordering; then parent, snode and separator of each clique */
static const uint32_t pattern_words[] = {0, 3, 2, 0, 1, 2, 1, 1, 1, 0, 1, CHORDAL_NONE, 2, 0, 1, 2};

/* the problem's arguments: those before the right side, and those after it */
#define BEFORE_B N, M, ALL(p_starts), NO_WORDS, NO_VALUES, ALL(q), ALL(a_starts), ALL(a_rows), ALL(a_values)
#define AFTER_B ALL(cones), NO_VALUES, 1, ALL(pattern_words)
#define PROBLEM BEFORE_B, ALL(b), AFTER_B

/* Ends the program where a call divides by zero, overflows or does an invalid operation, as a caller that traps them would. */
static inline void trap_floating_point(void) { feenableexcept(FE_DIVBYZERO | FE_INVALID | FE_OVERFLOW); }

static inline void print_values(const char *name, const double *values, size_t count) {
    printf("  %s:", name);
    for (size_t k = 0; k < count; k++) printf(" %g", values[k]);
    printf("\n");
}

static inline int equal(const char *what, const double *got, const double *want, size_t count) {
    if (memcmp(got, want, count * sizeof *got) == 0) return 1;
    printf("  %s: not what must come out\n", what);
    return 0;
}

#endif
