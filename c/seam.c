/* Three projectors, one seam: cuts and joins them on both routes through the door, prints the results and compares them with the expected ones. */
#include "three_projectors.h"

/* what the cut writes: eleven tables, in the order of chordal_sizes */
enum { P_STARTS, P_ROWS, P_VALUES, Q, A_STARTS, A_ROWS, A_VALUES, B, CONES, ALPHAS, MAP, TABLES };
static const size_t element[TABLES] = {4, 4, 8, 8, 4, 4, 8, 8, 4, 8, 4};

/* the words of a cone map entry */
enum { ORIG_INDEX, PATTERN, CLIQUE, FIRST_ROW, ROWS, ENTRY };
#define CLIQUES 2

static void print_columns(const uint32_t *starts, const uint32_t *rows, const double *values, size_t columns) {
    for (size_t c = 0; c < columns; c++) {
        printf("  column %zu:", c);
        for (size_t k = starts[c]; k < starts[c + 1]; k++)
            printf("%s %g at row %u", k > starts[c] ? "," : "", values[k], (unsigned)rows[k]);
        printf("\n");
    }
}

/* Prints and checks a clique's values of b, found from one entry of the compact map: the only pattern's cliques come from last to first. */
static int view_block(uint32_t clique, const uint32_t *map, const double *augmented_b, const double *want, size_t count) {
    const uint32_t *entry = map + ENTRY * (CLIQUES - 1 - clique);
    printf("  clique %u: %u rows from row %u\n", (unsigned)entry[CLIQUE], (unsigned)entry[ROWS], (unsigned)entry[FIRST_ROW]);
    print_values("  its b", augmented_b + entry[FIRST_ROW], entry[ROWS]);
    return entry[ORIG_INDEX] == 0 && entry[PATTERN] == 0 && entry[CLIQUE] == clique && entry[ROWS] == count &&
           equal("the block", augmented_b + entry[FIRST_ROW], want, count);
}

/* Checks the original residual after a joining: it is 0 for a solution of the augmented equations. */
static int watch(uint32_t route, const uint32_t *starts, const uint32_t *rows, const double *values,
                 size_t columns, const double *augmented_b, size_t augmented_rows, const uint32_t *map, size_t map_len) {
    struct chordal_problem problem = {.n = N, .m = M, .a_starts = {ALL(a_starts)}, .a_rows = {ALL(a_rows)},
                                      .a_values = {ALL(a_values)}, .b = {ALL(b)}};
    /* x = 0.5, and added unknowns: any on the compact route; on the standard route those that make the zero cone's slacks zero */
    static const double compact_x[] = {0.5, 2}, standard_x[] = {0.5, -4, -8, -6, -6, -16, -20};
    const double *x = route ? compact_x : standard_x;
    double slack[12], x_out[N], s[M], z[M], scalars[2], left[M];
    memcpy(slack, augmented_b, augmented_rows * sizeof *slack);
    for (size_t c = 0; c < columns; c++)
        for (size_t k = starts[c]; k < starts[c + 1]; k++) slack[rows[k]] -= values[k] * x[c];
    uint32_t refusal = chordal_join(route, N, M, ALL(cones), 1, ALL(pattern_words), x, columns, slack, augmented_rows, slack,
                                    augmented_rows, 1, 0, map, map_len, ALL(x_out), ALL(s), ALL(z), ALL(scalars));
    if (refusal != CHORDAL_DONE) return 0;
    double residual = chordal_original_residual(&problem, x_out, s, left);
    printf("  original residual of a solution at x = %g: %g\n", x_out[0], residual);
    return residual == 0;
}

static int run(uint32_t route, const double *solved, const double *joined_s, const double *joined_z) {
    uint32_t size[TABLES];
    void *table[TABLES];
    int right = 0;

    printf("%s route\n", route ? "compact" : "standard");
    uint32_t refusal = chordal_sizes(route, PROBLEM, size, TABLES);
    if (refusal != CHORDAL_DONE) {
        printf("  refused, number %u\n", (unsigned)refusal);
        return 0;
    }
    for (int k = 0; k < TABLES; k++) {
        table[k] = malloc((size[k] + 1) * element[k]);
        if (!table[k]) abort();
    }
    refusal = chordal_cut(route, PROBLEM,
                          table[P_STARTS], size[P_STARTS], table[P_ROWS], size[P_ROWS], table[P_VALUES], size[P_VALUES],
                          table[Q], size[Q], table[A_STARTS], size[A_STARTS], table[A_ROWS], size[A_ROWS],
                          table[A_VALUES], size[A_VALUES], table[B], size[B], table[CONES], size[CONES],
                          table[ALPHAS], size[ALPHAS], table[MAP], size[MAP]);
    if (refusal == CHORDAL_DONE) {
        printf("  %d rows and %d columns become %u and %u\n", M, N, (unsigned)size[B], (unsigned)size[Q]);
        print_columns(table[A_STARTS], table[A_ROWS], table[A_VALUES], size[Q]);
        print_values("b", table[B], size[B]);
        int seen = 1;
        if (route == 1) {
            static const double leaf[] = {1, 2, 0}, root[] = {3, 4, 5};
            seen = size[MAP] == CLIQUES * ENTRY && view_block(0, table[MAP], table[B], leaf, 3) &&
                   view_block(1, table[MAP], table[B], root, 3);
        }

        /* here a solver would run; these values show which rows are joined */
        double x[7] = {0.5}, x_out[N], s[M], z[M], scalars[2];
        print_values("solved s and z", solved, size[B]);
        refusal = chordal_join(route, N, M, ALL(cones), 1, ALL(pattern_words), x, size[Q], solved, size[B],
                               solved, size[B], 1, 0, table[MAP], size[MAP],
                               ALL(x_out), ALL(s), ALL(z), ALL(scalars));
        if (refusal == CHORDAL_DONE) {
            print_values("joined s", s, M);
            print_values("joined z", z, M);
            right = seen & equal("s", s, joined_s, M) & equal("z", z, joined_z, M) & equal("x", x_out, x, N);
            right &= watch(route, table[A_STARTS], table[A_ROWS], table[A_VALUES], size[Q], table[B], size[B],
                           table[MAP], size[MAP]);
        }
    }
    if (refusal != CHORDAL_DONE) printf("  refused, number %u\n", (unsigned)refusal);
    for (int k = 0; k < TABLES; k++) free(table[k]);
    return right;
}

int main(void) {
    trap_floating_point();
    static const double standard_solved[] = {0, 0, 0, 0, 0, 0, 1, 2, 7, 3, 4, 5};
    static const double compact_solved[] = {3, 4, 5, 1, 2, 7};
    static const double s[] = {1, 2, 10, 0, 4, 5};
    static const double standard_z[] = {1, 2, 5, 0, 4, 5};
    static const double compact_z[] = {1, 2, 7, 0, 4, 5};

    int right = run(0, standard_solved, s, standard_z);
    right &= run(1, compact_solved, s, compact_z);

    /* no clique covers row 3, the pair (0, 2) */
    static const double uncovered[M] = {1, 2, 3, 1, 4, 5};
    uint32_t size[TABLES];
    uint32_t refusal = chordal_sizes(1, BEFORE_B, ALL(uncovered), AFTER_B, size, TABLES);
    printf("a value of b in row 3: refused, number %u\n", (unsigned)refusal);
    right &= refusal == CHORDAL_UNCOVERED;

    printf(right ? "all as it must be\n" : "something is wrong\n");
    return right ? EXIT_SUCCESS : EXIT_FAILURE;
}
