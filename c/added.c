/* The calls besides the cut and the joining, each on three projectors: prints the results and compares them with the expected ones. */
#include "three_projectors.h"

static int done(const char *what, uint32_t refusal) {
    printf("%s: ", what);
    if (refusal == CHORDAL_DONE) printf("done\n");
    else printf("refused, number %u\n", (unsigned)refusal);
    return refusal == CHORDAL_DONE;
}

/* a standard solution becomes a compact one: blocks from last to first, the added unknown 0, tau and kappa copied */
static int change_route(void) {
    static const double x[] = {0.5, 9, 9, 9, 9, 9, 9};
    static const double solved[] = {0, 0, 0, 0, 0, 0, 1, 2, 7, 3, 4, 5};
    static const double compact_x[] = {0.5, 0}, compact[] = {3, 4, 5, 1, 2, 7}, scalars[] = {2, 0.25};
    double x_out[2], s_out[6], z_out[6], scalars_out[2];
    uint32_t refusal = chordal_change_route(N, M, ALL(cones), 1, ALL(pattern_words), ALL(x), ALL(solved), ALL(solved), 2,
                                            0.25, ALL(x_out), ALL(s_out), ALL(z_out), ALL(scalars_out));
    if (!done("change of route", refusal)) return 0;
    print_values("compact s", s_out, 6);
    return equal("x", x_out, compact_x, 2) & equal("s", s_out, compact, 6) & equal("z", z_out, compact, 6) &
           equal("scalars", scalars_out, scalars, 2);
}

/* the buffers for what the compact cut of three projectors writes besides b */
#define CUT_P_Q ALL(p_starts_out), p_rows_out, 0, p_values_out, 0, ALL(q_out)
#define CUT_A ALL(a_starts_out), ALL(a_rows_out), ALL(a_values_out)
#define CUT_CONES ALL(cones_out), alphas_out, 0, ALL(map_out)
#define AUGMENTED_ROWS 6

static uint32_t p_starts_out[3], p_rows_out[1], a_starts_out[3], a_rows_out[7], cones_out[6], map_out[10];
static double p_values_out[1], q_out[2], a_values_out[7], alphas_out[1];

/* each marker known to within a half: both limits move to the same rows */
static int cut_between(void) {
    static const double low[M] = {0.5, 1.5, 2.5, 0, 3.5, 4.5}, high[M] = {1.5, 2.5, 3.5, 0, 4.5, 5.5};
    static const double want_low[] = {2.5, 3.5, 4.5, 0.5, 1.5, 0}, want_high[] = {3.5, 4.5, 5.5, 1.5, 2.5, 0};
    double b_low[AUGMENTED_ROWS], b_high[AUGMENTED_ROWS];
    uint32_t refusal = chordal_cut_between(BEFORE_B, ALL(low), ALL(high), AFTER_B, CUT_P_Q, CUT_A, ALL(b_low),
                                           ALL(b_high), CUT_CONES);
    if (!done("cut between limits", refusal)) return 0;
    print_values("low", b_low, AUGMENTED_ROWS);
    print_values("high", b_high, AUGMENTED_ROWS);
    int right = equal("low", b_low, want_low, AUGMENTED_ROWS) & equal("high", b_high, want_high, AUGMENTED_ROWS);

    refusal = chordal_cut_between(BEFORE_B, ALL(high), ALL(low), AFTER_B, CUT_P_Q, CUT_A, ALL(b_low), ALL(b_high),
                                  CUT_CONES);
    done("limits exchanged", refusal);
    return right & (refusal == CHORDAL_LIMITS);
}

/* one marker set under two exposures: everything but b once, and each b in turn */
static int cut_many(void) {
    static const double sides[2 * M] = {1, 2, 3, 0, 4, 5, 10, 20, 30, 0, 40, 50};
    static const double want[] = {3, 4, 5, 1, 2, 0, 30, 40, 50, 10, 20, 0};
    double b_out[2 * AUGMENTED_ROWS];
    uint32_t refusal = chordal_cut_many(2, BEFORE_B, ALL(sides), AFTER_B, CUT_P_Q, CUT_A, ALL(b_out), CUT_CONES);
    if (!done("cut of two sides", refusal)) return 0;
    print_values("first b", b_out, AUGMENTED_ROWS);
    print_values("second b", b_out + AUGMENTED_ROWS, AUGMENTED_ROWS);
    int right = equal("b", b_out, want, 2 * AUGMENTED_ROWS);

    refusal = chordal_cut_many(3, BEFORE_B, ALL(sides), AFTER_B, CUT_P_Q, CUT_A, ALL(b_out), CUT_CONES);
    done("three sides in a list of two", refusal);
    return right & (refusal == CHORDAL_CONES);
}

/* two passes over one dome: the second's rows follow the first's, and its pattern names cone 1 */
static int pool(void) {
    static const double second_b[M] = {2, 3, 4, 0, 5, 6};
    static const uint32_t want_rows[] = {0, 1, 2, 4, 5, 6, 7, 8, 10, 11};
    uint32_t starts[2], rows[10], p_starts_pooled[2], cones_pooled[6], words[2 * sizeof pattern_words / sizeof(uint32_t)];
    double a_pooled[10], q_pooled[N], b_pooled[2 * M];
    uint32_t refusal = chordal_pool(PROBLEM, BEFORE_B, ALL(second_b), AFTER_B, ALL(p_starts_pooled), p_rows_out, 0,
                                    p_values_out, 0, ALL(q_pooled), ALL(starts), ALL(rows), ALL(a_pooled), ALL(b_pooled),
                                    ALL(cones_pooled), alphas_out, 0, ALL(words));
    if (!done("pooling", refusal)) return 0;
    print_values("b", b_pooled, 2 * M);
    return (starts[1] == 10) & (memcmp(rows, want_rows, sizeof rows) == 0) & equal("first b", b_pooled, b, M) &
           equal("second b", b_pooled + M, second_b, M) & (words[0] == 0) &
           (words[sizeof pattern_words / sizeof(uint32_t)] == 1);
}

/* a problem that any site can make again; a band as wide as the cone is refused */
static int generate(void) {
    static const double want_values[] = {56, -80, -61}, want_b[] = {44, -43, -32};
    static const uint32_t want[] = {2, 0, 0, 1, 2, 3, 3, 3, 3, 0, 10};
    uint32_t lengths[11], p_starts_made[2], starts[2], rows[3], cones_made[3], words[10];
    double q_made[1], values[3], b_made[3];
    uint32_t refusal = chordal_generate_sizes(1, 2, 1, 1, ALL(lengths));
    if (!done("sizes of a generated problem", refusal)) return 0;
    refusal = chordal_generate(1, 2, 1, 1, ALL(p_starts_made), p_rows_out, 0, p_values_out, 0, ALL(q_made), ALL(starts),
                               ALL(rows), ALL(values), ALL(b_made), ALL(cones_made), alphas_out, 0, ALL(words));
    if (!done("generated problem", refusal)) return 0;
    print_values("A", values, 3);
    print_values("b", b_made, 3);
    int right = (memcmp(lengths, want, sizeof want) == 0) & equal("A", values, want_values, 3) & equal("b", b_made, want_b, 3);

    refusal = chordal_generate_sizes(1, 2, 2, 1, ALL(lengths));
    done("a band as wide as the cone", refusal);
    return right & (refusal == CHORDAL_RANGES);
}

int main(void) {
    trap_floating_point();
    int right = change_route();
    right &= cut_between();
    right &= cut_many();
    right &= pool();
    right &= generate();
    printf(right ? "all as it must be\n" : "something is wrong\n");
    return right ? EXIT_SUCCESS : EXIT_FAILURE;
}
