/* The chordal cut and join of semidefinite problems: the calls of libdoor.a, which `rt lib` makes in crates/door.
 *
 * CALLS
 * Each call returns 0 on success, and otherwise the number of the first check that fails; its outputs are then left
 * unchanged. A slice is a pointer, never null, and a length; where an output is longer than its result, its rest is
 * unchanged. No output may overlap another argument. Whatever the tables hold, a call stays within their lengths and
 * terminates. It needs less than 2 MB of stack, and calls on several threads do not affect each other. The end of this
 * header has structs and inline functions over the calls, so that callers need not spell out 48 arguments.
 *
 * PROBLEM
 * Minimise x'Px / 2 + q'x with Ax + s = b and s in the cones. P and A are in compressed columns: starts, rows, which
 * increase in a column (A may repeat one), and values. P is passed on as it is, whole or upper triangle, whichever the
 * solver reads. A cone is three words, its kind and two sizes, an unused size being 0: 0 Zero, 1 Nonnegative, 2 SecondOrder
 * (dimension); 3 Exponential; 4 Power (takes one of alphas); 5 GenPower (how many of alphas it takes, dim2); 6 PSDTriangle
 * (dimension). The rows of a PSD cone are the upper triangle of its matrix column by column: (0,0), (0,1), (1,1), (0,2),
 * (1,2), (2,2). Values of A and b are only moved, never scaled: a factor that a solver has off the diagonal (clarabel has
 * the root of 2) is in the blocks too.
 *
 * PATTERN
 * The clique tree that a PSD cone is cut by: orig_index (the cone's index among the cones), vertex count, clique count, the
 * ordering, and for each clique its parent, snode count, separator count, snode and separator. The parent of the last
 * clique, and the pattern number of a cone map entry without a pattern, is CHORDAL_NONE. Each clique comes before its
 * parent. Patterns are in the order of increasing orig_index.
 * Members of snodes and separators are vertices, that is, places in the ordering, and not rows of the matrix. ordering[v]
 * is the matrix row of vertex v. Three projectors, whose matrix is cut into the rows {0, 1} and {1, 2}:
 *
 *     ordering 0 1 2:  0,3,2, 0,1,2,  1,1,1, 0, 1,  CHORDAL_NONE,2,0, 1,2       clique 0 has the vertices 0 and 1
 *     ordering 2 0 1:  0,3,2, 2,0,1,  1,1,1, 1, 2,  CHORDAL_NONE,2,0, 2,0       vertex 1 is row 0, vertex 2 is row 1
 *
 * A clique's block is the PSD cone of its members' rows of the matrix, sorted. A row of the cone is covered where both
 * rows of its pair are in one clique.
 *
 * COVERING: A WARNING
 * The patterns must cover A and b. The compact route refuses a problem where they do not, number 9; a stored 0.0 of A
 * counts as an entry, a b of 0.0 or -0.0 does not. The standard route accepts such a problem: an uncovered row has no slack
 * there, the fit is another, stricter one, and no residual shows it. chordal_sizes on the compact route tells, and
 * chordal_problem_cut_covered below refuses on either route.
 *
 * ROUTES
 * A route is 0 standard, 1 compact. Both mean the same problem.
 *   standard  cones: Zero(m), which has all original rows, then the cones in order, a cut one as its cliques from first to
 *             last. Each row after m is a new unknown; A becomes A beside H over 0 beside -I, where column k of H has a 1
 *             in the original row of entry k.
 *   compact   cones: the cones in order, a cut one as its cliques from last to first. A row of A and b moves to the block
 *             of the clique that owns its pair; a pair with both members in the separator is an overlap, a new unknown with
 *             +1 in its own row and -1 in the row of the same pair in the parent's block.
 * Both extend P by empty columns and q by 0.0.
 *
 * JOINING
 * The first n of x are copied. The joined s is the sum of the blocks. z of a cut cone is, on the compact route, the value
 * of the block walked last, that of the first clique that has the row, and on the standard route the mean of the blocks; in
 * a row that no clique covers it is 0. So z need not be positive semidefinite: the caller completes it. tau and kappa are
 * not read and are returned as 1: a caller with a homogeneous embedding divides x, s and z by tau first.
 * What to watch after each joining is the largest |Ax + s - b| of the original rows, chordal_original_residual below. A
 * solver's residuals are those of the augmented equations, and vanish for wrong ones too.
 */
#ifndef CHORDAL_H
#define CHORDAL_H

#include <stddef.h>
#include <stdint.h>

#ifdef __cplusplus
extern "C" {
#endif

#define CHORDAL_NONE UINT32_C(4294967295)

enum chordal_refusal {
    CHORDAL_DONE = 0,
    CHORDAL_BOUND = 1,       /* a bound is exceeded: n or m 65,536, entries of A or P 262,144, cones 1,024, a size in a
                                record 65,536, a PSD size 256, an index 255 (32,895 back); or the route is neither 0 nor 1, or
                                the count of right sides is 0 or above 64 */
    CHORDAL_STARTS = 2,      /* the starts of A or P are not n + 1 non-decreasing numbers from 0 to the number of values, or
                                there are not as many rows as values */
    CHORDAL_ROWS = 3,        /* rows decrease in a column of A, do not strictly increase in one of P, or are out of range */
    CHORDAL_CONES = 4,       /* a cone record, the cones' rows, or the length of alphas, q or b is wrong */
    CHORDAL_PATTERNS = 5,    /* pattern words, an orig_index or a vertex count are wrong, or an ordering is not a permutation */
    CHORDAL_TREE = 6,        /* a pattern has no clique, a parent is not later, or the last clique has a parent or a separator */
    CHORDAL_CLIQUES = 7,     /* a snode is empty, a vertex is not in exactly one snode, or a separator repeats a member or has
                                one that its parent's clique does not have */
                             /* 8 is never returned; the number is reserved */
    CHORDAL_UNCOVERED = 9,   /* compact: a stored entry of A or a nonzero b is in a row that no clique covers */
    CHORDAL_TOO_LARGE = 10,  /* more than 262,144 augmented rows or, compact, 131,072 overlaps */
    CHORDAL_SHORT = 11,      /* an output is too short */
    CHORDAL_SOLUTION = 12,   /* a solution's lengths, or the cone map, are not those of this problem */
    CHORDAL_FILE_LENGTH = 13, /* a problem file is shorter than its header, or the length in it is not its own; comes first */
    CHORDAL_FILE_TABLES = 14, /* a problem file's offsets, gaps or end are not those that its counts give; comes before 1 */
    CHORDAL_RANGES = 15,     /* the seed of a problem to be generated is 0, or its vertex count, band or column count is out of
                                range; comes before anything else */
    CHORDAL_LIMITS = 16,     /* a low limit is above its high limit, or either is a NaN; comes after 4 */
    CHORDAL_UNKNOWNS = 17    /* two problems to be pooled have different n; comes after both have passed 1 to 7 */
};

/* Writes to out[0] the index of the pair (i, j) in the packed upper triangle. Refusals 1, 11. */
uint32_t chordal_pair_index(uint32_t i, uint32_t j, uint32_t *out, size_t out_len);

/* Writes to out[0] and out[1] the row and column of an index. Refusals 1, 11. */
uint32_t chordal_pair_back(uint32_t index, uint32_t *out, size_t out_len);

/* Writes to out[w] the index of w in the permutation p. Refusals 5, 11. */
uint32_t chordal_inverse(const uint32_t *p, size_t p_len, uint32_t *out, size_t out_len);

/* Writes one pattern's words with its vertices renumbered clique by clique, in increasing order. Refusals 5 to 7, 11. */
uint32_t chordal_renumber(const uint32_t *words, size_t words_len, uint32_t *out, size_t out_len);

/* Writes the lengths of the cut's eleven outputs: p starts, p rows, p values, q, a starts, a rows, a values, b, cones,
 * alphas, map. Refusals 1 to 7, 9 to 11. */
uint32_t chordal_sizes(
    uint32_t route, uint32_t n, uint32_t m,
    const uint32_t *p_starts, size_t p_starts_len, const uint32_t *p_rows, size_t p_rows_len,
    const double *p_values, size_t p_values_len, const double *q, size_t q_len,
    const uint32_t *a_starts, size_t a_starts_len, const uint32_t *a_rows, size_t a_rows_len,
    const double *a_values, size_t a_values_len, const double *b, size_t b_len,
    const uint32_t *cones, size_t cones_len, const double *alphas, size_t alphas_len,
    uint32_t pattern_count, const uint32_t *pattern_words, size_t pattern_words_len,
    uint32_t *out, size_t out_len);

/* Writes the augmented problem. Repeats of a row in a column of A are added from left to right on the compact route, each
 * sum rounded, and make one entry, even where the sum is zero; the standard route keeps them as stored. The map has five
 * words for each cone: orig_index, pattern number or CHORDAL_NONE, clique number or 0, first augmented row (the number of
 * rows before it), row count; it is empty on the standard route. Refusals 1 to 7, 9 to 11. */
uint32_t chordal_cut(
    uint32_t route, uint32_t n, uint32_t m,
    const uint32_t *p_starts, size_t p_starts_len, const uint32_t *p_rows, size_t p_rows_len,
    const double *p_values, size_t p_values_len, const double *q, size_t q_len,
    const uint32_t *a_starts, size_t a_starts_len, const uint32_t *a_rows, size_t a_rows_len,
    const double *a_values, size_t a_values_len, const double *b, size_t b_len,
    const uint32_t *cones, size_t cones_len, const double *alphas, size_t alphas_len,
    uint32_t pattern_count, const uint32_t *pattern_words, size_t pattern_words_len,
    uint32_t *p_starts_out, size_t p_starts_out_len, uint32_t *p_rows_out, size_t p_rows_out_len,
    double *p_values_out, size_t p_values_out_len, double *q_out, size_t q_out_len,
    uint32_t *a_starts_out, size_t a_starts_out_len, uint32_t *a_rows_out, size_t a_rows_out_len,
    double *a_values_out, size_t a_values_out_len, double *b_out, size_t b_out_len,
    uint32_t *cones_out, size_t cones_out_len, double *alphas_out, size_t alphas_out_len,
    uint32_t *map_out, size_t map_out_len);

/* Writes the original problem's solution, from the augmented problem's: n values of x, m of s, m of z, and tau and kappa,
 * which are 1. Cones and patterns are the original ones, the map is the cut's; the standard route reads no map. Refusals
 * 1, 4 to 7, 10 to 12. */
uint32_t chordal_join(
    uint32_t route, uint32_t n, uint32_t m,
    const uint32_t *cones, size_t cones_len,
    uint32_t pattern_count, const uint32_t *pattern_words, size_t pattern_words_len,
    const double *x, size_t x_len, const double *s, size_t s_len, const double *z, size_t z_len,
    double tau, double kappa, const uint32_t *map, size_t map_len,
    double *x_out, size_t x_out_len, double *s_out, size_t s_out_len, double *z_out, size_t z_out_len,
    double *scalars_out, size_t scalars_out_len);

/* Writes a standard solution as a compact one of the same problem: the first n of x and +0.0 for each overlap; s and z
 * without their first m, block by block in compact order; tau and kappa, which are copied. Cones and patterns are the
 * original ones. The lengths are n plus the overlaps for x, the augmented rows of the compact cut for s and z, and 2 for the
 * scalars. Refusals 1, 4 to 7, 10 (of both routes), 11, 12. */
uint32_t chordal_change_route(
    uint32_t n, uint32_t m,
    const uint32_t *cones, size_t cones_len,
    uint32_t pattern_count, const uint32_t *pattern_words, size_t pattern_words_len,
    const double *x, size_t x_len, const double *s, size_t s_len, const double *z, size_t z_len,
    double tau, double kappa,
    double *x_out, size_t x_out_len, double *s_out, size_t s_out_len, double *z_out, size_t z_out_len,
    double *scalars_out, size_t scalars_out_len);

/* Writes the augmented problem on the compact route, where each value of b is known only as a low and a high limit: both
 * are moved to the same rows, everything else is the cut's. b_low_out and b_high_out are each as long as the cut's b. In a
 * row that no clique covers both limits must be zero. Refusals 1 to 4, 16, 5 to 7, 9 to 11, in this order. */
uint32_t chordal_cut_between(
    uint32_t n, uint32_t m,
    const uint32_t *p_starts, size_t p_starts_len, const uint32_t *p_rows, size_t p_rows_len,
    const double *p_values, size_t p_values_len, const double *q, size_t q_len,
    const uint32_t *a_starts, size_t a_starts_len, const uint32_t *a_rows, size_t a_rows_len,
    const double *a_values, size_t a_values_len,
    const double *low, size_t low_len, const double *high, size_t high_len,
    const uint32_t *cones, size_t cones_len, const double *alphas, size_t alphas_len,
    uint32_t pattern_count, const uint32_t *pattern_words, size_t pattern_words_len,
    uint32_t *p_starts_out, size_t p_starts_out_len, uint32_t *p_rows_out, size_t p_rows_out_len,
    double *p_values_out, size_t p_values_out_len, double *q_out, size_t q_out_len,
    uint32_t *a_starts_out, size_t a_starts_out_len, uint32_t *a_rows_out, size_t a_rows_out_len,
    double *a_values_out, size_t a_values_out_len,
    double *b_low_out, size_t b_low_out_len, double *b_high_out, size_t b_high_out_len,
    uint32_t *cones_out, size_t cones_out_len, double *alphas_out, size_t alphas_out_len,
    uint32_t *map_out, size_t map_out_len);

/* Writes the augmented problem on the compact route for 1 to 64 right sides, which b holds one after another, m values
 * each: everything but b once, and each side's augmented b in turn, so that b_out is count times as long as the cut's. A
 * list whose length is not count times m is refused as 4. All checks up to 10 are made on one side before the next.
 * Refusals 1 to 7, 9 to 11. */
uint32_t chordal_cut_many(
    uint32_t count, uint32_t n, uint32_t m,
    const uint32_t *p_starts, size_t p_starts_len, const uint32_t *p_rows, size_t p_rows_len,
    const double *p_values, size_t p_values_len, const double *q, size_t q_len,
    const uint32_t *a_starts, size_t a_starts_len, const uint32_t *a_rows, size_t a_rows_len,
    const double *a_values, size_t a_values_len, const double *b, size_t b_len,
    const uint32_t *cones, size_t cones_len, const double *alphas, size_t alphas_len,
    uint32_t pattern_count, const uint32_t *pattern_words, size_t pattern_words_len,
    uint32_t *p_starts_out, size_t p_starts_out_len, uint32_t *p_rows_out, size_t p_rows_out_len,
    double *p_values_out, size_t p_values_out_len, double *q_out, size_t q_out_len,
    uint32_t *a_starts_out, size_t a_starts_out_len, uint32_t *a_rows_out, size_t a_rows_out_len,
    double *a_values_out, size_t a_values_out_len, double *b_out, size_t b_out_len,
    uint32_t *cones_out, size_t cones_out_len, double *alphas_out, size_t alphas_out_len,
    uint32_t *map_out, size_t map_out_len);

/* Writes the tables of the problem pooled from two passes that share their unknowns: A over A, b over b, cones, alphas and
 * patterns one after the other, with the second's orig_index raised by the first's cone count; P and q are the first's. Its
 * n is that of both; its m, cone count and pattern count are the sums. The outputs are as long as both problems' tables
 * together, except that P's, q and A's starts are as long as the first's. Refusals 1 to 7 of the first, 1 to 7 of the
 * second, 17, 1 (the pool exceeds a bound), 11. */
uint32_t chordal_pool(
    uint32_t n, uint32_t m,
    const uint32_t *p_starts, size_t p_starts_len, const uint32_t *p_rows, size_t p_rows_len,
    const double *p_values, size_t p_values_len, const double *q, size_t q_len,
    const uint32_t *a_starts, size_t a_starts_len, const uint32_t *a_rows, size_t a_rows_len,
    const double *a_values, size_t a_values_len, const double *b, size_t b_len,
    const uint32_t *cones, size_t cones_len, const double *alphas, size_t alphas_len,
    uint32_t pattern_count, const uint32_t *pattern_words, size_t pattern_words_len,
    uint32_t n2, uint32_t m2,
    const uint32_t *p_starts2, size_t p_starts2_len, const uint32_t *p_rows2, size_t p_rows2_len,
    const double *p_values2, size_t p_values2_len, const double *q2, size_t q2_len,
    const uint32_t *a_starts2, size_t a_starts2_len, const uint32_t *a_rows2, size_t a_rows2_len,
    const double *a_values2, size_t a_values2_len, const double *b2, size_t b2_len,
    const uint32_t *cones2, size_t cones2_len, const double *alphas2, size_t alphas2_len,
    uint32_t pattern_count2, const uint32_t *pattern_words2, size_t pattern_words2_len,
    uint32_t *p_starts_out, size_t p_starts_out_len, uint32_t *p_rows_out, size_t p_rows_out_len,
    double *p_values_out, size_t p_values_out_len, double *q_out, size_t q_out_len,
    uint32_t *a_starts_out, size_t a_starts_out_len, uint32_t *a_rows_out, size_t a_rows_out_len,
    double *a_values_out, size_t a_values_out_len, double *b_out, size_t b_out_len,
    uint32_t *cones_out, size_t cones_out_len, double *alphas_out, size_t alphas_out_len,
    uint32_t *pattern_words_out, size_t pattern_words_out_len);

/* Writes the lengths of the eleven tables of a generated problem: p starts, p rows, p values, q, a starts, a rows,
 * a values, b, cones, alphas, pattern words. Refusals 15, 11. */
uint32_t chordal_generate_sizes(uint64_t seed, uint32_t v, uint32_t w, uint32_t n, uint32_t *out, size_t out_len);

/* Writes a problem that any site can make again, from a seed that is not 0, a vertex count v of 2 to 64, a band w with
 * 1 <= w < v, and n of 1 to 64. Its only cone is PSDTriangle of dimension v, its m is v (v + 1) / 2, and it has one pattern.
 * A draw changes a uint64_t by exclusive or with itself shifted left 13, then right 7, then left 17. The ordering is drawn
 * first, then the entries of A in the rows that a clique covers, column by column, then b in these rows; values are whole
 * numbers from -100 to 100. Both routes accept the problem. Refusals 15, 11. */
uint32_t chordal_generate(
    uint64_t seed, uint32_t v, uint32_t w, uint32_t n,
    uint32_t *p_starts_out, size_t p_starts_out_len, uint32_t *p_rows_out, size_t p_rows_out_len,
    double *p_values_out, size_t p_values_out_len, double *q_out, size_t q_out_len,
    uint32_t *a_starts_out, size_t a_starts_out_len, uint32_t *a_rows_out, size_t a_rows_out_len,
    double *a_values_out, size_t a_values_out_len, double *b_out, size_t b_out_len,
    uint32_t *cones_out, size_t cones_out_len, double *alphas_out, size_t alphas_out_len,
    uint32_t *pattern_words_out, size_t pattern_words_out_len);

/* Writes the complete little-endian words of a file, file_len / 4 of them; a caller on a little-endian machine whose bytes
 * are aligned may use them in place instead. Refusal 11. */
uint32_t chordal_file_words(const uint8_t *file, size_t file_len, uint32_t *out, size_t out_len);

/* Writes the tables of a problem file (docs/FILE.md) of `length` bytes, whose complete words are `words`: the counts n, m,
 * entries of P, entries of A, cones, alphas, patterns and pattern words, then each table. A double is its 64-bit pattern, so
 * that every NaN keeps its bits; pass the doubles' memory. The first eight words give the needed length of each output: 8,
 * n + 1, the entries of P twice, n, n + 1, the entries of A twice, m, three for each cone, alphas, pattern words. Refusals 13,
 * 14, 1 to 7, 11; 13 also where words_len is not length / 4. */
uint32_t chordal_read_file(
    const uint32_t *words, size_t words_len, size_t length, uint32_t *counts_out, size_t counts_out_len,
    uint32_t *p_starts_out, size_t p_starts_out_len, uint32_t *p_rows_out, size_t p_rows_out_len,
    uint64_t *p_values_out, size_t p_values_out_len, uint64_t *q_out, size_t q_out_len,
    uint32_t *a_starts_out, size_t a_starts_out_len, uint32_t *a_rows_out, size_t a_rows_out_len,
    uint64_t *a_values_out, size_t a_values_out_len, uint64_t *b_out, size_t b_out_len,
    uint32_t *cones_out, size_t cones_out_len, uint64_t *alphas_out, size_t alphas_out_len,
    uint32_t *pattern_words_out, size_t pattern_words_out_len);

/* Writes the file of a problem, with doubles given as their 64-bit patterns. The file ends where its last table does: each
 * table begins at the lowest multiple of 8 not below the end of the one before, the first at byte 80. A file that is read
 * and written again has the same bytes. Refusals 1 to 7, 11. */
uint32_t chordal_write_file(
    uint32_t n, uint32_t m,
    const uint32_t *p_starts, size_t p_starts_len, const uint32_t *p_rows, size_t p_rows_len,
    const uint64_t *p_values, size_t p_values_len, const uint64_t *q, size_t q_len,
    const uint32_t *a_starts, size_t a_starts_len, const uint32_t *a_rows, size_t a_rows_len,
    const uint64_t *a_values, size_t a_values_len, const uint64_t *b, size_t b_len,
    const uint32_t *cones, size_t cones_len, const uint64_t *alphas, size_t alphas_len,
    uint32_t pattern_count, const uint32_t *pattern_words, size_t pattern_words_len,
    uint8_t *out, size_t out_len);

/* Writes to out[0] 1 where two problems agree in n, m, cone records, pattern words, alphas, and the starts and rows of A and of P,
 * else 0. Alphas are compared bit by bit: +0.0 and -0.0 differ; all NaNs count as equal. Where it is 1 and a route accepts both
 * problems, their cuts on that route have the same starts and rows of A and P, cones, map and output lengths.
 * Refusals 1 to 7, 11. */
uint32_t chordal_same_layout(
    uint32_t n, uint32_t m,
    const uint32_t *p_starts, size_t p_starts_len, const uint32_t *p_rows, size_t p_rows_len,
    const double *p_values, size_t p_values_len, const double *q, size_t q_len,
    const uint32_t *a_starts, size_t a_starts_len, const uint32_t *a_rows, size_t a_rows_len,
    const double *a_values, size_t a_values_len, const double *b, size_t b_len,
    const uint32_t *cones, size_t cones_len, const double *alphas, size_t alphas_len,
    uint32_t pattern_count, const uint32_t *pattern_words, size_t pattern_words_len,
    uint32_t n2, uint32_t m2,
    const uint32_t *p_starts2, size_t p_starts2_len, const uint32_t *p_rows2, size_t p_rows2_len,
    const double *p_values2, size_t p_values2_len, const double *q2, size_t q2_len,
    const uint32_t *a_starts2, size_t a_starts2_len, const uint32_t *a_rows2, size_t a_rows2_len,
    const double *a_values2, size_t a_values2_len, const double *b2, size_t b2_len,
    const uint32_t *cones2, size_t cones2_len, const double *alphas2, size_t alphas2_len,
    uint32_t pattern_count2, const uint32_t *pattern_words2, size_t pattern_words2_len,
    uint32_t *out, size_t out_len);

/* ---- Structs and inline functions over the calls. Nothing here is in libdoor.a. */

#define CHORDAL_VERSION 200 /* 0.2.0 */

/* Returns what a refusal number means, in a few words; a number that no call returns has a text too. */
static inline const char *chordal_refusal_text(uint32_t number) {
    switch (number) {
    case CHORDAL_DONE: return "done";
    case CHORDAL_BOUND: return "a bound is exceeded";
    case CHORDAL_STARTS: return "the starts of A or P are wrong, or rows are not as many as values";
    case CHORDAL_ROWS: return "rows in a column of A fall or lie outside, or rows of P do not strictly rise or lie outside";
    case CHORDAL_CONES: return "a cone record, the cones' rows, or the length of alphas, q or b is wrong";
    case CHORDAL_PATTERNS: return "pattern words or a pattern's cone are wrong, or an ordering is no permutation";
    case CHORDAL_TREE: return "a pattern's cliques are no tree with the last as its root";
    case CHORDAL_CLIQUES: return "snodes do not hold each vertex once, or a separator is wrong";
    case CHORDAL_UNCOVERED: return "an entry of A or a value of b lies in a row that no clique covers";
    case CHORDAL_TOO_LARGE: return "there are too many augmented rows or overlaps";
    case CHORDAL_SHORT: return "an output is too short";
    case CHORDAL_SOLUTION: return "the solution's lengths or the cone map are not those of this problem";
    case CHORDAL_FILE_LENGTH: return "a problem file's header is short, or its length is not the file's";
    case CHORDAL_FILE_TABLES: return "a problem file's offsets, gaps or end are not those of its counts";
    case CHORDAL_RANGES: return "a seed is 0, or a count of the generator is outside its range";
    case CHORDAL_LIMITS: return "a low limit is above its high one, or one of them is a NaN";
    case CHORDAL_UNKNOWNS: return "two problems to be pooled have different n";
    default: return "a number that this header does not name";
    }
}

/* Tables that are read, and tables that are written. Where the length is 0 the pointer may be null. */
struct chordal_words { const uint32_t *at; size_t len; };
struct chordal_values { const double *at; size_t len; };
struct chordal_words_out { uint32_t *at; size_t len; };
struct chordal_values_out { double *at; size_t len; };

/* A problem. With all fields zero it has no unknowns, no rows and no tables. */
struct chordal_problem {
    uint32_t n, m;
    struct chordal_words p_starts, p_rows;
    struct chordal_values p_values, q;
    struct chordal_words a_starts, a_rows;
    struct chordal_values a_values, b;
    struct chordal_words cones;
    struct chordal_values alphas;
    uint32_t pattern_count;
    struct chordal_words pattern_words;
};

/* The lengths of the cut's outputs: b is the number of augmented rows, q that of augmented unknowns. */
struct chordal_lengths { uint32_t p_starts, p_rows, p_values, q, a_starts, a_rows, a_values, b, cones, alphas, map; };

/* The cut's outputs: for each the caller's buffer and its length. */
struct chordal_augmented {
    struct chordal_words_out p_starts, p_rows;
    struct chordal_values_out p_values, q;
    struct chordal_words_out a_starts, a_rows;
    struct chordal_values_out a_values, b;
    struct chordal_words_out cones;
    struct chordal_values_out alphas;
    struct chordal_words_out map;
};

/* The buffers for the tables of a file that is read, each with its length. */
struct chordal_tables {
    struct chordal_words_out p_starts, p_rows;
    struct chordal_values_out p_values, q;
    struct chordal_words_out a_starts, a_rows;
    struct chordal_values_out a_values, b;
    struct chordal_words_out cones;
    struct chordal_values_out alphas;
    struct chordal_words_out pattern_words;
};

/* A solution that is read, and the buffers for one that is written. */
struct chordal_solution { struct chordal_values x, s, z; double tau, kappa; };
struct chordal_joined { struct chordal_values_out x, s, z; double tau, kappa; };

static inline const uint32_t *chordal_words_at(struct chordal_words t) {
    static const uint32_t none[1] = {0};
    return t.at ? t.at : none;
}
static inline const double *chordal_values_at(struct chordal_values t) {
    static const double none[1] = {0};
    return t.at ? t.at : none;
}
static inline uint32_t *chordal_words_room(struct chordal_words_out t) {
    static uint32_t none[1];
    return t.at ? t.at : none;
}
static inline double *chordal_values_room(struct chordal_values_out t) {
    static double none[1];
    return t.at ? t.at : none;
}

/* The memory of doubles as that of their 64-bit patterns: the calls on files copy patterns, in code that the C compiler does not see. */
static inline const uint64_t *chordal_bits_at(struct chordal_values t) { return (const uint64_t *)chordal_values_at(t); }
static inline uint64_t *chordal_bits_room(struct chordal_values_out t) { return (uint64_t *)chordal_values_room(t); }

#define CHORDAL_W(t) chordal_words_at(t), (t).len
#define CHORDAL_V(t) chordal_values_at(t), (t).len
#define CHORDAL_WO(t) chordal_words_room(t), (t).len
#define CHORDAL_VO(t) chordal_values_room(t), (t).len
#define CHORDAL_B(t) chordal_bits_at(t), (t).len
#define CHORDAL_BO(t) chordal_bits_room(t), (t).len
#define CHORDAL_BEFORE_B(p) \
    (p)->n, (p)->m, CHORDAL_W((p)->p_starts), CHORDAL_W((p)->p_rows), CHORDAL_V((p)->p_values), CHORDAL_V((p)->q), \
    CHORDAL_W((p)->a_starts), CHORDAL_W((p)->a_rows), CHORDAL_V((p)->a_values)
#define CHORDAL_AFTER_B(p) \
    CHORDAL_W((p)->cones), CHORDAL_V((p)->alphas), (p)->pattern_count, CHORDAL_W((p)->pattern_words)
#define CHORDAL_PROBLEM(p) CHORDAL_BEFORE_B(p), CHORDAL_V((p)->b), CHORDAL_AFTER_B(p)
#define CHORDAL_OUT_BEFORE_B(o) \
    CHORDAL_WO((o)->p_starts), CHORDAL_WO((o)->p_rows), CHORDAL_VO((o)->p_values), CHORDAL_VO((o)->q), \
    CHORDAL_WO((o)->a_starts), CHORDAL_WO((o)->a_rows), CHORDAL_VO((o)->a_values)
#define CHORDAL_OUT_AFTER_B(o) CHORDAL_WO((o)->cones), CHORDAL_VO((o)->alphas), CHORDAL_WO((o)->map)
#define CHORDAL_SKETCH(p) (p)->n, (p)->m, CHORDAL_W((p)->cones), (p)->pattern_count, CHORDAL_W((p)->pattern_words)
#define CHORDAL_SOLVED(v) CHORDAL_V((v)->x), CHORDAL_V((v)->s), CHORDAL_V((v)->z), (v)->tau, (v)->kappa

/* chordal_sizes on structs. */
static inline uint32_t chordal_problem_sizes(uint32_t route, const struct chordal_problem *problem,
                                             struct chordal_lengths *out) {
    uint32_t l[11];
    uint32_t number = chordal_sizes(route, CHORDAL_PROBLEM(problem), l, 11);
    if (number != CHORDAL_DONE) return number;
    out->p_starts = l[0], out->p_rows = l[1], out->p_values = l[2], out->q = l[3], out->a_starts = l[4], out->a_rows = l[5];
    out->a_values = l[6], out->b = l[7], out->cones = l[8], out->alphas = l[9], out->map = l[10];
    return CHORDAL_DONE;
}

/* chordal_cut on structs. */
static inline uint32_t chordal_problem_cut(uint32_t route, const struct chordal_problem *problem,
                                           const struct chordal_augmented *out) {
    return chordal_cut(route, CHORDAL_PROBLEM(problem), CHORDAL_OUT_BEFORE_B(out), CHORDAL_VO(out->b),
                       CHORDAL_OUT_AFTER_B(out));
}

/* Returns 9 where the patterns do not cover A and b, 0 where they do, and another number where the problem is refused before. */
static inline uint32_t chordal_problem_covered(const struct chordal_problem *problem) {
    uint32_t l[11];
    uint32_t number = chordal_sizes(1, CHORDAL_PROBLEM(problem), l, 11);
    /* 9 comes before 10 */
    return number == CHORDAL_TOO_LARGE ? (uint32_t)CHORDAL_DONE : number;
}

/* chordal_cut of a problem whose patterns cover A and b; returns 9 on either route where they do not. */
static inline uint32_t chordal_problem_cut_covered(uint32_t route, const struct chordal_problem *problem,
                                                   const struct chordal_augmented *out) {
    uint32_t number = chordal_problem_covered(problem);
    return number == CHORDAL_DONE ? chordal_problem_cut(route, problem, out) : number;
}

/* chordal_cut_between: the low limits go to out->b, the high ones to b_high. The problem's b is not read. */
static inline uint32_t chordal_problem_cut_between(const struct chordal_problem *problem, struct chordal_values low,
                                                   struct chordal_values high, const struct chordal_augmented *out,
                                                   struct chordal_values_out b_high) {
    return chordal_cut_between(CHORDAL_BEFORE_B(problem), CHORDAL_V(low), CHORDAL_V(high), CHORDAL_AFTER_B(problem),
                               CHORDAL_OUT_BEFORE_B(out), CHORDAL_VO(out->b), CHORDAL_VO(b_high), CHORDAL_OUT_AFTER_B(out));
}

/* chordal_join. The map is the cut's. */
static inline uint32_t chordal_problem_join(uint32_t route, const struct chordal_problem *problem,
                                            const struct chordal_solution *solution, struct chordal_words map,
                                            struct chordal_joined *out) {
    double scalars[2];
    uint32_t number = chordal_join(route, CHORDAL_SKETCH(problem), CHORDAL_SOLVED(solution), CHORDAL_W(map),
                                   CHORDAL_VO(out->x), CHORDAL_VO(out->s), CHORDAL_VO(out->z), scalars, 2);
    if (number == CHORDAL_DONE) out->tau = scalars[0], out->kappa = scalars[1];
    return number;
}

/* chordal_change_route on structs. */
static inline uint32_t chordal_problem_change_route(const struct chordal_problem *problem,
                                                    const struct chordal_solution *solution, struct chordal_joined *out) {
    double scalars[2];
    uint32_t number = chordal_change_route(CHORDAL_SKETCH(problem), CHORDAL_SOLVED(solution), CHORDAL_VO(out->x),
                                           CHORDAL_VO(out->s), CHORDAL_VO(out->z), scalars, 2);
    if (number == CHORDAL_DONE) out->tau = scalars[0], out->kappa = scalars[1];
    return number;
}

/* chordal_same_layout on structs: *same becomes 1 or 0. */
static inline uint32_t chordal_problem_same_layout(const struct chordal_problem *first,
                                                   const struct chordal_problem *second, uint32_t *same) {
    return chordal_same_layout(CHORDAL_PROBLEM(first), CHORDAL_PROBLEM(second), same, 1);
}

/* Returns the augmented problem that a cut has written, which has no patterns; the lengths are those of chordal_problem_sizes. */
static inline struct chordal_problem chordal_augmented_problem(const struct chordal_lengths *lengths,
                                                               const struct chordal_augmented *augmented) {
    struct chordal_problem p;
    p.n = lengths->q, p.m = lengths->b;
    p.p_starts.at = augmented->p_starts.at, p.p_starts.len = lengths->p_starts;
    p.p_rows.at = augmented->p_rows.at, p.p_rows.len = lengths->p_rows;
    p.p_values.at = augmented->p_values.at, p.p_values.len = lengths->p_values;
    p.q.at = augmented->q.at, p.q.len = lengths->q;
    p.a_starts.at = augmented->a_starts.at, p.a_starts.len = lengths->a_starts;
    p.a_rows.at = augmented->a_rows.at, p.a_rows.len = lengths->a_rows;
    p.a_values.at = augmented->a_values.at, p.a_values.len = lengths->a_values;
    p.b.at = augmented->b.at, p.b.len = lengths->b;
    p.cones.at = augmented->cones.at, p.cones.len = lengths->cones;
    p.alphas.at = augmented->alphas.at, p.alphas.len = lengths->alphas;
    p.pattern_count = 0, p.pattern_words.at = 0, p.pattern_words.len = 0;
    return p;
}

/* Writes the lengths of the tables of a file with these words, in the file's order: p starts, p rows, p values, q, a starts,
 * a rows, a values, b, cones, alphas, pattern words. A count above the number of words is replaced by that number, so that a
 * caller allocates no more than a few times the file; the reader refuses such a file. */
static inline void chordal_file_table_lengths(struct chordal_words words, size_t out[11]) {
    size_t count[8];
    for (size_t k = 0; k < 8; k++) {
        size_t given = k < words.len ? words.at[k] : 0;
        count[k] = given < words.len ? given : words.len;
    }
    out[0] = out[4] = count[0] + 1, out[1] = out[2] = count[2], out[3] = count[0], out[5] = out[6] = count[3];
    out[7] = count[1], out[8] = 3 * count[4], out[9] = count[5], out[10] = count[7];
}

/* chordal_read_file: writes the tables to their buffers, and to *out the problem that they make up. The words are those of
 * chordal_file_words, the length is the file's in bytes. */
static inline uint32_t chordal_problem_read_file(struct chordal_words words, size_t length, const struct chordal_tables *room,
                                                 struct chordal_problem *out) {
    uint32_t count[8];
    uint32_t number = chordal_read_file(
        CHORDAL_W(words), length, count, 8, CHORDAL_WO(room->p_starts), CHORDAL_WO(room->p_rows), CHORDAL_BO(room->p_values),
        CHORDAL_BO(room->q), CHORDAL_WO(room->a_starts), CHORDAL_WO(room->a_rows), CHORDAL_BO(room->a_values),
        CHORDAL_BO(room->b), CHORDAL_WO(room->cones), CHORDAL_BO(room->alphas), CHORDAL_WO(room->pattern_words));
    if (number != CHORDAL_DONE) return number;
    out->n = count[0], out->m = count[1], out->pattern_count = count[6];
    out->p_starts.at = room->p_starts.at, out->p_starts.len = (size_t)count[0] + 1;
    out->p_rows.at = room->p_rows.at, out->p_rows.len = count[2];
    out->p_values.at = room->p_values.at, out->p_values.len = count[2];
    out->q.at = room->q.at, out->q.len = count[0];
    out->a_starts.at = room->a_starts.at, out->a_starts.len = (size_t)count[0] + 1;
    out->a_rows.at = room->a_rows.at, out->a_rows.len = count[3];
    out->a_values.at = room->a_values.at, out->a_values.len = count[3];
    out->b.at = room->b.at, out->b.len = count[1];
    out->cones.at = room->cones.at, out->cones.len = (size_t)3 * count[4];
    out->alphas.at = room->alphas.at, out->alphas.len = count[5];
    out->pattern_words.at = room->pattern_words.at, out->pattern_words.len = count[7];
    return CHORDAL_DONE;
}

/* Returns how many bytes a problem's file has: the header, then each table at a multiple of 8. */
static inline size_t chordal_file_length(const struct chordal_problem *problem) {
    const struct chordal_problem *p = problem;
    const size_t bytes[11] = {4 * p->p_starts.len, 4 * p->p_rows.len, 8 * p->p_values.len, 8 * p->q.len,
                              4 * p->a_starts.len, 4 * p->a_rows.len, 8 * p->a_values.len, 8 * p->b.len,
                              4 * p->cones.len,    8 * p->alphas.len, 4 * p->pattern_words.len};
    size_t end = 80;
    for (size_t k = 0; k < 11; k++) end = (end + 7) / 8 * 8 + bytes[k];
    return end;
}

/* chordal_write_file: chordal_file_length says how many bytes of out are written. */
static inline uint32_t chordal_problem_write_file(const struct chordal_problem *problem, uint8_t *out, size_t out_len) {
    const struct chordal_problem *p = problem;
    return chordal_write_file(p->n, p->m, CHORDAL_W(p->p_starts), CHORDAL_W(p->p_rows), CHORDAL_B(p->p_values), CHORDAL_B(p->q),
                              CHORDAL_W(p->a_starts), CHORDAL_W(p->a_rows), CHORDAL_B(p->a_values), CHORDAL_B(p->b),
                              CHORDAL_W(p->cones), CHORDAL_B(p->alphas), p->pattern_count, CHORDAL_W(p->pattern_words), out,
                              out_len);
}

/* Returns the largest |Ax + s - b| of a joined solution in the original rows, or a NaN if one of them is; writes Ax + s - b
 * to rows. The problem must be one that a cut has accepted, x has n values, s and rows have m. */
static inline double chordal_original_residual(const struct chordal_problem *problem, const double *x, const double *s,
                                               double *rows) {
    double most = 0;
    for (uint32_t r = 0; r < problem->m; r++) rows[r] = s[r] - problem->b.at[r];
    for (uint32_t c = 0; c < problem->n; c++)
        for (uint32_t k = problem->a_starts.at[c]; k < problem->a_starts.at[c + 1]; k++)
            rows[problem->a_rows.at[k]] += problem->a_values.at[k] * x[c];
    for (uint32_t r = 0; r < problem->m; r++) {
        double away = rows[r] < 0 ? -rows[r] : rows[r];
        /* a NaN is kept */
        if (away > most || away != away) most = away;
    }
    return most;
}

#undef CHORDAL_W
#undef CHORDAL_V
#undef CHORDAL_WO
#undef CHORDAL_VO
#undef CHORDAL_B
#undef CHORDAL_BO
#undef CHORDAL_BEFORE_B
#undef CHORDAL_AFTER_B
#undef CHORDAL_PROBLEM
#undef CHORDAL_OUT_BEFORE_B
#undef CHORDAL_OUT_AFTER_B
#undef CHORDAL_SKETCH
#undef CHORDAL_SOLVED

#ifdef __cplusplus
}
#endif

#endif
