/* Tests what chordal.h says about the tables, sentence by sentence, on three projectors and through the structs at its end.
 * Compiles as C and as C++. */
#include "three_projectors.h"

#define CHECK(what, condition) check(what, condition, __LINE__)
#define MOST 64

static int failed = 0, tried = 0;

static void check(const char *what, int condition, int line) {
    tried++;
    if (condition) return;
    failed++;
    printf("line %d: not so: %s\n", line, what);
}

static const uint32_t STANDARD = 0, COMPACT = 1;

#define WORDS(table) words_of(table, sizeof(table) / sizeof((table)[0]))
#define VALUES(table) values_of(table, sizeof(table) / sizeof((table)[0]))

static struct chordal_words words_of(const uint32_t *at, size_t len) {
    struct chordal_words table;
    table.at = at, table.len = len;
    return table;
}

static struct chordal_values values_of(const double *at, size_t len) {
    struct chordal_values table;
    table.at = at, table.len = len;
    return table;
}

static struct chordal_problem three_projectors(void) {
    struct chordal_problem p;
    memset(&p, 0, sizeof p);
    p.n = N, p.m = M;
    p.p_starts = WORDS(p_starts), p.q = VALUES(q);
    p.a_starts = WORDS(a_starts), p.a_rows = WORDS(a_rows), p.a_values = VALUES(a_values), p.b = VALUES(b);
    p.cones = WORDS(cones), p.pattern_count = 1, p.pattern_words = WORDS(pattern_words);
    return p;
}

/* buffers for any cut in this file; cut_into sets the lengths to those of the problem */
struct room {
    uint32_t p_starts[MOST], p_rows[MOST], a_starts[MOST], a_rows[MOST], cones[MOST], map[MOST];
    double p_values[MOST], q[MOST], a_values[MOST], b[MOST], alphas[MOST];
    struct chordal_augmented out;
    struct chordal_lengths length;
};

static uint32_t cut_into(struct room *room, uint32_t route, const struct chordal_problem *problem, int covered) {
    struct chordal_augmented *o = &room->out;
    uint32_t number = chordal_problem_sizes(route, problem, &room->length);
    if (number != CHORDAL_DONE) return number;
    const struct chordal_lengths *l = &room->length;
    o->p_starts.at = room->p_starts, o->p_starts.len = l->p_starts, o->p_rows.at = room->p_rows, o->p_rows.len = l->p_rows;
    o->p_values.at = room->p_values, o->p_values.len = l->p_values, o->q.at = room->q, o->q.len = l->q;
    o->a_starts.at = room->a_starts, o->a_starts.len = l->a_starts, o->a_rows.at = room->a_rows, o->a_rows.len = l->a_rows;
    o->a_values.at = room->a_values, o->a_values.len = l->a_values, o->b.at = room->b, o->b.len = l->b;
    o->cones.at = room->cones, o->cones.len = l->cones, o->alphas.at = room->alphas, o->alphas.len = l->alphas;
    o->map.at = room->map, o->map.len = l->map;
    return covered ? chordal_problem_cut_covered(route, problem, o) : chordal_problem_cut(route, problem, o);
}

static int same_words(const uint32_t *got, const uint32_t *want, size_t count) {
    return memcmp(got, want, count * sizeof *got) == 0;
}

static int same_values(const double *got, const double *want, size_t count) {
    return memcmp(got, want, count * sizeof *got) == 0;
}

static struct room one, two;

static void routes(void) {
    struct chordal_problem p = three_projectors();
    static const uint32_t zero_first[] = {0, 6, 0, 6, 2, 0, 6, 2, 0};
    static const uint32_t h_rows[] = {0, 1, 2, 2, 4, 5};
    static const double compact_b[] = {3, 4, 5, 1, 2, 0};
    static const uint32_t compact_map[] = {0, 0, 1, 0, 3, 0, 0, 0, 3, 3};

    CHECK("the standard cut is made", cut_into(&one, STANDARD, &p, 0) == CHORDAL_DONE);
    CHECK("standard: Zero(m), then the cliques", one.length.cones == 9 && same_words(one.cones, zero_first, 9));
    for (uint32_t k = 0; k < 6; k++) {
        uint32_t at = one.a_starts[1 + k];
        CHECK("standard: column k of H has a 1 in entry k's row, over -I, cliques from first to last",
              one.a_starts[2 + k] - at == 2 && one.a_rows[at] == h_rows[k] && one.a_values[at] == 1 &&
                  one.a_rows[at + 1] == 6 + k && one.a_values[at + 1] == -1);
    }
    CHECK("standard: the map is empty", one.length.map == 0);

    CHECK("the compact cut is made", cut_into(&two, COMPACT, &p, 0) == CHORDAL_DONE);
    CHECK("compact: cliques from last to first", two.length.map == 10 && same_words(two.map, compact_map, 10));
    CHECK("compact: b moves to the block of the owner", same_values(two.b, compact_b, 6));
    CHECK("compact: the overlap has +1 in its row and -1 in the parent's",
          two.a_rows[5] == 0 && two.a_values[5] == -1 && two.a_rows[6] == 5 && two.a_values[6] == 1);
    CHECK("q is extended by 0.0", two.length.q == 2 && two.q[1] == 0);
    CHECK("P by empty columns", two.length.p_starts == 3 && two.p_starts[2] == 0 && two.length.p_rows == 0);
}

static void ordering(void) {
    struct chordal_problem p = three_projectors();
    static const uint32_t turned[] = {0, 3, 2, 2, 0, 1, 1, 1, 1, 1, 2, CHORDAL_NONE, 2, 0, 2, 0};
    cut_into(&one, COMPACT, &p, 0);
    p.pattern_words = WORDS(turned);
    CHECK("members are places in the ordering", cut_into(&two, COMPACT, &p, 0) == CHORDAL_DONE);
    CHECK("ordering[v] is the row of vertex v: the same blocks",
          same_values(one.b, two.b, 6) && same_words(one.a_rows, two.a_rows, 7) && same_values(one.a_values, two.a_values, 7));
}

static void scaling(void) {
    struct chordal_problem p = three_projectors();
    /* a factor of 8 in the off-diagonal rows 1, 3 and 4, and so at the pair (1, 2) of the root and (0, 1) of the leaf */
    static const double scaled_a[] = {10, 160, 30, 320, 50}, scaled_b[] = {1, 16, 3, 0, 32, 5};
    static const double moved_b[] = {3, 32, 5, 1, 16, 0}, moved_a[] = {30, 320, 50, 10, 160, -1, 1};
    p.a_values = VALUES(scaled_a), p.b = VALUES(scaled_b);
    CHECK("the scaled cut is made", cut_into(&one, COMPACT, &p, 0) == CHORDAL_DONE);
    CHECK("values are moved, not scaled; svec order", same_values(one.b, moved_b, 6) && same_values(one.a_values, moved_a, 7));
}

static void p_whole_or_upper(void) {
    struct chordal_problem p = three_projectors();
    static const uint32_t a_two[] = {0, 5, 5}, whole_starts[] = {0, 2, 4}, whole_rows[] = {0, 1, 0, 1};
    static const uint32_t upper_starts[] = {0, 1, 3}, upper_rows[] = {0, 0, 1};
    static const double q_two[] = {1, 2}, whole[] = {1, 2, 2, 5}, upper[] = {1, 2, 5};
    p.n = 2, p.q = VALUES(q_two), p.a_starts = WORDS(a_two);
    p.p_starts = WORDS(whole_starts), p.p_rows = WORDS(whole_rows), p.p_values = VALUES(whole);
    CHECK("P whole", cut_into(&one, COMPACT, &p, 0) == CHORDAL_DONE && same_values(one.p_values, whole, 4) &&
                         same_words(one.p_rows, whole_rows, 4));
    p.p_starts = WORDS(upper_starts), p.p_rows = WORDS(upper_rows), p.p_values = VALUES(upper);
    CHECK("P upper", cut_into(&one, COMPACT, &p, 0) == CHORDAL_DONE && same_values(one.p_values, upper, 3) &&
                         same_words(one.p_rows, upper_rows, 3));
}

static void repeats(void) {
    struct chordal_problem p = three_projectors();
    static const uint32_t starts[] = {0, 6}, rows[] = {0, 1, 2, 4, 5, 5};
    static const double values[] = {10, 20, 30, 40, 50, 0.5};
    p.a_starts = WORDS(starts), p.a_rows = WORDS(rows), p.a_values = VALUES(values);
    CHECK("A may repeat a row: added on the compact route",
          cut_into(&one, COMPACT, &p, 0) == CHORDAL_DONE && one.length.a_values == 7 && one.a_values[2] == 50.5);
    CHECK("and kept on the standard one", cut_into(&one, STANDARD, &p, 0) == CHORDAL_DONE && one.length.a_values == 18);
}

static void covering(void) {
    struct chordal_problem p = three_projectors();
    static const double value[] = {1, 2, 3, 1, 4, 5}, minus_zero[] = {1, 2, 3, -0.0, 4, 5};
    static const uint32_t starts[] = {0, 6}, rows[] = {0, 1, 2, 3, 4, 5};
    static const double stored_zero[] = {10, 20, 30, 0.0, 40, 50};
    CHECK("the patterns cover", chordal_problem_covered(&p) == CHORDAL_DONE);
    CHECK("so both cuts are made", cut_into(&one, STANDARD, &p, 1) == CHORDAL_DONE && cut_into(&one, COMPACT, &p, 1) == CHORDAL_DONE);
    p.b = VALUES(minus_zero);
    CHECK("a b of -0.0 is none", chordal_problem_covered(&p) == CHORDAL_DONE);
    p.b = VALUES(value);
    CHECK("a b in an uncovered row: 9", chordal_problem_covered(&p) == CHORDAL_UNCOVERED);
    CHECK("the standard route takes it", cut_into(&one, STANDARD, &p, 0) == CHORDAL_DONE);
    CHECK("its row has no slack: no column of H is in row 3",
          one.a_starts[1] == 5 && one.a_rows[one.a_starts[4]] == 2 && one.a_rows[one.a_starts[5]] == 4);
    CHECK("unless it is asked first", cut_into(&one, STANDARD, &p, 1) == CHORDAL_UNCOVERED);
    p = three_projectors();
    p.a_starts = WORDS(starts), p.a_rows = WORDS(rows), p.a_values = VALUES(stored_zero);
    CHECK("a stored 0.0 of A is an entry: 9", chordal_problem_covered(&p) == CHORDAL_UNCOVERED);
}

/* writes the slacks that satisfy the augmented equations at the unknowns x */
static void slacks(const struct room *cut, const double *x, double *s) {
    for (uint32_t r = 0; r < cut->length.b; r++) s[r] = cut->b[r];
    for (uint32_t c = 0; c < cut->length.q; c++)
        for (uint32_t k = cut->a_starts[c]; k < cut->a_starts[c + 1]; k++) s[cut->a_rows[k]] -= cut->a_values[k] * x[c];
}

static void joining(void) {
    struct chordal_problem p = three_projectors();
    static const double blocks[] = {3, 4, 5, 1, 2, 7}, tails[] = {0, 0, 0, 0, 0, 0, 1, 2, 7, 3, 4, 5}, ones[] = {1, 1, 1, 1, 1, 1};
    static const double sum[] = {1, 2, 10, 0, 4, 5}, last[] = {1, 2, 7, 0, 4, 5}, mean[] = {1, 2, 5, 0, 4, 5};
    double x[7] = {0.5, 2, 0, 0, 0, 0, 0}, s[MOST], x_out[N], s_out[M], z_out[M], rows[M];
    struct chordal_solution v;
    struct chordal_joined o;
    o.x.at = x_out, o.x.len = N, o.s.at = s_out, o.s.len = M, o.z.at = z_out, o.z.len = M;

    CHECK("cut", cut_into(&one, COMPACT, &p, 0) == CHORDAL_DONE);
    v.x = values_of(x, 2), v.s = VALUES(blocks), v.z = VALUES(blocks), v.tau = 2, v.kappa = 3;
    struct chordal_words map = words_of(one.map, one.length.map);
    CHECK("compact joining", chordal_problem_join(COMPACT, &p, &v, map, &o) == CHORDAL_DONE);
    CHECK("x is copied, s adds, z is the first clique's, 0 where nothing covers",
          x_out[0] == 0.5 && same_values(s_out, sum, M) && same_values(z_out, last, M));
    CHECK("tau and kappa are not read and come out as 1", o.tau == 1 && o.kappa == 1);

    v.z = VALUES(ones);
    CHECK("joining", chordal_problem_join(COMPACT, &p, &v, map, &o) == CHORDAL_DONE);
    /* the determinant of 1 1 0, 1 1 1, 0 1 1 */
    const double *z = z_out;
    CHECK("z of PSD blocks is no PSD matrix",
          z[3] == 0 && z[0] * (z[2] * z[5] - z[4] * z[4]) - z[1] * z[1] * z[5] < 0);

    v.x = values_of(x, 7), v.s = VALUES(tails), v.z = VALUES(tails);
    CHECK("standard joining", chordal_problem_join(STANDARD, &p, &v, words_of(0, 0), &o) == CHORDAL_DONE);
    CHECK("s adds, z is the mean", same_values(s_out, sum, M) && same_values(z_out, mean, M));

    /* a solution of the augmented equations, and one of the equations with the overlap tied to a wrong row */
    slacks(&one, x, s);
    v.x = values_of(x, 2), v.s = values_of(s, 6), v.z = VALUES(ones);
    CHECK("joining of a solution", chordal_problem_join(COMPACT, &p, &v, map, &o) == CHORDAL_DONE);
    CHECK("its original residual is 0", chordal_original_residual(&p, x_out, s_out, rows) == 0);
    one.a_rows[5] = 1;
    slacks(&one, x, s);
    CHECK("joining of a wrong one", chordal_problem_join(COMPACT, &p, &v, map, &o) == CHORDAL_DONE);
    CHECK("the original residual shows it", chordal_original_residual(&p, x_out, s_out, rows) == 2 && rows[2] == -2 && rows[4] == 2);
    s_out[3] = rows[0] = 0.0 / (x[6] * 0.0);
    double most = chordal_original_residual(&p, x_out, s_out, rows);
    CHECK("a NaN stays", most != most);

    v.x = values_of(x, 7), v.s = VALUES(tails), v.z = VALUES(tails);
    double compact_x[2], compact_s[6], compact_z[6];
    o.x.at = compact_x, o.x.len = 2, o.s.at = compact_s, o.s.len = 6, o.z.at = compact_z, o.z.len = 6;
    CHECK("change of route", chordal_problem_change_route(&p, &v, &o) == CHORDAL_DONE);
    CHECK("tau and kappa are copied, blocks move", o.tau == 2 && o.kappa == 3 && same_values(compact_s, blocks, 6));
}

/* reads three projectors back from their file, into the tables of `two` */
static uint32_t read_back(const uint8_t *file, size_t length, uint32_t *word_room, uint32_t *pattern_room,
                          struct chordal_problem *read) {
    struct chordal_words words = words_of(word_room, length / 4);
    size_t len[11];
    uint32_t number = chordal_file_words(file, length, word_room, length / 4);
    if (number != CHORDAL_DONE) return number;
    chordal_file_table_lengths(words, len);
    for (int k = 0; k < 11; k++) len[k] = len[k] < MOST ? len[k] : MOST;
    struct chordal_tables room;
    room.p_starts.at = two.p_starts, room.p_starts.len = len[0], room.p_rows.at = two.p_rows, room.p_rows.len = len[1];
    room.p_values.at = two.p_values, room.p_values.len = len[2], room.q.at = two.q, room.q.len = len[3];
    room.a_starts.at = two.a_starts, room.a_starts.len = len[4], room.a_rows.at = two.a_rows, room.a_rows.len = len[5];
    room.a_values.at = two.a_values, room.a_values.len = len[6], room.b.at = two.b, room.b.len = len[7];
    room.cones.at = two.cones, room.cones.len = len[8], room.alphas.at = two.alphas, room.alphas.len = len[9];
    room.pattern_words.at = pattern_room, room.pattern_words.len = len[10];
    return chordal_problem_read_file(words, length, &room, read);
}

static void files(void) {
    struct chordal_problem p = three_projectors(), read;
    static uint8_t file[400], again[400];
    static uint32_t words[100], patterns[MOST];
    /* a NaN with a payload */
    static const uint64_t bits[] = {UINT64_C(0x7ff00000deadbeef)};
    double nan_q[1];
    uint32_t same = 0;
    memcpy(nan_q, bits, sizeof bits);
    p.q = VALUES(nan_q);

    size_t length = chordal_file_length(&p);
    memset(file, 7, sizeof file);
    CHECK("three projectors' file has 296 bytes", length == 296);
    CHECK("a room that is too short", chordal_problem_write_file(&p, file, length - 1) == CHORDAL_SHORT && file[0] == 7);
    CHECK("writing", chordal_problem_write_file(&p, file, sizeof file) == CHORDAL_DONE);
    CHECK("it ends where its last table does", file[length - 4] == 2 && file[length] == 7);
    CHECK("little-endian: n, m, and the length", file[0] == 1 && file[4] == 6 && file[76] == 40 && file[77] == 1);

    CHECK("reading", read_back(file, length, words, patterns, &read) == CHORDAL_DONE);
    CHECK("the same layout", chordal_problem_same_layout(&p, &read, &same) == CHORDAL_DONE && same == 1);
    CHECK("the same values", same_values(read.a_values.at, a_values, 5) && same_values(read.b.at, b, M));
    CHECK("a NaN keeps its bits", memcmp(read.q.at, bits, sizeof bits) == 0);
    CHECK("written again", chordal_problem_write_file(&read, again, length) == CHORDAL_DONE);
    CHECK("the same bytes", memcmp(file, again, length) == 0);

    two.b[0] = 9;
    CHECK("a byte less: 13", read_back(file, length - 1, words, patterns, &read) == CHORDAL_FILE_LENGTH);
    CHECK("fewer words than length / 4: 13",
          chordal_read_file(words, length / 4 - 1, length, words, 0, words, 0, words, 0, (uint64_t *)two.q, 0,
                            (uint64_t *)two.q, 0, words, 0, words, 0, (uint64_t *)two.q, 0, (uint64_t *)two.q, 0, words, 0,
                            (uint64_t *)two.q, 0, words, 0) == CHORDAL_FILE_LENGTH);
    file[124] = 1;
    CHECK("a gap that is not zero: 14", read_back(file, length, words, patterns, &read) == CHORDAL_FILE_TABLES);
    file[124] = 0, file[31] = 255;
    CHECK("a huge count: 14", read_back(file, length, words, patterns, &read) == CHORDAL_FILE_TABLES);
    file[31] = 0, file[80] = 1;
    CHECK("then what the tables hold", read_back(file, length, words, patterns, &read) == CHORDAL_STARTS);
    CHECK("a refused reader has written nothing", two.b[0] == 9);

    CHECK("the cut of what was read", cut_into(&one, COMPACT, &p, 0) == CHORDAL_DONE);
    struct chordal_problem compact = chordal_augmented_problem(&one.length, &one.out);
    CHECK("a compact problem's file", chordal_file_length(&compact) == 288);
    CHECK("is written", chordal_problem_write_file(&compact, again, 288) == CHORDAL_DONE && again[24] == 0 && again[28] == 0);
}

static void the_rest(void) {
    struct chordal_problem p = three_projectors(), other = p;
    static const double low[] = {0, 1, 2, 0, 3, 4};
    double high_out[6];
    struct chordal_values_out high;
    uint32_t same = 7;
    CHECK("same layout", chordal_problem_same_layout(&p, &other, &same) == CHORDAL_DONE && same == 1);
    other.a_rows.len = 4;
    CHECK("a refused call leaves its outputs", chordal_problem_same_layout(&p, &other, &same) == CHORDAL_STARTS && same == 1);
    high.at = high_out, high.len = 6;
    CHECK("cut", cut_into(&one, COMPACT, &p, 0) == CHORDAL_DONE);
    CHECK("cut between", chordal_problem_cut_between(&p, VALUES(low), VALUES(b), &one.out, high) == CHORDAL_DONE);
    CHECK("both limits move to the same places", one.b[0] == 2 && high_out[0] == 3 && one.b[3] == 0 && high_out[3] == 1);
    one.b[0] = 9;
    CHECK("and refused", chordal_problem_cut_between(&p, VALUES(b), VALUES(low), &one.out, high) == CHORDAL_LIMITS && one.b[0] == 9);
    one.out.b.len = 5;
    CHECK("an output that is too short", chordal_problem_cut(COMPACT, &p, &one.out) == CHORDAL_SHORT && one.b[0] == 9);

    struct chordal_problem nothing;
    memset(&nothing, 0, sizeof nothing);
    nothing.p_starts = nothing.a_starts = words_of(no_words, 1);
    CHECK("empty tables may be null", chordal_problem_sizes(STANDARD, &nothing, &one.length) == CHORDAL_DONE && one.length.b == 0);

    for (uint32_t k = 0; k <= 17; k++)
        for (uint32_t l = 0; l < k; l++)
            CHECK("each number has its own text", strcmp(chordal_refusal_text(k), chordal_refusal_text(l)) != 0);
    CHECK("and one that no call answers has one too", strcmp(chordal_refusal_text(8), chordal_refusal_text(99)) == 0);
    CHECK("the version is a number", CHORDAL_VERSION >= 200);
}

int main(void) {
    routes();
    ordering();
    scaling();
    p_whole_or_upper();
    repeats();
    covering();
    joining();
    files();
    the_rest();
    printf("the header's contract: %d tried, %d failed\n", tried, failed);
    return failed ? EXIT_FAILURE : EXIT_SUCCESS;
}
