/* Reads a problem file (docs/FILE.md) from another tool, cuts it on the compact route, and writes the result as a file again.
 *
 *     file < problem.bin > compact.bin
 *
 * If a call refuses, nothing is written, and a line on standard error has the number and the reason. Compiles as C and as C++. */
#include "chordal.h"

#include <stdio.h>
#include <stdlib.h>

static const uint32_t COMPACT = 1;

static void refused(const char *what, uint32_t number) {
    if (number == CHORDAL_DONE) return;
    fprintf(stderr, "%s: refused %u, %s\n", what, (unsigned)number, chordal_refusal_text(number));
    exit(EXIT_FAILURE);
}

static void *room(size_t bytes) {
    void *made = malloc(bytes + 1);
    if (!made) exit(EXIT_FAILURE);
    return made;
}

static struct chordal_words_out words_room(size_t len) {
    struct chordal_words_out made;
    made.at = (uint32_t *)room(len * sizeof(uint32_t)), made.len = len;
    return made;
}

static struct chordal_values_out values_room(size_t len) {
    struct chordal_values_out made;
    made.at = (double *)room(len * sizeof(double)), made.len = len;
    return made;
}

static uint8_t *read_all(FILE *from, size_t *length) {
    size_t held = 65536, got;
    uint8_t *bytes = (uint8_t *)room(held);
    *length = 0;
    while ((got = fread(bytes + *length, 1, held - *length, from)) > 0)
        if ((*length += got) == held && !(bytes = (uint8_t *)realloc(bytes, held *= 2))) exit(EXIT_FAILURE);
    return bytes;
}

/* returns the problem of a file, in newly allocated tables */
static struct chordal_problem read_problem(const uint8_t *file, size_t length) {
    struct chordal_words_out made = words_room(length / 4);
    refused("words", chordal_file_words(file, length, made.at, made.len));
    struct chordal_words words;
    words.at = made.at, words.len = made.len;

    size_t len[11];
    chordal_file_table_lengths(words, len);
    struct chordal_tables table;
    table.p_starts = words_room(len[0]), table.p_rows = words_room(len[1]), table.p_values = values_room(len[2]);
    table.q = values_room(len[3]);
    table.a_starts = words_room(len[4]), table.a_rows = words_room(len[5]), table.a_values = values_room(len[6]);
    table.b = values_room(len[7]);
    table.cones = words_room(len[8]), table.alphas = values_room(len[9]), table.pattern_words = words_room(len[10]);

    struct chordal_problem problem;
    refused("reading", chordal_problem_read_file(words, length, &table, &problem));
    return problem;
}

/* returns the compact problem, which has no patterns */
static struct chordal_problem cut(const struct chordal_problem *problem) {
    struct chordal_lengths len;
    refused("sizes", chordal_problem_sizes(COMPACT, problem, &len));
    struct chordal_augmented table;
    table.p_starts = words_room(len.p_starts), table.p_rows = words_room(len.p_rows), table.p_values = values_room(len.p_values);
    table.q = values_room(len.q);
    table.a_starts = words_room(len.a_starts), table.a_rows = words_room(len.a_rows), table.a_values = values_room(len.a_values);
    table.b = values_room(len.b);
    table.cones = words_room(len.cones), table.alphas = values_room(len.alphas), table.map = words_room(len.map);
    refused("cut", chordal_problem_cut(COMPACT, problem, &table));
    return chordal_augmented_problem(&len, &table);
}

int main(void) {
    size_t length;
    uint8_t *file = read_all(stdin, &length);
    struct chordal_problem problem = read_problem(file, length), compact = cut(&problem);

    size_t written = chordal_file_length(&compact);
    uint8_t *out = (uint8_t *)room(written);
    refused("writing", chordal_problem_write_file(&compact, out, written));
    return fwrite(out, 1, written, stdout) == written ? EXIT_SUCCESS : EXIT_FAILURE;
}
