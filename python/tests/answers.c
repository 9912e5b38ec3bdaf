/* SPDX-FileCopyrightText: 2026 The PPVM Authors
 * SPDX-License-Identifier: Apache-2.0
 *
 * Calls from C whose answers are known: operators that are too long, calls that need no place and are lent
 * none, tables too short by one, the generator as a text, evolutions that grow too large or take too long, rows of
 * matrices that are wrong, registers that are too large. Writes a line for each answer that is another, and how many
 * were asked.
 */
#include <math.h>
#include <stdio.h>
#include <stdlib.h>
#include <string.h>

#include "pebblelinen.h"

/* ---- what is expected ---- */

static int asked, wrong;

static void expect(const char *what, pebblelinen_status got, uint64_t refusal, uint64_t first, uint64_t second) {
    asked++;
    if (got.refusal == refusal && got.first == first && got.second == second) return;
    wrong++;
    printf("%s: %llu (%llu, %llu), expected %llu (%llu, %llu)\n", what, (unsigned long long)got.refusal,
           (unsigned long long)got.first, (unsigned long long)got.second, (unsigned long long)refusal,
           (unsigned long long)first, (unsigned long long)second);
}

static void accepted(const char *what, pebblelinen_status got) { expect(what, got, 0, 0, 0); }

static void holds(const char *what, bool fact) {
    asked++;
    if (fact) return;
    wrong++;
    printf("%s: not so\n", what);
}

/* ---- what is lent ---- */

/* A pointer to lend with length 0. */
static uint64_t nothing[1];
#define NO_LANES nothing, 0
#define NO_PLACES (uint32_t *)nothing, 0
#define NO_NUMBERS (double *)nothing, 0
#define NO_TEXT (uint8_t *)nothing, 0

#define ALL(table) table, sizeof(table) / sizeof *(table)

/* The lanes of a word in a table: those of x, then those of z. */
enum { WORD = sizeof(pebblelinen_word) / sizeof(uint64_t) };

static void *zeros(size_t len) { return calloc(len + 1, 8); }

/* The lanes of a register of two qubits that an index asks for, and of a mask. */
enum { QUBITS = 2, INDEX = 64 * QUBITS, MASK = 64 };

/* A table for each place of a call, zero as every call leaves it. */
static uint64_t lanes[20][INDEX];
static double numbers[4][INDEX];
static uint32_t places[4][INDEX];

/* ---- a matrix of operators that may be too long ---- */

/* Adds the operators X + X + .. of so many terms each, with K = k on the diagonal, to an empty model of one qubit,
 * in tables of the lengths that are named for them. */
static pebblelinen_status matrix(size_t operators, const uint64_t *counts, double re, double im) {
    size_t terms = 0, longest = 0;
    for (size_t i = 0; i < operators; i++) {
        terms += counts[i];
        if (longest < counts[i]) longest = counts[i];
    }
    pebblelinen_sizes sizes = pebblelinen_matrix_sizes(operators, longest);
    uint8_t *texts = zeros(terms);
    uint64_t *lengths = zeros(terms);
    double *given = zeros(2 * terms), *k = zeros(2 * operators * operators);
    for (size_t i = 0; i < terms; i++) texts[i] = 'X', lengths[i] = 1, given[2 * i] = 1;
    for (size_t i = 0; i < operators; i++) {
        k[2 * i * (operators + 1)] = re;
        k[2 * i * (operators + 1) + 1] = im;
    }
    uint64_t *jumps = zeros(sizes.jumps), *t_words = zeros(sizes.t_words), *work_words = zeros(sizes.work_words);
    double *rates = zeros(sizes.rates), *t_numbers = zeros(sizes.t_numbers);
    double *work_numbers = zeros(sizes.work_numbers);
    pebblelinen_status status =
        pebblelinen_add_kossakowski((pebblelinen_model){1, 0, 0, 0}, texts, terms, lengths, terms, counts, operators,
                                    given, 2 * terms, k, 2 * operators * operators, NO_LANES, NO_NUMBERS, jumps,
                                    sizes.jumps, rates, sizes.rates, t_words, sizes.t_words, t_numbers,
                                    sizes.t_numbers, work_words, sizes.work_words, work_numbers, sizes.work_numbers)
            .status;
    free(texts), free(lengths), free(given), free(k), free(jumps), free(t_words), free(work_words);
    free(rates), free(t_numbers), free(work_numbers);
    return status;
}

static void long_operators(void) {
    uint64_t one[] = {17}, two[] = {16, 17}, fit[] = {16, 16};
    expect("an operator of 17 terms", matrix(1, one, 1, 0), 8, 17, 0);
    expect("operators of 16 and 17 terms", matrix(2, two, 1, 0), 8, 17, 0);
    expect("an operator of 17 terms, K (i)", matrix(1, one, 0, 1), 10, 0, 0);
    expect("an operator of 17 terms, K (2^201)", matrix(1, one, 0x1p201, 0), 7, 0, 0);
    accepted("operators of 16 and 16 terms", matrix(2, fit, 1, 0));
}

/* ---- building and adding without work places ---- */

static void nothing_to_build(void) {
    uint8_t text[] = "ZI";
    uint64_t length[] = {2}, h_words[WORD] = {0};
    double number[] = {0.5}, h_coeffs[1] = {0};
    pebblelinen_built built =
        pebblelinen_build_model(text, 2, ALL(length), ALL(number), NO_NUMBERS, NO_LANES, NO_NUMBERS, QUBITS,
                                ALL(h_words), ALL(h_coeffs), NO_LANES, NO_NUMBERS, NO_LANES, NO_NUMBERS, NO_LANES,
                                NO_NUMBERS);
    accepted("a model without jumps, without work places", built.status);
    holds("its one term", built.model.hamiltonian == 1 && h_words[WORD / 2] == 1 && h_coeffs[0] == 0.5);
    built = pebblelinen_build_model(NO_TEXT, NO_LANES, NO_NUMBERS, NO_NUMBERS, NO_LANES, NO_NUMBERS, QUBITS, NO_LANES,
                                    NO_NUMBERS, NO_LANES, NO_NUMBERS, NO_LANES, NO_NUMBERS, NO_LANES, NO_NUMBERS);
    accepted("a model of nothing", built.status);
    /* The model as it should be, whatever came of building it. */
    pebblelinen_model model = {QUBITS, 1, 0, 0};
    h_words[WORD / 2] = 1, h_coeffs[0] = 0.5;
    pebblelinen_built added = pebblelinen_add_kossakowski(model, NO_TEXT, NO_LANES, NO_LANES, NO_NUMBERS, NO_NUMBERS,
                                                          ALL(h_words), ALL(h_coeffs), NO_LANES, NO_NUMBERS, NO_LANES,
                                                          NO_NUMBERS, NO_LANES, NO_NUMBERS);
    accepted("a matrix of no operators, without work places", added.status);
    holds("nothing added", added.model.hamiltonian == 1 && added.model.jumps == 0 && added.model.terms == 0);
}

/* ---- a model in its tables: 0.5 ZZ, and the jump XI at rate 0.25 ---- */

static const uint64_t H_WORDS[WORD] = {[WORD / 2] = 3}, JUMPS[] = {0, 0, 1, 0, 0, 0, 0, 0}, T_WORDS[WORD] = {1};
static const double H_COEFFS[] = {0.5}, RATES[] = {0.25}, T_NUMBERS[] = {1, 0};
#define MODEL                                                                                        \
    (pebblelinen_model){QUBITS, 1, 1, 1}, ALL(H_WORDS), ALL(H_COEFFS), ALL(JUMPS), ALL(RATES), ALL(T_WORDS), \
        ALL(T_NUMBERS)

static const pebblelinen_limits LIMITS = {8, 0, 0, 0, 0};

/* ---- calls over no words, or over one, with so long work tables of those that 9 is owed for ---- */

/* The lengths of a call's tables, in the order in which they are tested. */
typedef pebblelinen_status (*Call)(size_t words, const size_t *len);

#define BANNER "%%MatrixMarket matrix coordinate integer general\n"
enum { UNTOUCHED = 7 };

static const uint64_t X[WORD] = {1};
static const double ONE[] = {1};

#define LANES(i) lanes[i], len[i]

/* One place of table 1 and of table 2, where there is a word, and of the list. */
#define SUMS lanes[10], words ? INDEX : 0, numbers[0], words ? INDEX : 0

static pebblelinen_status call_norm(size_t words, const size_t *len) {
    pebblelinen_normed found = pebblelinen_norm(MODEL, X, WORD * words, words, LANES(0), LANES(1), LANES(2), LANES(3),
                                                LANES(4), SUMS, numbers[1], len[5], numbers[2], len[6]);
    if (!words) holds("norm over no words", found.norm == 0 && found.mu == 0);
    return found.status;
}

static pebblelinen_status call_degree(size_t words, const size_t *len) {
    pebblelinen_partition found =
        pebblelinen_expm_degree(MODEL, X, WORD * words, words, 1, 0, LANES(0), LANES(1), LANES(2), LANES(3), LANES(4),
                                SUMS, numbers[1], len[5], numbers[2], len[6]);
    if (!words) holds("degree over no words", found.norm == 0 && found.mu == 0 && found.m == 1 && found.s == 1);
    return found.status;
}

static pebblelinen_status call_count(size_t words, const size_t *len) {
    pebblelinen_counted found =
        pebblelinen_count_action_terms(MODEL, X, WORD * words, LANES(0), LANES(1), LANES(2), SUMS);
    if (!words) holds("counts over no words", found.touched == 0 && found.listed == 0);
    return found.status;
}

static pebblelinen_status call_generator(size_t words, const size_t *len) {
    size_t room = words ? INDEX : 0;
    pebblelinen_listed found = pebblelinen_generator(
        MODEL, X, WORD * words, words, LANES(0), LANES(1), LANES(2), LANES(3), LANES(4), SUMS, places[0], room, places[1],
        room, numbers[1], room, places[2], room, places[3], room, numbers[2], room);
    if (!words) holds("entries over no words", found.count == 0);
    return found.status;
}

static pebblelinen_status call_csr(size_t words, const size_t *len) {
    size_t room = words ? INDEX : 0;
    uint64_t offsets[] = {7, 7};
    pebblelinen_listed found = pebblelinen_build_csr(
        MODEL, X, WORD * words, words, LANES(0), LANES(1), LANES(2), LANES(3), LANES(4), SUMS, places[0], room, places[1],
        room, numbers[1], room, offsets, len[5], places[3], room, numbers[2], room);
    if (!words && !found.status.refusal)
        holds("offsets over no words", found.count == 0 && offsets[0] == 0 && offsets[1] == 7);
    return found.status;
}

/* Whether a text stands in these bytes, and nothing was written past it. */
static bool stands(const uint8_t *bytes, size_t len, size_t written, const char *text) {
    bool same = written == strlen(text) && !memcmp(bytes, text, written);
    for (size_t i = written; i < len; i++) same &= bytes[i] == UNTOUCHED;
    return same;
}

static pebblelinen_status call_market(size_t words, const size_t *len) {
    size_t room = words ? INDEX : 0;
    uint8_t text[100];
    memset(text, UNTOUCHED, sizeof text);
    pebblelinen_written found =
        pebblelinen_matrix_market(MODEL, X, WORD * words, words, LANES(0), LANES(1), LANES(2), LANES(3), LANES(4), SUMS,
                                  places[0], room, places[1], room, numbers[1], room, ALL(text));
    const char *written = found.status.refusal ? "" : words ? BANNER "1 1 0\n" : BANNER "0 0 0\n";
    holds("a text without entries", stands(ALL(text), found.bytes, written));
    return found.status;
}

/* Its tables are, in the order in which they are tested: words and coeffs, which are given; those of the generator; offsets,
 * v, b, product and out. Over X, on which the model does nothing that stays, one product leaves 1. */
static pebblelinen_status call_evolve(size_t words, const size_t *len) {
    size_t room = words ? INDEX : 0;
    double out[] = {UNTOUCHED, UNTOUCHED};
    pebblelinen_evolved found = pebblelinen_evolve(
        MODEL, X, WORD * len[0], ONE, len[1], words, 0.5, 0, lanes[0], len[2], lanes[1], len[3], lanes[2], len[4], lanes[3],
        len[5], lanes[4], len[6], SUMS, places[0], room, places[1], room, numbers[1], room, lanes[5], len[7], places[2],
        room, numbers[2], room, numbers[3], len[8], (double *)lanes[11], len[9], (double *)lanes[12], len[10], out, len[11]);
    bool done = !found.status.refusal && words;
    holds("products of an evolution", found.products == done);
    holds("an evolved number", out[0] == (done ? 1 : UNTOUCHED) && out[1] == UNTOUCHED);
    return found.status;
}

/* One protected word, Z, and the word X of the basis. */
static const uint64_t PROTECTED[WORD] = {[WORD / 2] = 1};

static pebblelinen_status call_leakage(size_t words, const size_t *len) {
    size_t room = words ? INDEX : 0;
    pebblelinen_listed found = pebblelinen_leakage_with_prune(
        MODEL, X, WORD * words, ONE, words, words, ALL(PROTECTED), LIMITS, LANES(0), LANES(1), LANES(2), SUMS, LANES(3),
        LANES(4), LANES(5), lanes[11], room, numbers[1], room, lanes[13], room, lanes[14], room, lanes[16], room,
        (double *)lanes[17], room);
    if (!words) holds("nothing leaks from no words", found.count == 0);
    return found.status;
}

static pebblelinen_status leak_unprotected(size_t words, const size_t *len) {
    (void)len;
    return pebblelinen_leakage_with_prune(MODEL, X, WORD * words, ONE, words, words, NO_LANES, LIMITS, NO_LANES, NO_LANES,
                                          NO_LANES, NO_LANES, NO_NUMBERS, NO_LANES, NO_LANES, NO_LANES, NO_LANES,
                                          NO_NUMBERS, NO_LANES, NO_LANES, NO_LANES, NO_NUMBERS)
        .status;
}

static pebblelinen_status call_prune(size_t words, const size_t *len) {
    uint64_t basis[WORD] = {1};
    double coeffs[] = {1};
    pebblelinen_kept found = pebblelinen_prune_basis(QUBITS, basis, WORD * words, coeffs, words, words, ALL(PROTECTED),
                                                     0.5, LANES(0), LANES(1), LANES(2), LANES(3));
    if (!words) holds("no words pruned", found.entries == 0);
    return found.status;
}

static pebblelinen_status call_cap(size_t words, const size_t *len) {
    uint64_t basis[WORD] = {1};
    double coeffs[] = {1};
    pebblelinen_kept found = pebblelinen_cap_basis(QUBITS, basis, WORD * words, coeffs, words, words, ALL(PROTECTED), 0,
                                                   LANES(0), LANES(1), LANES(2), LANES(3));
    if (!words) holds("no words capped", found.entries == 0);
    return found.status;
}

/* Over no words with no table; over one word with each table in turn left out, and too short by one, those before it
 * being long enough and those after it missing; and with all. */
static void tables_of(const char *what, Call call, const size_t *needs, const size_t *over_none, size_t tables) {
    char said[100];
    snprintf(said, sizeof said, "%s over no words", what);
    accepted(said, call(0, over_none));
    size_t len[12] = {0};
    for (size_t k = 0; k < tables; k++) {
        snprintf(said, sizeof said, "%s over a word, without table %zu", what, k);
        expect(said, call(1, len), 9, needs[k], 0);
        len[k] = needs[k] - 1;
        snprintf(said, sizeof said, "%s over a word, table %zu too short", what, k);
        expect(said, call(1, len), 9, needs[k], needs[k] - 1);
        len[k] = needs[k];
    }
    snprintf(said, sizeof said, "%s over a word", what);
    accepted(said, call(1, len));
}

static void words_and_tables(void) {
    const size_t none[12] = {0}, one_offset[12] = {[5] = 1};
    tables_of("norm", call_norm, (size_t[]){INDEX, INDEX, MASK, 1, 1, 1, 1}, none, 7);
    tables_of("degree", call_degree, (size_t[]){INDEX, INDEX, MASK, 1, 1, 1, 1}, none, 7);
    tables_of("counting", call_count, (size_t[]){INDEX, INDEX, MASK}, none, 3);
    tables_of("generator", call_generator, (size_t[]){INDEX, INDEX, MASK, 1, 1}, none, 5);
    tables_of("CSR", call_csr, (size_t[]){INDEX, INDEX, MASK, 1, 1, 2}, one_offset, 6);
    tables_of("Matrix Market", call_market, (size_t[]){INDEX, INDEX, MASK, 1, 1}, none, 5);
    expect("CSR over no words, without offsets", call_csr(0, none), 9, 1, 0);
    tables_of("evolution", call_evolve, (size_t[]){1, 1, INDEX, INDEX, MASK, 1, 1, 2, 1, 1, 1, 1}, none, 12);
    tables_of("leakage", call_leakage, (size_t[]){INDEX, INDEX, MASK, 1, 2, 2}, none, 6);
    accepted("leakage over no words, nothing protected", leak_unprotected(0, none));
    tables_of("prune", call_prune, (size_t[]){1, 1, 1, 1}, none, 4);
    tables_of("cap", call_cap, (size_t[]){1, 1, 1, 1}, none, 4);
}

/* ---- the generator as Matrix Market: 0.5 Z, or another field, over X and Y ---- */

static pebblelinen_written market(double field, size_t entries, uint8_t *text, size_t text_len) {
    const pebblelinen_word z = {{0}, {1}}, xy[] = {{{1}, {0}}, {{1}, {1}}};
    memset(text, UNTOUCHED, text_len);
    return pebblelinen_matrix_market((pebblelinen_model){1, 1, 0, 0}, (const uint64_t *)&z, WORD, &field, 1, NO_LANES,
                                     NO_NUMBERS, NO_LANES, NO_NUMBERS, (const uint64_t *)xy, 2 * WORD, 2, lanes[0],
                                     64, lanes[1], 64, lanes[2], MASK, lanes[3], 2, lanes[4], 2, lanes[5], WORD,
                                     numbers[0], 2, places[0], entries, places[1], entries, numbers[1], entries, text,
                                     text_len);
}

static void matrix_market(void) {
    uint8_t text[128];
    pebblelinen_written found = market(0.5, 2, ALL(text));
    accepted("0.5 Z over X and Y", found.status);
    holds("its text",
          stands(ALL(text), found.bytes, BANNER "2 2 2\n2 1 -4294967296\n1 2 4294967296\n"));
    holds("in just enough bytes", found.bytes == 86 && market(0.5, 2, text, 86).bytes == 86);
    found = market(0.5, 1, ALL(text));
    expect("a place for one entry", found.status, 13, 3, 1);
    holds("no byte beside 13", stands(ALL(text), found.bytes, ""));
    found = market(0.5, 2, text, 85);
    expect("a byte too few", found.status, 13, 5, 85);
    holds("no byte beside 13 for the text", stands(text, 85, found.bytes, ""));
    found = market(0x1p29, 2, ALL(text));
    expect("a value of 2^30", found.status, 15, 1, 0);
    holds("no byte beside 15", stands(ALL(text), found.bytes, ""));
    expect("15 before 13 for the text", market(0x1p29, 2, text, 0).status, 15, 1, 0);
    expect("13 for the entries before 15", market(0x1p29, 1, text, 0).status, 13, 3, 1);
}

/* ---- evolution over one time step: Z over X and Y ---- */

static pebblelinen_evolved evolve(double x, double y, double dt, size_t entries, double *out) {
    const pebblelinen_word z = {{0}, {1}}, xy[] = {{{1}, {0}}, {{1}, {1}}};
    const double one[] = {1}, coeffs[] = {x, y};
    out[0] = out[1] = UNTOUCHED;
    return pebblelinen_evolve((pebblelinen_model){1, 1, 0, 0}, (const uint64_t *)&z, WORD, ALL(one), NO_LANES, NO_NUMBERS,
                              NO_LANES, NO_NUMBERS, (const uint64_t *)xy, 2 * WORD, ALL(coeffs), 2, dt, 0, lanes[0], 64,
                              lanes[1], 64, lanes[2], MASK, lanes[3], 2, lanes[4], 2, lanes[5], WORD, numbers[0], 2,
                              places[0], entries, places[1], entries, numbers[1], entries, lanes[6], 3, places[2], entries,
                              numbers[2], entries, numbers[3], 2, (double *)lanes[7], 2, (double *)lanes[8], 2, out, 2);
}

static void evolution(void) {
    double out[2];
    pebblelinen_evolved found = evolve(1, 0, 0.5, 2, out);
    accepted("Z over X and Y", found.status);
    /* cos 1 and -sin 1; t is 1, so m is 18 and s is 1. */
    holds("18 products", found.products == 18);
    holds("its numbers", out[0] > 0.540302305 && out[0] < 0.540302306 && out[1] < -0.841470984 && out[1] > -0.841470985);
    found = evolve(-0.0, 1, 0, 2, out);
    holds("one product where dt is 0", !found.status.refusal && found.products == 1 && out[0] == 0 && out[1] == 1);
    expect("a step for too many products", evolve(1.5e308, 0, 1e6, 2, out).status, 16, 30, 564972);
    expect("an infinite step times the norm", evolve(1.5e308, 0, 1e308, 2, out).status, 16, 1, UINT32_MAX);
    expect("13 before 16", evolve(1.5e308, 0, 1e6, 1, out).status, 13, 3, 1);
    expect("a product that is not finite", evolve(1.5e308, 0, 1, 2, out).status, 14, 1, 0);
    expect("the same where dt is 0", evolve(0, 1.5e308, 0, 2, out).status, 14, 0, 0);
    expect("a coefficient that is infinite", evolve(0, INFINITY, INFINITY, 0, out).status, 7, 1, 0);
    found = evolve(0, 0, -INFINITY, 0, out);
    expect("a step that is infinite", found.status, 7, 2, 0);
    holds("nothing beside a refusal", found.products == 0 && out[0] == UNTOUCHED && out[1] == UNTOUCHED);
}

/* ---- rows of a lent matrix ---- */

static void rows_of_a_matrix(void) {
    uint64_t sound[] = {0, 2, 2, 3}, late[] = {2, 3}, falling[] = {0, 2, 1, 3}, ends[] = {0, 2, 2, 2}, none[] = {0};
    uint32_t columns[] = {0, 2, 1}, again[] = {2, 2, 1}, outside[] = {0, 3, 1}, both[] = {3, 3, 3};
    pebblelinen_row row = pebblelinen_csr_row(3, ALL(sound), ALL(columns), 0);
    holds("row 0", !row.status.refusal && row.start == 0 && row.end == 2);
    row = pebblelinen_csr_row(3, ALL(sound), ALL(columns), 1);
    holds("row 1, which is empty", !row.status.refusal && row.start == 2 && row.end == 2);
    row = pebblelinen_csr_row(3, ALL(sound), ALL(columns), 2);
    holds("row 2", !row.status.refusal && row.start == 2 && row.end == 3);
    row = pebblelinen_csr_row(1, ALL(late), ALL(columns), 0);
    expect("offsets (2, 3) over three columns", row.status, 7, 0, 0);
    holds("no places beside a refusal", row.start == 0 && row.end == 0);
    expect("more rows than there may be", pebblelinen_csr_row(65537, ALL(sound), ALL(columns), 0).status, 8, 65537, 0);
    expect("the most rows", pebblelinen_csr_row(SIZE_MAX, ALL(sound), ALL(columns), 0).status, 8, SIZE_MAX, 0);
    expect("one offset too many", pebblelinen_csr_row(2, ALL(sound), ALL(columns), 0).status, 9, 3, 4);
    expect("one offset too few", pebblelinen_csr_row(4, ALL(sound), ALL(columns), 0).status, 9, 5, 4);
    expect("no offsets", pebblelinen_csr_row(0, NO_LANES, NO_PLACES, 0).status, 9, 1, 0);
    expect("falling offsets", pebblelinen_csr_row(3, ALL(falling), ALL(columns), 0).status, 7, 2, 0);
    expect("a last offset that is not the entries", pebblelinen_csr_row(3, ALL(ends), ALL(columns), 0).status, 7, 3, 0);
    expect("a column again", pebblelinen_csr_row(3, ALL(sound), ALL(again), 2).status, 7, 1, 0);
    expect("a column outside", pebblelinen_csr_row(3, ALL(sound), ALL(outside), 2).status, 7, 1, 0);
    expect("offsets before columns", pebblelinen_csr_row(3, ALL(falling), ALL(both), 9).status, 7, 2, 0);
    expect("columns before the row", pebblelinen_csr_row(3, ALL(sound), ALL(outside), 9).status, 7, 1, 0);
    expect("the row after the last", pebblelinen_csr_row(3, ALL(sound), ALL(columns), 3).status, 7, 3, 0);
    expect("the largest row", pebblelinen_csr_row(3, ALL(sound), ALL(columns), SIZE_MAX).status, 7, SIZE_MAX, 0);
    expect("a row of a matrix of none", pebblelinen_csr_row(0, ALL(none), NO_PLACES, 0).status, 7, 0, 0);
}

/* ---- registers ---- */

static void registers(void) {
    for (size_t n = 1; n <= PEBBLELINEN_MAX_QUBITS; n++) {
        pebblelinen_word last = {{0}, {0}};
        (n % 2 ? last.x : last.z)[(n - 1) / 64] = 1ull << (n - 1) % 64;
        pebblelinen_fitting found = pebblelinen_fits_register(last, n);
        accepted("a letter on the last qubit", found.status);
        holds("it fits", found.fits);
        found = pebblelinen_fits_register(last, n - 1);
        accepted("a letter above the last qubit", found.status);
        holds("it does not fit", !found.fits);
    }
    pebblelinen_word none = {{0}, {0}};
    pebblelinen_fitting found = pebblelinen_fits_register(none, 257);
    expect("a register of 257 qubits", found.status, 1, 257, 256);
    holds("nothing fits a register that is refused", !found.fits);
    expect("the largest register", pebblelinen_fits_register(none, SIZE_MAX).status, 1, SIZE_MAX, 256);
}

int main(void) {
    long_operators();
    nothing_to_build();
    words_and_tables();
    matrix_market();
    evolution();
    rows_of_a_matrix();
    registers();
    printf("%d asked, %d wrong\n", asked, wrong);
    return wrong != 0;
}
