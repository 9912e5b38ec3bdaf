/* SPDX-FileCopyrightText: 2026 The PPVM Authors
 * SPDX-License-Identifier: Apache-2.0
 *
 * The C interface of Pebblelinen: Pauli words, their texts, codes, products and order; models, built
 * in lent tables and tested there; their action on words; bases of words, pruned, capped and
 * enlarged in lent tables; what leaks out of a basis; the generator over a basis, its products, its
 * norm and the Taylor degree for its exponential.
 *
 * Every function takes any input. Where an input is not accepted, the function says so by a
 * pebblelinen_status and changes nothing that it was lent, but for work tables, where the function
 * says so. Link dist/libpebblelinen.a, or build it with its proofs: `tools/build-shared` writes
 * target/shared/libpebblelinen.a. From outside it needs memset alone.
 *
 * A slice is passed as a pointer, which is not NULL even where the length is 0, and a length.
 * Slices that a function writes to overlap no other slice of the call. Qubits are counted from 0.
 */
#ifndef PEBBLELINEN_H
#define PEBBLELINEN_H

#include <stdbool.h>
#include <stddef.h>
#include <stdint.h>

#ifdef __cplusplus
extern "C" {
#endif

/* The largest number of qubits in a register. */
#define PEBBLELINEN_MAX_QUBITS 256

/* How a call ended. `refusal` is 0 where the call was accepted, and else the number of the cause,
 * with its values in `first` and `second`; a value that the cause does not have is 0.
 *
 *   no.  cause                                   first        second
 *    1   qubits above 256                        count        256
 *    2   text length wrong                       expected     got
 *    3   byte not I, X, Y, Z                     byte         place after dropping `_`
 *    4   code above 3                            code
 *    5   rate below 0                            index
 *    6   operator without terms                  index
 *    7   number outside its range                index
 *    8   a count above its limit                 count
 *    9   lengths disagree                        needed       given
 *   10   K not Hermitian                         n            m
 *   11   word bit at or above the register       position
 *   12   basis word again                        later position
 *   13   more places needed than lent            table        places lent
 *   14   leakage or product sum not finite       position
 *   15   written count of 2^62 or more           entry, from 1
 *   16   more than 1,048,576 matrix products     m            s
 */
typedef struct {
    uint64_t refusal;
    uint64_t first;
    uint64_t second;
} pebblelinen_status;

/* A Pauli word. Qubit q is bit q % 64 of lane q / 64: I has neither bit, X its x bit, Z its z bit,
 * and Y both. */
typedef struct {
    uint64_t x[4];
    uint64_t z[4];
} pebblelinen_word;

/* A word that was read. Where the status is a refusal, the word is the identity. */
typedef struct {
    pebblelinen_status status;
    pebblelinen_word word;
} pebblelinen_parsed;

/* i^phase times a word; phase is 0, 1, 2 or 3. */
typedef struct {
    pebblelinen_word word;
    uint32_t phase;
} pebblelinen_phased;

/* i times the commutator of two words: eps times a word. eps is -2, 2 or, where the two commute,
 * +0. */
typedef struct {
    pebblelinen_word word;
    double eps;
} pebblelinen_commutator;

/* The word of a text for a register of n_qubits qubits: after `_` is dropped, one letter I, X, Y
 * or Z for each qubit, qubit 0 first.
 * Refusals: 1; 3 at the first byte from 128 up; 2; 3 at the first byte that is no letter. */
pebblelinen_parsed pebblelinen_parse_pauli_string(const uint8_t *text, size_t text_len,
                                                  size_t n_qubits);

/* The word of n_qubits codes, qubit 0 first: I 0, X 1, Z 2, Y 3.
 * Refusals: 1; 4 at the first code above 3. */
pebblelinen_parsed pebblelinen_word_from_codes(const uint8_t *codes, size_t n_qubits);

/* Writes the codes of the word's first n_qubits qubits to out[0 .. n_qubits); places from n_qubits
 * on stay as they were.
 * Refusals: 1; 9 (n_qubits, out_len) where out is too short; 11 (position 0) where the word has a
 * letter at or above qubit n_qubits. */
pebblelinen_status pebblelinen_codes_from_word(pebblelinen_word word, size_t n_qubits,
                                               uint8_t *out, size_t out_len);

/* The product p q. */
pebblelinen_phased pebblelinen_pauli_mul(pebblelinen_word p, pebblelinen_word q);

/* Whether p q = - q p. */
bool pebblelinen_anti_commutes(pebblelinen_word p, pebblelinen_word q);

/* i (h p - p h), as eps times the word of h p. */
pebblelinen_commutator pebblelinen_comm_product(pebblelinen_word h, pebblelinen_word p);

/* The order of words, by x[0] to x[3], then z[0] to z[3], as numbers: the first that differs decides.
 * -1 where p comes before q, 0 where they are the same word, 1 where p comes after q. */
int32_t pebblelinen_compare_words(pebblelinen_word p, pebblelinen_word q);

/* Whether p and q are the same word. */
bool pebblelinen_same_word(pebblelinen_word p, pebblelinen_word q);

/* Whether some qubit has a letter other than I in both words. */
bool pebblelinen_shares_qubit(pebblelinen_word p, pebblelinen_word q);

/* Whether a word fits a register. Where the status is a refusal, fits is false. */
typedef struct {
    pebblelinen_status status;
    bool fits;
} pebblelinen_fitting;

/* Whether the word has no letter other than I at or above qubit n_qubits.
 * Refusals: 1. */
pebblelinen_fitting pebblelinen_fits_register(pebblelinen_word word, size_t n_qubits);

/* ---- Models ----
 *
 * A model is Hamiltonian terms, jumps and pairs on a register of qubits. It stands in six slices
 * that the caller lends, three tables of two slices each:
 *
 *   Hamiltonian terms   h_words    8 lanes a term: x[0] to x[3], z[0] to z[3]
 *                       h_coeffs   1 number a term
 *   jumps and pairs     jumps      8 numbers an entry, see below
 *                       rates      1 number an entry: a general jump's rate g, a Pauli's g c c; that
 *                                  of a pair is not used
 *   terms               t_words    8 lanes a term
 *                       t_numbers  2 numbers a term: real part, imaginary part
 *
 * A place of a table is that of a term or an entry. Two slices of one table may have different
 * lengths; the table has as many places as both have, and what is left over is not touched. Places
 * past those that a model counts stay as they were.
 *
 * The eight numbers of an entry, whose ranges are places of the terms table, from a start to before
 * an end:
 *
 *   0      kind: 0 a Pauli, 1 a general jump, 2 a pair
 *   1, 2   start and end of its operator, of a pair the left one; a Pauli has its one term there
 *   3, 4   start and end of a pair's right operator
 *   5      place of a pair's first factor
 *   6, 7   start and end of the product: L^dagger L of a general jump, thinned, in word order
 *
 * Numbers that a kind does not have are 0. Terms stand in the order of their jumps: an operator's
 * terms as given, then its product.
 */

/* The limits of a model. */
#define PEBBLELINEN_MAX_HAMILTONIAN 4096 /* Hamiltonian terms */
#define PEBBLELINEN_MAX_JUMPS 4096       /* jumps and pairs together */
#define PEBBLELINEN_MAX_TERMS 16         /* terms of an operator */
#define PEBBLELINEN_MAX_OPERATORS 64     /* operators of a matrix */

/* The qubits of a model's register and the places that it takes in each of its tables. */
typedef struct {
    size_t qubits;
    size_t hamiltonian;
    size_t jumps;
    size_t terms;
} pebblelinen_model;

/* A model that was built. Where the status is a refusal, all counts of the model are 0. */
typedef struct {
    pebblelinen_status status;
    pebblelinen_model model;
} pebblelinen_built;

/* The lengths of slices, in lanes and numbers. */
typedef struct {
    size_t h_words;
    size_t h_coeffs;
    size_t jumps;
    size_t rates;
    size_t t_words;
    size_t t_numbers;
    size_t work_words;
    size_t work_numbers;
} pebblelinen_sizes;

/* The lengths that are enough to build every model of so many Hamiltonian items and so many jumps
 * of at most so many terms each: a jump of c terms takes at most c + c c places of the terms table,
 * and the work tables have 272 places, 8 lanes and 2 numbers each, or none without jumps. A count
 * above its limit (4,096, 4,096, 16) is taken for the limit, since more is refused whatever is lent. */
pebblelinen_sizes pebblelinen_model_sizes(size_t hamiltonian, size_t jumps, size_t terms);

/* What a matrix over k operators of at most c terms each takes beyond the tables of the model that
 * it is added to: k (k + 1) / 2 entries of the table of jumps and pairs, and
 * k c + k (k + 1) / 2 * 2 c c places of the terms table. Add these to the lengths of the model.
 * work_words and work_numbers are the lengths of the call's own work tables, of 256 + k c places, or
 * none without operators. A count above its limit (64, 16) is taken for the limit. */
pebblelinen_sizes pebblelinen_matrix_sizes(size_t operators, size_t terms);

/* Builds a model from Hamiltonian items and jumps, in lent tables.
 *
 * A Hamiltonian item is a text and a number. A jump is a rate and an operator: one term or more, of
 * a text and a complex number each. They are given in six slices:
 *
 *   texts      the bytes of all texts, one after another: first those of the Hamiltonian items, then
 *              those of the terms, jump by jump
 *   lengths    the length of each text, in the same order
 *   h_numbers  the number of each Hamiltonian item; its length is how many items there are
 *   given      the rate of each jump; its length is how many jumps there are
 *   counts     how many terms each jump has
 *   numbers    the numbers of the terms, jump by jump: real part, imaginary part
 *
 * A jump of one term whose imaginary part is 0 is stored as a Pauli, with its rate times the real
 * part times the real part for its rate. Every other jump is stored with its terms and its product
 * L^dagger L, from which words are dropped whose number has a squared magnitude of at most
 * 1e-14 * 1e-14.
 *
 * The six tables need not be empty. Where the model was built, they hold it, and the work tables are
 * all zero. Refusals, in this order:
 *
 *    1  (n_qubits, 256)
 *    8  (count): more than 4,096 Hamiltonian items, then more than 4,096 jumps
 *    9  (needed, given) for what is given, in this order: a length for each Hamiltonian item and
 *       each term; a count for each jump; two numbers for each term; counts that make up the terms;
 *       lengths that make up the bytes. Of counts and lengths the first that is longer than what is
 *       left gives (it, what is left); what is left over gives (0, what is left over)
 *    9  (places needed, places lent) for h_words, h_coeffs, jumps, rates, then, where there is a
 *       jump, 272 for work_words and work_numbers
 *       each Hamiltonian item in turn: its text (3 at the first byte from 128 up; 2; 3 at the first
 *       byte that is no letter), then 7 (item) for its number
 *       each jump in turn: 5 (jump) for a rate below 0, 7 (jump) for the rate, 6 (jump) without
 *       terms, 8 (count) with more than 16, then each term in turn: its text as above, then 7 (jump)
 *       for its numbers
 *   13  (4, places lent): the terms table has fewer places than the model takes
 *
 * Numbers are in range where they are 0 or from 2^-200 to 2^200 in magnitude; the two numbers of a
 * complex one are tested each by itself. A refusal changes nothing that was lent, but for 13, after
 * which the work tables are all zero. */
pebblelinen_built pebblelinen_build_model(
    const uint8_t *texts, size_t texts_len, const uint64_t *lengths, size_t lengths_len,
    const double *h_numbers, size_t h_numbers_len, const double *given, size_t given_len,
    const uint64_t *counts, size_t counts_len, const double *numbers, size_t numbers_len,
    size_t n_qubits, uint64_t *h_words, size_t h_words_len, double *h_coeffs, size_t h_coeffs_len,
    uint64_t *jumps, size_t jumps_len, double *rates, size_t rates_len, uint64_t *t_words,
    size_t t_words_len, double *t_numbers, size_t t_numbers_len, uint64_t *work_words,
    size_t work_words_len, double *work_numbers, size_t work_numbers_len);

/* Adds a matrix K over operators to a model that stands in lent tables: the dissipator
 * sum over n and m of K[n][m] (A_n^dagger p A_m - 1/2 (A_n^dagger A_m p + p A_n^dagger A_m)).
 *
 * The operators A_0, A_1, .. are given as the operators of jumps are, and K row by row:
 *
 *   texts      the bytes of the texts of all terms, one after another, operator by operator
 *   lengths    the length of each text, in the same order
 *   counts     how many terms each operator has; its length k is how many operators there are
 *   numbers    the numbers of the terms, operator by operator: real part, imaginary part
 *   k          k * k entries, row by row: real part, imaginary part
 *
 * K is to be Hermitian, and only its entries with n not above m are used. Of these, one whose squared
 * magnitude is at most (1e-14 * 1e-14) times the largest in K is skipped; every other makes a pair, an
 * entry of the table of jumps and pairs of kind 2 with rate 0. The terms table takes, after what it
 * holds, the terms of all operators, then for each pair its factors (conj(a) b K[n][m] for each term a
 * of A_n with each term b of A_m, beside the word of b), then the words of A_n^dagger A_m, thinned as
 * for a jump, each with K[n][m] times its number.
 *
 * The model that is returned counts what was there and what was added; entries and terms that were
 * there stay as they were, and the Hamiltonian terms are only read. Where the matrix was added, the
 * work tables are all zero. Refusals, in this order:
 *
 *       those of pebblelinen_test_model for the model
 *    8  (count): more than 64 operators
 *    9  (k * k, entries of K), then (2 k k, numbers of K), then for the operators as in
 *       pebblelinen_build_model
 *    9  (places needed, places lent) for jumps and rates, which need room for every pair that there
 *       can be: the model's entries and k (k + 1) / 2 more, at most 4,096; then, where there is an
 *       operator, 256 and one for each term, at most 16 k, for work_words and work_numbers
 *    7  (place in K, row by row) for the first entry out of range
 *   10  (n, m) for the first entry, in row order with n not above m, that is not the conjugate of
 *       K[m][n]: the difference has a squared magnitude above (1e-10 * 1e-10) times the larger of 1
 *       and the largest squared magnitude in K
 *       each operator in turn, as that of a jump from 6 on
 *    8  (count): more than 4,096 jumps and pairs together
 *   13  (4, places lent): the terms table has fewer places than the model takes
 *
 * A refusal changes nothing that was lent, but for 13, after which the work tables are all zero. */
pebblelinen_built pebblelinen_add_kossakowski(
    pebblelinen_model model, const uint8_t *texts, size_t texts_len, const uint64_t *lengths,
    size_t lengths_len, const uint64_t *counts, size_t counts_len, const double *numbers,
    size_t numbers_len, const double *k, size_t k_len, const uint64_t *h_words,
    size_t h_words_len, const double *h_coeffs, size_t h_coeffs_len, uint64_t *jumps,
    size_t jumps_len, double *rates, size_t rates_len, uint64_t *t_words, size_t t_words_len,
    double *t_numbers, size_t t_numbers_len, uint64_t *work_words, size_t work_words_len,
    double *work_numbers, size_t work_numbers_len);

/* Tests a model in lent tables, as every call that takes one does first. A model that was built
 * passes. Refusals, in this order:
 *
 *    1  (qubits, 256)
 *    8  (count): more than 4,096 Hamiltonian terms, then more than 4,096 jumps and pairs
 *    9  (places that the model counts, places lent) for h_words, h_coeffs, jumps, rates, t_words,
 *       t_numbers
 *    7  (place) for the first Hamiltonian term whose word has a letter at or above the register or
 *       whose number is out of range
 *    7  (place) for the first entry of jumps and pairs of a kind above 2, with a range, a Pauli's
 *       term or a pair's factors outside the terms that the model counts, with a general jump's rate
 *       out of range, or with a Pauli's rate above 2^620 in magnitude
 *    7  (place) for the first term whose word has a letter at or above the register, with a number
 *       above 2^620 in magnitude, or, where it is a term of an operator, with one out of range */
pebblelinen_status pebblelinen_test_model(pebblelinen_model model, const uint64_t *h_words,
                                          size_t h_words_len, const double *h_coeffs,
                                          size_t h_coeffs_len, const uint64_t *jumps,
                                          size_t jumps_len, const double *rates, size_t rates_len,
                                          const uint64_t *t_words, size_t t_words_len,
                                          const double *t_numbers, size_t t_numbers_len);

/* ---- Actions ---- */

/* How many words a call lists. Where the status is a refusal, the count is 0. */
typedef struct {
    pebblelinen_status status;
    size_t count;
} pebblelinen_listed;

/* The action of a model on a word p, in the Heisenberg picture: i(Hp - pH), for each jump
 * rate * (L^dagger p L - 1/2 (L^dagger L p + p L^dagger L)), and for each matrix the dissipator of
 * pebblelinen_add_kossakowski.
 *
 * Only items that share a qubit with p count: the Hamiltonian terms, then the jumps, then the pairs,
 * each in the order in which they are stored. What they add is summed word by word, from 0, in
 * work_words and work_sums, a table in word order of a word (8 lanes) and a complex number each. The
 * answer lists the words whose real part is not 0, in word order: their lanes in out_words, their
 * real parts in out_values. Places past the list stay as they were. Where the call was accepted, the
 * work tables are all zero; what they held before makes no difference. Refusals, in this order:
 *
 *       those of pebblelinen_test_model for the model
 *   11  (0): p has a letter at or above the register
 *   13  (1, places lent): the work tables have fewer places than p's action touches words, words
 *       whose sum is 0 among them
 *   13  (3, places lent): out_words and out_values have fewer places than there are words to list
 *
 * A refusal changes nothing that was lent, but for 13, after which the work tables are all zero. */
pebblelinen_listed pebblelinen_compute_action_terms(
    pebblelinen_model model, const uint64_t *h_words, size_t h_words_len, const double *h_coeffs,
    size_t h_coeffs_len, const uint64_t *jumps, size_t jumps_len, const double *rates,
    size_t rates_len, const uint64_t *t_words, size_t t_words_len, const double *t_numbers,
    size_t t_numbers_len, pebblelinen_word p, uint64_t *work_words, size_t work_words_len,
    double *work_sums, size_t work_sums_len, uint64_t *out_words, size_t out_words_len,
    double *out_values, size_t out_values_len);

/* The places that actions of a model on many words need. Where the status is a refusal, the counts
 * are 0. */
typedef struct {
    pebblelinen_status status;
    size_t touched;
    size_t listed;
} pebblelinen_counted;

/* The most words of one list (8 lanes each). */
#define PEBBLELINEN_MAX_WORDS 65536

/* Acts on each word of a list, and counts: `touched` is the most words that the action of one of them
 * touches, words whose sum is 0 among them, and `listed` the most that one lists. So work tables of
 * `touched` places and out tables of `listed` places are enough for pebblelinen_compute_action_terms
 * on each of them.
 *
 * The model is tested once. An index, made once in h_index and j_index, tells for each qubit which
 * Hamiltonian terms and which jumps and pairs have a letter there; each action then visits only the
 * items that share a qubit with its word. h_index and j_index are of 64 lanes for each qubit, mask of
 * 64 lanes; without a word none are asked for. Where the call was accepted, all five work tables are
 * all zero; what they held before makes no difference. Refusals, in this order:
 *
 *       those of pebblelinen_test_model for the model
 *    8  (count): more than 65,536 words
 *    9  (lanes of whole words, lanes) where the last word is cut off; then, where there is a word, (64
 *       for each qubit, lanes lent) for h_index and j_index, and (64, lanes lent) for mask
 *   11  (position): the first word with a letter at or above the register
 *   13  (1, places lent): work_words and work_sums have fewer places than one of the actions touches
 *       words
 *
 * A refusal changes nothing that was lent, but for 13, after which the work tables are all zero. */
pebblelinen_counted pebblelinen_count_action_terms(
    pebblelinen_model model, const uint64_t *h_words, size_t h_words_len, const double *h_coeffs,
    size_t h_coeffs_len, const uint64_t *jumps, size_t jumps_len, const double *rates,
    size_t rates_len, const uint64_t *t_words, size_t t_words_len, const double *t_numbers,
    size_t t_numbers_len, const uint64_t *words, size_t words_len, uint64_t *h_index,
    size_t h_index_len, uint64_t *j_index, size_t j_index_len, uint64_t *mask, size_t mask_len,
    uint64_t *work_words, size_t work_words_len, double *work_sums, size_t work_sums_len);

/* ---- Bases ----
 *
 * A basis is an ordered list of Pauli words with a coefficient each. It stands in two slices that the
 * caller lends, of which the first `len` places are in use:
 *
 *   words    8 lanes a word: x[0] to x[3], z[0] to z[3]
 *   coeffs   1 number a word
 *
 * The word in the place with number i, counted from 0, has position i. A position is not a qubit. A
 * word may stand at several positions; each is an entry of its own. Sizes are compared by magnitude:
 * 0.5 and -0.5 are as large as each other.
 *
 * Protected words are a list of whole words, 8 lanes each, in any order; an entry is protected where
 * its word is in the list. Words of the list may come again or stand outside the basis; they take no
 * place in it.
 *
 * The work tables are slices of 64-bit numbers. pebblelinen_basis_sizes tells how long they have to
 * be; longer ones will do. What they held before makes no difference, and where the call was accepted
 * they are all zero, to their ends.
 */

/* How many entries a basis has after a call: its new length. Where the status is a refusal, the count
 * is 0, and the basis still has the length that it had. */
typedef struct {
    pebblelinen_status status;
    size_t entries;
} pebblelinen_kept;

/* The lengths of work tables, in numbers. */
typedef struct {
    size_t order;
    size_t work;
    size_t fixed;
    size_t kept;
} pebblelinen_basis_work;

/* The lengths of work tables that are enough for pebblelinen_prune_basis and pebblelinen_cap_basis on a
 * basis of so many entries with so many protected words, and for pebblelinen_add_leakage_capped with
 * so many listed words: order and work as many as the largest of the three counts, protected words
 * counted only where there are entries, fixed as many as there are entries, kept as many as the larger
 * of entries and listed words. Give 0 for what there is not. */
pebblelinen_basis_work pebblelinen_basis_sizes(size_t entries, size_t protected_words,
                                               size_t listed);

/* Prune: drops the entries whose coefficient is below drop_tol in magnitude, but for protected ones.
 * The entries that stay keep their order, words and coefficients. Nothing is dropped where drop_tol
 * is 0 or below.
 *
 *   n                    the qubits of the register
 *   words, coeffs, len   the basis
 *   protected_words      the protected words; its length is in lanes
 *   order, work          work tables of a place for each entry and for each protected word, whichever
 *                        are more; none where there is no entry
 *   fixed, kept          work tables of a place for each entry
 *
 * Where the call was accepted and drop_tol is above 0, everything in words and coeffs past the new
 * length is zero, to their ends; where drop_tol is not, they are as they were. Refusals, in this
 * order:
 *
 *    1  (n, 256)
 *    8  (count): more than 65,536 entries, then more than 65,536 protected words
 *    9  (len, places lent) for words, then for coeffs; (lanes of whole words, lanes) where the last
 *       protected word is cut off; then (places needed, places lent) for order, work, fixed, kept
 *   11  (position): the first word of the basis with a letter at or above the register; then, with its
 *       place in the list, the first such protected word
 *    7  (position): the first coefficient that is infinite or NaN; then (len) for such a drop_tol
 *
 * A refusal changes nothing that was lent. */
pebblelinen_kept pebblelinen_prune_basis(
    size_t n, uint64_t *words, size_t words_len, double *coeffs, size_t coeffs_len, size_t len,
    const uint64_t *protected_words, size_t protected_words_len, double drop_tol, uint64_t *order,
    size_t order_len, uint64_t *work, size_t work_len, uint64_t *fixed, size_t fixed_len,
    uint64_t *kept, size_t kept_len);

/* Cap: keeps the protected entries and the largest others, as many as the limit leaves slots for
 * beside the protected ones; of equally large ones the earlier positions. So exactly
 * max(limit, protected entries) stay. They keep their order, words and coefficients. Nothing is
 * dropped where len is at most the limit.
 *
 * The tables are those of pebblelinen_prune_basis. Where the call was accepted and len is above the
 * limit, everything in words and coeffs past the new length is zero, to their ends; where len is not,
 * they are as they were. Refusals, in this order:
 *
 *    1  (n, 256)
 *    8  (count): more than 65,536 entries, then more than 65,536 protected words, then (limit) for a
 *       limit above 65,536
 *    9  as for pebblelinen_prune_basis
 *   11  as for pebblelinen_prune_basis
 *    7  (position): the first coefficient that is infinite or NaN
 *
 * A refusal changes nothing that was lent. */
pebblelinen_kept pebblelinen_cap_basis(
    size_t n, uint64_t *words, size_t words_len, double *coeffs, size_t coeffs_len, size_t len,
    const uint64_t *protected_words, size_t protected_words_len, size_t limit, uint64_t *order,
    size_t order_len, uint64_t *work, size_t work_len, uint64_t *fixed, size_t fixed_len,
    uint64_t *kept, size_t kept_len);

/* Admission: appends listed words to a basis, each with coefficient 0, in the order in which they are
 * listed. There is room for max(limit - len, 0) of them: the words whose listed value is largest in
 * magnitude find it, of equally large ones the earlier listed. A word may be listed twice, or stand in
 * the basis already; it is appended all the same.
 *
 *   n                    the qubits of the register
 *   words, coeffs, len   the basis, in tables with places for len and the words to be appended
 *   list, values         the listed words, 8 lanes each, and the value of each
 *   limit                what room counts against
 *   order, work, kept    work tables of a place for each listed word
 *
 * Places of words and coeffs past the new length stay as they were. Refusals, in this order:
 *
 *    1  (n, 256)
 *    8  (count): more than 65,536 entries, then more than 65,536 listed words, then (limit) for a
 *       limit above 65,536
 *    9  (len, places lent) for words, then for coeffs; (lanes of whole words, lanes) where the last
 *       listed word is cut off; (listed words, values); then (listed words, places lent) for order,
 *       work, kept
 *   11  (position): the first word of the basis with a letter at or above the register; then, with its
 *       place in the list, the first such listed word
 *    7  (position): the first coefficient that is infinite or NaN; then (len + place in the list) for
 *       the first such value
 *   13  (3, places lent): the basis has fewer places, those in use among them, than len and the words
 *       to be appended; its places are the smaller number of those of words and of coeffs
 *
 * A refusal changes nothing that was lent, but for 13, after which the work tables are all zero. */
pebblelinen_kept pebblelinen_add_leakage_capped(
    size_t n, uint64_t *words, size_t words_len, double *coeffs, size_t coeffs_len, size_t len,
    const uint64_t *list, size_t list_len, const double *values, size_t values_len, size_t limit,
    uint64_t *order, size_t order_len, uint64_t *work, size_t work_len, uint64_t *kept,
    size_t kept_len);

/* ---- Leakage ----
 *
 * What a model moves out of a basis, onto words neither in the basis nor protected: the candidates. */

/* What a run may take in. max_basis is a limit on words. admit_basis counts where admit_given is not 0,
 * and tau_add where tau_given is not 0; an absent admit_basis, or one below max_basis, is raised to
 * max_basis, and an absent tau_add is 2^-40: give 0 to list every sum that is not 0. */
typedef struct {
    size_t max_basis;
    uint64_t admit_given;
    size_t admit_basis;
    uint64_t tau_given;
    double tau_add;
} pebblelinen_limits;

/* The lengths of leakage's work tables, in lanes or numbers. */
typedef struct {
    size_t h_index;
    size_t j_index;
    size_t mask;
    size_t work_words;
    size_t work_sums;
    size_t order;
    size_t heads;
    size_t nexts;
    size_t cand_words;
    size_t cand_sums;
    size_t place_order;
    size_t place_work;
} pebblelinen_leakage_lengths;

/* Lengths that are enough for a register of so many qubits, a basis of so many entries, so many
 * protected words, actions that touch at most so many words (`touched` of
 * pebblelinen_count_action_terms over the basis), and so many candidates at a time. Longer tables will
 * do; more slots (heads, place_order) may be faster. */
pebblelinen_leakage_lengths pebblelinen_leakage_sizes(
    size_t qubits, size_t entries, size_t protected_words, size_t touched, size_t candidates);

/* Takes the positions of a basis by falling magnitude of their coefficients, ties to the lower
 * position, 4,096 to a pass. Each adds coefficient x term, for each term of its word's action, to the
 * sum at the term's word where that word is a candidate. A candidate whose sum is 0 is one. After each
 * pass only the largest candidates stay, as many as there is room: the limit less len, at least 0; ties
 * to the lower word. A word that was dropped and is reached again starts at 0 again. After the last
 * pass those larger than tau_add in magnitude are listed in word order, with their sums.
 *
 *   words, coeffs, len   the basis: its first len places
 *   protected_words      whole words, 8 lanes each
 *   limits               see above
 *   h_index, j_index     64 lanes for each qubit; mask: 64 lanes; none of either for an empty basis
 *   order                a place for each entry
 *   nexts                a place for each entry and each protected word; heads: at least as many, twice
 *                        as many is good; none of either for an empty basis
 *   table 1              words touched by one action: work_words (8 lanes a place), work_sums (2
 *                        numbers)
 *   table 2              candidates held at a time, before the room rule: cand_words (8 lanes a place),
 *                        cand_sums, place_order, place_work
 *   out_words            the listed words, 8 lanes each; out_values: their sums
 *
 * The places of table 1 and of table 2 are those of the shortest of their slices. The count is that of
 * the listed words; places of out_words and out_values past it stay as they were. Refusals, in this
 * order:
 *
 *       those of pebblelinen_test_model for the model
 *    8  (count): more than 65,536 entries, then protected words; then (limit) for max_basis and for an
 *       admit_basis that is given
 *    9  (len, places lent) for words, then for coeffs; (lanes of whole words, lanes) where the last
 *       protected word is cut off; then (needed, lent) for h_index, j_index, mask, order, heads, nexts
 *   11  (position): the first basis word with a letter at or above the register; then, with its place
 *       in the list, the first such protected word
 *    7  (position): the first coefficient that is infinite or NaN; then (len) for a tau_add that is
 *   13  (1, places) at the first position, in the order they are taken, whose action touches more words
 *       than table 1 has places; (2, places) at the first after which there are more candidates than
 *       table 2 has places
 *   14  (place in word order among the candidates): at a pass's end, the first sum that is not finite
 *   13  (3, places) after the last pass: more words to list than out_words and out_values have places
 *
 * A refusal changes nothing that was lent, but for 13 and 14, after which the work tables are all zero.
 * Where the call was accepted the work tables are all zero, to their ends; what they held before makes
 * no difference. */
pebblelinen_listed pebblelinen_leakage_with_prune(
    pebblelinen_model model, const uint64_t *h_words, size_t h_words_len, const double *h_coeffs,
    size_t h_coeffs_len, const uint64_t *jumps, size_t jumps_len, const double *rates, size_t
    rates_len, const uint64_t *t_words, size_t t_words_len, const double *t_numbers, size_t
    t_numbers_len, const uint64_t *words, size_t words_len, const double *coeffs, size_t coeffs_len,
    size_t len, const uint64_t *protected_words, size_t protected_words_len, pebblelinen_limits
    limits, uint64_t *h_index, size_t h_index_len, uint64_t *j_index, size_t j_index_len, uint64_t
    *mask, size_t mask_len, uint64_t *work_words, size_t work_words_len, double *work_sums, size_t
    work_sums_len, uint64_t *order, size_t order_len, uint64_t *heads, size_t heads_len, uint64_t
    *nexts, size_t nexts_len, uint64_t *cand_words, size_t cand_words_len, double *cand_sums, size_t
    cand_sums_len, uint64_t *place_order, size_t place_order_len, uint64_t *place_work, size_t
    place_work_len, uint64_t *out_words, size_t out_words_len, double *out_values, size_t
    out_values_len);

/* ---- Generator ----
 *
 * The generator over a basis of distinct words is the matrix of the action: the entry in row r and
 * column c is the number that the action on the word at position c lists for the word at position r.
 * Rows and columns are positions, never qubits. Words that an action reaches outside the basis have
 * no row. */

/* The lengths of the work tables of pebblelinen_generator, pebblelinen_build_csr and
 * pebblelinen_matrix_market, in lanes or numbers. */
typedef struct {
    size_t h_index;
    size_t j_index;
    size_t mask;
    size_t heads;
    size_t nexts;
    size_t work_words;
    size_t work_sums;
    size_t stage_rows;
    size_t stage_columns;
    size_t stage_values;
} pebblelinen_generator_lengths;

/* Lengths that are enough for a register of so many qubits, a basis of so many words, actions that
 * touch at most so many words (`touched` of pebblelinen_count_action_terms over the basis), and so
 * many entries; so many words times `listed` of that call are always enough entries. Longer tables
 * will do; the norm's tables are among them. */
pebblelinen_generator_lengths pebblelinen_generator_sizes(size_t qubits, size_t words,
                                                          size_t touched, size_t entries);

/* The entries of the generator, by column, then by the row's word in word order: rows, columns and
 * values, side by side.
 *
 *   words, len           the basis: its first len places, 8 lanes a word
 *   h_index, j_index     64 lanes for each qubit; mask: 64 lanes; none of either for an empty basis
 *   nexts                a place for each basis word; heads: at least as many, twice as many is good
 *   table 1              words touched by one action: work_words (8 lanes a place), work_sums (2
 *                        numbers)
 *   table 3              entries: stage_rows, stage_columns, stage_values; rows, columns, values
 *
 * The places of table 1 and of table 3 are those of the shortest of their slices. Entries are staged
 * before they are written out, since a column further on may still be refused. The count is that of
 * the entries; places of rows, columns and values past it stay as they were. Refusals, in this order:
 *
 *       those of pebblelinen_test_model for the model
 *    8  (count): more than 65,536 words
 *    9  (len, places lent) for words; then (needed, lent) for h_index, j_index, mask, heads, nexts
 *   11  (position): the first word with a letter at or above the register
 *   12  (position): the first position whose word stands at a smaller one too
 *   13  (1, places) or (3, places), column by column: the action touches more words than table 1 has
 *       places; then the entries so far are more than table 3 has places
 *
 * A refusal changes nothing that was lent, but for 13, after which the work tables are all zero.
 * Where the call was accepted they are all zero, to their ends; what they held before makes no
 * difference to the answer. But it makes one to the time: a word that comes again is looked for
 * quickly only in heads and nexts that are zero, since 12 leaves them as they were. */
pebblelinen_listed pebblelinen_generator(
    pebblelinen_model model, const uint64_t *h_words, size_t h_words_len, const double *h_coeffs,
    size_t h_coeffs_len, const uint64_t *jumps, size_t jumps_len, const double *rates,
    size_t rates_len, const uint64_t *t_words, size_t t_words_len, const double *t_numbers,
    size_t t_numbers_len, const uint64_t *words, size_t words_len, size_t len, uint64_t *h_index,
    size_t h_index_len, uint64_t *j_index, size_t j_index_len, uint64_t *mask, size_t mask_len,
    uint64_t *heads, size_t heads_len, uint64_t *nexts, size_t nexts_len, uint64_t *work_words,
    size_t work_words_len, double *work_sums, size_t work_sums_len, uint32_t *stage_rows,
    size_t stage_rows_len, uint32_t *stage_columns, size_t stage_columns_len,
    double *stage_values, size_t stage_values_len, uint32_t *rows, size_t rows_len,
    uint32_t *columns, size_t columns_len, double *values, size_t values_len);

/* The same matrix by rows (CSR): the entries of row r stand in columns and values from offsets[r] to
 * before offsets[r + 1], their columns ascending. offsets has len + 1 places; offsets[len] is the
 * count.
 *
 * The other tables and the refusals are those of pebblelinen_generator, with columns and values for
 * the out tables of table 3, and 9 (len + 1, places lent) for offsets after nexts. Places of offsets
 * past len + 1, and of columns and values past the count, stay as they were. */
pebblelinen_listed pebblelinen_build_csr(
    pebblelinen_model model, const uint64_t *h_words, size_t h_words_len, const double *h_coeffs,
    size_t h_coeffs_len, const uint64_t *jumps, size_t jumps_len, const double *rates,
    size_t rates_len, const uint64_t *t_words, size_t t_words_len, const double *t_numbers,
    size_t t_numbers_len, const uint64_t *words, size_t words_len, size_t len, uint64_t *h_index,
    size_t h_index_len, uint64_t *j_index, size_t j_index_len, uint64_t *mask, size_t mask_len,
    uint64_t *heads, size_t heads_len, uint64_t *nexts, size_t nexts_len, uint64_t *work_words,
    size_t work_words_len, double *work_sums, size_t work_sums_len, uint32_t *stage_rows,
    size_t stage_rows_len, uint32_t *stage_columns, size_t stage_columns_len,
    double *stage_values, size_t stage_values_len, uint64_t *offsets, size_t offsets_len,
    uint32_t *columns, size_t columns_len, double *values, size_t values_len);

/* A text that was written, and its length in bytes. Where the status is a refusal, bytes is 0. */
typedef struct {
    pebblelinen_status status;
    size_t bytes;
} pebblelinen_written;

/* A length of text that is enough for so many entries over any basis: 49 bytes for the header, 23 for
 * the size line and 33 for each entry. So many entries as `entries` of pebblelinen_generator_sizes;
 * more than 4,294,967,296 are taken for as many, since there never are more. */
size_t pebblelinen_matrix_market_text(size_t entries);

/* The entries of the generator as a text in the Matrix Market form `coordinate integer general`:
 *
 *   %%MatrixMarket matrix coordinate integer general
 *   len len entries
 *   row column count          for each entry, in the order of pebblelinen_generator
 *
 * Rows and columns are counted from 1. The count of an entry is its value in units of 2^-32, as the
 * nearest whole number, halves away from zero; an entry that becomes 0 is written, as 0. Numbers have
 * no leading zeros and no plus sign, a minus sign stands only before a number that is not 0, fields
 * part by one space, and every line ends in a newline (byte 10).
 *
 * The model, the basis and the work tables are those of pebblelinen_generator, whose lengths
 * pebblelinen_generator_sizes names; the places of table 3 are those of stage_rows, stage_columns and
 * stage_values, which are work tables. The text stands in the first `bytes` bytes of `text`; the
 * others stay as they were. Refusals, in this order:
 *
 *       those of pebblelinen_generator, 13 for tables 1 and 3 the last
 *   15  (entry, from 1): the first whose count is 2^62 or more in magnitude; its value is 2^30 or more
 *   13  (5, bytes lent): the text takes more bytes than `text` has
 *
 * A refusal leaves every byte of `text` as it was. After 13, 15 and acceptance the work tables are all
 * zero; every other refusal changes nothing that was lent. */
pebblelinen_written pebblelinen_matrix_market(
    pebblelinen_model model, const uint64_t *h_words, size_t h_words_len, const double *h_coeffs,
    size_t h_coeffs_len, const uint64_t *jumps, size_t jumps_len, const double *rates,
    size_t rates_len, const uint64_t *t_words, size_t t_words_len, const double *t_numbers,
    size_t t_numbers_len, const uint64_t *words, size_t words_len, size_t len, uint64_t *h_index,
    size_t h_index_len, uint64_t *j_index, size_t j_index_len, uint64_t *mask, size_t mask_len,
    uint64_t *heads, size_t heads_len, uint64_t *nexts, size_t nexts_len, uint64_t *work_words,
    size_t work_words_len, double *work_sums, size_t work_sums_len, uint32_t *stage_rows,
    size_t stage_rows_len, uint32_t *stage_columns, size_t stage_columns_len,
    double *stage_values, size_t stage_values_len, uint8_t *text, size_t text_len);

/* Where a row's entries stand in the columns and values of a matrix by rows: from start to before
 * end. Where the status is a refusal, both are 0. */
typedef struct {
    pebblelinen_status status;
    size_t start;
    size_t end;
} pebblelinen_row;

/* The places of a row of a matrix by rows, start and end from the offsets.
 *
 *   rows              the number of rows and of columns
 *   offsets, columns  the matrix; offsets of rows + 1 places
 *
 * Refusals, in this order:
 *
 *    8  (rows): more than 65,536 rows
 *    9  (rows + 1, places of offsets) where the two are not equal
 *    7  (place): in offsets, then in columns, as pebblelinen_dot has it; (row) where row is not below
 *       rows
 *
 * All offsets and columns are tested in every call. Where they were accepted once and stay as they
 * are, row r stands from offsets[r] to before offsets[r + 1]. */
pebblelinen_row pebblelinen_csr_row(size_t rows, const uint64_t *offsets, size_t offsets_len,
                                    const uint32_t *columns, size_t columns_len, size_t row);

/* The product of a matrix by rows with a vector. The sum of row r starts at 0 and adds, entry by
 * entry, value x input[column], but for inputs that are 0 (of either sign), which are skipped. Where
 * overwrite holds, output[r] becomes the sum, else output[r] + sum.
 *
 *   rows                      the number of rows and of columns
 *   offsets, columns, values  the matrix; offsets of rows + 1 places
 *   input, output             rows numbers each
 *   work                      a work table of at least rows numbers
 *
 * Refusals, in this order:
 *
 *    8  (rows): more than 65,536 rows
 *    9  (rows + 1, places of offsets), (places of columns, of values), (rows, places of input), (rows,
 *       places of output) where the two are not equal; (rows, places lent) where work is shorter
 *    7  (place): in offsets, the first that is not 0 at place 0, that is below the one before it, or,
 *       at the last place, that is not the number of entries; then in columns, the first that is not
 *       above the one before it in its row, or not below rows; then in values, in input and, where
 *       output is added to, in output, the first that is infinite or NaN
 *   14  (row): the first row whose value to be stored is not finite
 *
 * A refusal changes nothing that was lent, but for 14, after which work is all zero, as it is where
 * the call was accepted. */
pebblelinen_status pebblelinen_dot(size_t rows, const uint64_t *offsets, size_t offsets_len,
                                   const uint32_t *columns, size_t columns_len,
                                   const double *values, size_t values_len, const double *input,
                                   size_t input_len, bool overwrite, double *output,
                                   size_t output_len, double *work, size_t work_len);

/* ---- Norm and degree ---- */

/* The 1-norm of the generator less mu times the identity, as columns sum in f64, and mu, the mean of
 * its diagonal. Where the status is a refusal, both are 0. */
typedef struct {
    pebblelinen_status status;
    double mu;
    double norm;
} pebblelinen_normed;

/* The norm of the generator over a basis: the largest of the columns' norms, raw - |diag| +
 * |diag - mu|, where raw sums from 0, in word order, the magnitudes of those terms of the action on the
 * column's word whose words are in the basis, each term once, and diag is the number that the action
 * lists for the word itself. An empty basis has mu 0 and norm 0. Words may come again: a term counts
 * once all the same, and mu divides by len.
 *
 * The tables are those of pebblelinen_generator; raws and diags are work tables of a number for each
 * word. Refusals, in this order:
 *
 *       those of pebblelinen_test_model for the model
 *    8  (count): more than 65,536 words
 *    9  (len, places lent) for words; then (needed, lent) for h_index, j_index, mask, heads, nexts, raws,
 *       diags
 *   11  (position): the first word with a letter at or above the register
 *   13  (1, places) at the first word whose action touches more words than table 1 has places
 *
 * A refusal changes nothing that was lent, but for 13, after which the work tables are all zero, as
 * they are where the call was accepted. */
pebblelinen_normed pebblelinen_norm(
    pebblelinen_model model, const uint64_t *h_words, size_t h_words_len, const double *h_coeffs,
    size_t h_coeffs_len, const uint64_t *jumps, size_t jumps_len, const double *rates,
    size_t rates_len, const uint64_t *t_words, size_t t_words_len, const double *t_numbers,
    size_t t_numbers_len, const uint64_t *words, size_t words_len, size_t len, uint64_t *h_index,
    size_t h_index_len, uint64_t *j_index, size_t j_index_len, uint64_t *mask, size_t mask_len,
    uint64_t *heads, size_t heads_len, uint64_t *nexts, size_t nexts_len, uint64_t *work_words,
    size_t work_words_len, double *work_sums, size_t work_sums_len, double *raws, size_t raws_len,
    double *diags, size_t diags_len);

/* The most products with the matrix, m x s, that a degree may ask for. */
#define PEBBLELINEN_MAX_PRODUCTS 1048576

/* The degree of a Taylor polynomial, and into how many steps the exponential is cut. Where the status
 * is a refusal, both are 0. */
typedef struct {
    pebblelinen_status status;
    uint32_t m;
    uint32_t s;
} pebblelinen_degree;

/* The degree for a norm t: of the pairs m, s with s = t / threshold of m, rounded up, at least 1 and
 * at most 4294967295, the first of least m x s, over the thresholds of Al-Mohy and Higham (2011) for
 * double precision, or, where drop_tol is 1e-4 or above, over those for the tolerance 1e-6. (1, 1)
 * where t is 0, below, or NaN.
 * Refusals: 16 (m, s) where this pair has m x s above 1,048,576; no other pair is looked for. An
 * infinite t is refused so, with (1, 4294967295). */
pebblelinen_degree pebblelinen_select_ms(double t, double drop_tol);

/* mu, norm and degree for a step dt: t is |dt| x norm. Where the status is a refusal, all are 0. */
typedef struct {
    pebblelinen_status status;
    double mu;
    double norm;
    uint32_t m;
    uint32_t s;
} pebblelinen_partition;

/* The norm of the generator over a basis, and the degree for a step dt at drop_tol. An empty basis has
 * degree (1, 1). Tables and refusals are those of pebblelinen_norm, with 7 (0) after 11 for a dt, then
 * for a drop_tol, that is infinite or NaN; and 16 (m, s) after 13, as in pebblelinen_select_ms, after
 * which the work tables are all zero too. */
pebblelinen_partition pebblelinen_expm_degree(
    pebblelinen_model model, const uint64_t *h_words, size_t h_words_len, const double *h_coeffs,
    size_t h_coeffs_len, const uint64_t *jumps, size_t jumps_len, const double *rates,
    size_t rates_len, const uint64_t *t_words, size_t t_words_len, const double *t_numbers,
    size_t t_numbers_len, const uint64_t *words, size_t words_len, size_t len, double dt,
    double drop_tol, uint64_t *h_index, size_t h_index_len, uint64_t *j_index, size_t j_index_len,
    uint64_t *mask, size_t mask_len, uint64_t *heads, size_t heads_len, uint64_t *nexts,
    size_t nexts_len, uint64_t *work_words, size_t work_words_len, double *work_sums,
    size_t work_sums_len, double *raws, size_t raws_len, double *diags, size_t diags_len);

/* ---- Evolution ---- */

/* The number of products with the matrix that an evolution took. Where the status is a refusal, it is
 * 0. */
typedef struct {
    pebblelinen_status status;
    size_t products;
} pebblelinen_evolved;

/* The lengths of the work tables of an evolution. */
typedef struct {
    size_t h_index;
    size_t j_index;
    size_t mask;
    size_t heads;
    size_t nexts;
    size_t work_words;
    size_t work_sums;
    size_t stage_rows;
    size_t stage_columns;
    size_t stage_values;
    size_t offsets;
    size_t columns;
    size_t values;
    size_t v;
    size_t b;
    size_t product;
} pebblelinen_evolution_lengths;

/* Lengths that are enough for a register of so many qubits, a basis of so many words, actions that
 * touch at most so many words, and so many entries, as for pebblelinen_generator_sizes. Longer tables
 * will do. */
pebblelinen_evolution_lengths pebblelinen_evolution_sizes(size_t qubits, size_t words,
                                                          size_t touched, size_t entries);

/* The coefficients of a basis after one time step dt, by the generator over the basis.
 *
 * The matrix is that of pebblelinen_build_csr for the same model and basis. Its norm is the largest raw
 * of any column, raw being the sum, from 0 and in word order, of the magnitudes of those terms of the
 * action on the column's word whose word is in the basis. (m, s) is the degree for |dt| x norm, of
 * pebblelinen_select_ms at drop_tol. Then s stages are run over the numbers v, which begin as the
 * coefficients. In a stage b begins as v, and for j from 1 to m
 *
 *   b becomes (product of b) x (dt / (s j)), where s j is a whole number,
 *   v becomes v + b, number by number.
 *
 * The product is that of pebblelinen_dot where it overwrites. Every operation is rounded once, in that
 * order, and nothing is left out: neither where a product is 0 already, nor where dt or the norm is 0.
 * The answer is the number of products, m x s. Only an empty basis departs: it takes no product.
 *
 *   words, coeffs, len   the basis: its first len places, 8 lanes and 1 number a word; only read
 *   h_index .. stage_values   work tables, as for pebblelinen_generator
 *   offsets, columns, values  work tables: the matrix; offsets of len + 1 places where len is not 0
 *   v, b, product        work tables: a number for each word each
 *   out                  a number for each word: the evolved coefficients, where the call was accepted.
 *                        Places past len stay as they were
 *   table 3              entries: stage_rows, stage_columns, stage_values, columns, values
 *
 * Refusals, in this order:
 *
 *       those of pebblelinen_test_model for the model
 *    8  (count): more than 65,536 words
 *    9  (len, places lent) for words, then for coeffs; then (needed, lent) for h_index, j_index, mask,
 *       heads, nexts, offsets (len + 1), v, b, product, out; no words need no place
 *   11  (position): the first word with a letter at or above the register
 *    7  (position): the first coefficient that is infinite or NaN; then (len) for such a dt, then for
 *       such a drop_tol
 *   12  (position): the first position whose word stands at a smaller one too
 *   13  (1, places) or (3, places), column by column, as for pebblelinen_generator
 *   16  (m, s): m x s is above 1,048,576, as it is where |dt| x norm is infinite
 *   14  (row): a number that is not finite. At each j of a stage the whole product is looked through
 *       first, then b, then v; the row is the first such row there
 *
 * A refusal changes nothing that was lent, but for 13, 14 and 16, after which the work tables are all
 * zero. Where the call was accepted they are all zero, to their ends; what they held before makes no
 * difference to the answer. For heads and nexts see pebblelinen_generator. */
pebblelinen_evolved pebblelinen_evolve(
    pebblelinen_model model, const uint64_t *h_words, size_t h_words_len, const double *h_coeffs,
    size_t h_coeffs_len, const uint64_t *jumps, size_t jumps_len, const double *rates,
    size_t rates_len, const uint64_t *t_words, size_t t_words_len, const double *t_numbers,
    size_t t_numbers_len, const uint64_t *words, size_t words_len, const double *coeffs,
    size_t coeffs_len, size_t len, double dt, double drop_tol, uint64_t *h_index,
    size_t h_index_len, uint64_t *j_index, size_t j_index_len, uint64_t *mask, size_t mask_len,
    uint64_t *heads, size_t heads_len, uint64_t *nexts, size_t nexts_len, uint64_t *work_words,
    size_t work_words_len, double *work_sums, size_t work_sums_len, uint32_t *stage_rows,
    size_t stage_rows_len, uint32_t *stage_columns, size_t stage_columns_len,
    double *stage_values, size_t stage_values_len, uint64_t *offsets, size_t offsets_len,
    uint32_t *columns, size_t columns_len, double *values, size_t values_len, double *v,
    size_t v_len, double *b, size_t b_len, double *product, size_t product_len, double *out,
    size_t out_len);

/* ---- The step ---- */

/* How many entries the basis has after a step, and how many products with a matrix it took. Where the
 * status is a refusal, both are 0. */
typedef struct {
    pebblelinen_status status;
    size_t entries;
    size_t products;
} pebblelinen_stepped;

/* The lengths of the work tables of a step. */
typedef struct {
    size_t h_index;
    size_t j_index;
    size_t mask;
    size_t work_words;
    size_t work_sums;
    size_t order;
    size_t heads;
    size_t nexts;
    size_t cand_words;
    size_t cand_sums;
    size_t place_order;
    size_t place_work;
    size_t list_words;
    size_t list_values;
    size_t stage_rows;
    size_t stage_columns;
    size_t columns;
    size_t values;
    size_t grown_words;
    size_t start;
    size_t evolved;
} pebblelinen_step_lengths;

/* Lengths that are enough for a register of so many qubits, a basis that grows to at most so many words,
 * so many protected words, actions that touch at most so many words, so many candidates at a time, and
 * generators of so many entries. Longer tables will do. */
pebblelinen_step_lengths pebblelinen_step_sizes(size_t qubits, size_t words, size_t protected_words,
                                                size_t touched, size_t candidates, size_t entries);

/* A predictor-corrector step dt of a basis, which may get other words by it:
 *
 *   1. leakage out of the basis, as pebblelinen_leakage_with_prune lists it, room or not;
 *   2. admission of what it listed, each word with coefficient 0, by pebblelinen_add_leakage_capped
 *      against admit_basis;
 *   3. the predictor: the coefficients given, with those zeros, evolved by pebblelinen_evolve;
 *   4. where the basis has fewer words than admit_basis, leakage out of it at the predicted
 *      coefficients, and admission of what that lists;
 *   5. the corrector, where 4 admitted a word: the coefficients given, with zeros for the words of 2
 *      and 4, evolved. Else the predicted coefficients stand;
 *   6. pebblelinen_prune_basis by drop_tol, then pebblelinen_cap_basis by max_basis.
 *
 * admit_basis and tau_add are those of limits, raised or filled in as there. The answer is the number of
 * entries of the basis then, and of products of predictor and corrector. All parts work on a copy, and
 * what they leave is written over words and coeffs last; past it stands zero where prune or cap acted
 * (drop_tol is above 0, or the copy had more than max_basis words), and what stood there where not.
 *
 *   words, coeffs, len   the basis: its first len places, 8 lanes and 1 number a word
 *   protected_words      the protected words; its length is in lanes
 *   h_index .. place_work     work tables, as for pebblelinen_leakage_with_prune
 *   list_words, list_values   work tables: what a leakage lists
 *   stage_rows .. values  work tables, as for pebblelinen_evolve, which finds its other tables among
 *                        those above: offsets in place_order, stage_values and then v in cand_sums, b
 *                        in list_values, product in work_sums
 *   grown_words, start, evolved   work tables: the copy; its words, the coefficients that evolutions
 *                        start from, and those that they end with
 *   table 1              words that one action touches: work_words, work_sums
 *   table 2              candidates: cand_words, cand_sums, place_order, place_work
 *   table 3              what a leakage lists: list_words, list_values. What admission appends to: a place
 *                        in words, coeffs, grown_words, start, evolved, order, cand_sums, list_values
 *                        and work_sums for each word that the copy grows to, one more in place_order,
 *                        and in heads and nexts as many more as there are protected words. Entries:
 *                        stage_rows, stage_columns, cand_sums, columns, values
 *
 * Refusals, in this order:
 *
 *       those of pebblelinen_test_model for the model
 *    8  (count): more than 65,536 entries, then protected words; then (limit) for max_basis and for an
 *       admit_basis that is given
 *    9  (len, places lent) for words, then for coeffs; (lanes of whole words, lanes) where the last
 *       protected word is cut off; then (needed, lent) for h_index, j_index, mask, order, heads, nexts,
 *       place_order (len + 1), cand_sums, list_values, work_sums, grown_words, start, evolved; no words
 *       need no place
 *   11  (position): the first basis word with a letter at or above the register; then, with its place
 *       in the list, the first such protected word
 *    7  (position): the first coefficient that is infinite or NaN; then (len) for such a dt, drop_tol or
 *       tau_add
 *   12  (position): the first position whose word stands at a smaller one too
 *       then part by part: 13 (1, places), 13 (2, places), 14 and 13 (3, places) of a leakage, 13
 *       (3, places) of an admission, 13 (1, places), 13 (3, places), 16 and 14 of an evolution
 *
 * A refusal changes nothing that was lent, but for 13, 14 and 16, after which the work tables are all
 * zero. Where the call was accepted they are all zero, to their ends; what they held before makes no
 * difference to the answer. For heads and nexts see pebblelinen_generator. */
pebblelinen_stepped pebblelinen_step(
    pebblelinen_model model, const uint64_t *h_words, size_t h_words_len, const double *h_coeffs,
    size_t h_coeffs_len, const uint64_t *jumps, size_t jumps_len, const double *rates,
    size_t rates_len, const uint64_t *t_words, size_t t_words_len, const double *t_numbers,
    size_t t_numbers_len, uint64_t *words, size_t words_len, double *coeffs, size_t coeffs_len,
    size_t len, const uint64_t *protected_words, size_t protected_words_len,
    pebblelinen_limits limits, double dt, double drop_tol, uint64_t *h_index, size_t h_index_len,
    uint64_t *j_index, size_t j_index_len, uint64_t *mask, size_t mask_len, uint64_t *work_words,
    size_t work_words_len, double *work_sums, size_t work_sums_len, uint64_t *order,
    size_t order_len, uint64_t *heads, size_t heads_len, uint64_t *nexts, size_t nexts_len,
    uint64_t *cand_words, size_t cand_words_len, double *cand_sums, size_t cand_sums_len,
    uint64_t *place_order, size_t place_order_len, uint64_t *place_work, size_t place_work_len,
    uint64_t *list_words, size_t list_words_len, double *list_values, size_t list_values_len,
    uint32_t *stage_rows, size_t stage_rows_len, uint32_t *stage_columns, size_t stage_columns_len,
    uint32_t *columns, size_t columns_len, double *values, size_t values_len, uint64_t *grown_words,
    size_t grown_words_len, double *start, size_t start_len, double *evolved, size_t evolved_len);

#ifdef __cplusplus
}
#endif

#endif
