/* SPDX-FileCopyrightText: 2026 The PPVM Authors
 * SPDX-License-Identifier: Apache-2.0
 *
 * Damaged calls across the C boundary: sound arguments, of which some are then made too short, too long,
 * too large or senseless. Whatever is passed, a call must end, touch nothing but the slices that it was lent,
 * and leave them as include/pebblelinen.h says: all of them on a refusal, the work tables zero after
 * acceptance and after refusals 13 to 16, and what it only reads always.
 *
 *   fuzz CALLS SEED [pages]
 *
 * Run under valgrind, slices are blocks of their exact length. With `pages` each ends at a page that cannot
 * be touched, which is quick and needs no valgrind. WITH_GENERATOR adds generator, CSR, Matrix Market, product,
 * norm, degree, evolution and step.
 */
#include <math.h>
#include <stdio.h>
#include <stdlib.h>
#include <string.h>
#include <sys/mman.h>
#include <unistd.h>

#include "pebblelinen.h"

/* ---- chance ---- */

static uint64_t state;

static uint64_t bits(void) {
    state ^= state << 13;
    state ^= state >> 7;
    state ^= state << 17;
    return state * 0x2545F4914F6CDD1Dull;
}

static size_t below(size_t most) { return most ? (size_t)((bits() >> 11) % most) : 0; }
static bool chance(unsigned percent) { return below(100) < percent; }

/* Counts and numbers that are at some limit, or beyond all. */
static uint64_t odd_count(void) {
    static const uint64_t odd[] = {0, 1, 2, 3, 4, 16, 17, 63, 64, 65, 127, 128, 129, 255, 256, 257, 4096, 4097,
        65535, 65536, 65537, 1ull << 31, 1ull << 32, 1ull << 61, 1ull << 62, 1ull << 63, UINT64_MAX,
        UINT64_MAX - 1, UINT64_MAX / 4, UINT64_MAX / 8 + 1};
    return chance(20) ? bits() : odd[below(sizeof odd / sizeof *odd)];
}

static double odd_number(void) {
    static const double odd[] = {0.0, -0.0, 1.0, -1.0, 0.5, 1e-14, 1e-300, 5e-324, 1.5e308, -1.5e308, 1e60,
        1e61, 1e-60, 1e-61, 1e187, INFINITY, -INFINITY, NAN, 1e16};
    if (chance(30)) {
        uint64_t any = bits();
        double number;
        memcpy(&number, &any, 8);
        return number;
    }
    return odd[below(sizeof odd / sizeof *odd)];
}

/* ---- slices ---- */

typedef enum { READ, CHANGED, WORK } Role;

typedef struct {
    void *p;
    size_t len; /* in elements */
    size_t each;
    Role role;
    void *before;
    void *block;
    size_t block_len;
} Slice;

#define MOST 48
static Slice *lent[MOST];
static size_t lent_count;
static bool pages;

static void *allocate(Slice *s, size_t length) {
    if (!pages) return s->block = malloc(length ? length : 1);
    size_t page = (size_t)sysconf(_SC_PAGESIZE);
    size_t whole = (length + page - 1) / page * page + 2 * page;
    s->block = mmap(NULL, whole, PROT_READ | PROT_WRITE, MAP_PRIVATE | MAP_ANONYMOUS, -1, 0);
    s->block_len = whole;
    if (s->block == MAP_FAILED || mprotect(s->block, page, PROT_NONE) ||
        mprotect((char *)s->block + whole - page, page, PROT_NONE)) {
        perror("mmap");
        exit(2);
    }
    return (char *)s->block + whole - page - length;
}

static void release(Slice *s) {
    if (pages) munmap(s->block, s->block_len);
    else free(s->block);
    free(s->before);
    s->before = NULL;
}

static Slice make(size_t len, size_t each, Role role) {
    Slice s = {.len = len, .each = each, .role = role};
    s.p = allocate(&s, len * each);
    memset(s.p, 0, len * each);
    return s;
}

static void resize(Slice *s, size_t len) {
    Slice other = make(len, s->each, s->role);
    memcpy(other.p, s->p, (len < s->len ? len : s->len) * s->each);
    release(s);
    *s = other;
}

static void lend(Slice *s) { lent[lent_count++] = s; }

/* ---- damage ---- */

static void damage_slice(Slice *s) {
    if (chance(50)) {
        size_t lengths[] = {0, s->len ? s->len - 1 : 0, s->len + 1, s->len / 2, below(2 * s->len + 8), s->len + 64};
        resize(s, lengths[below(6)]);
        return;
    }
    for (size_t times = 1 + below(4); times && s->len; times--) {
        size_t place = below(s->len);
        if (s->each == 8) {
            uint64_t number = odd_count();
            if (chance(50)) {
                double odd = odd_number();
                memcpy(&number, &odd, 8);
            }
            if (chance(30)) number = below(12);
            memcpy((char *)s->p + 8 * place, &number, 8);
        } else if (s->each == 4) {
            uint32_t number = chance(50) ? (uint32_t)below(9) : (uint32_t)odd_count();
            memcpy((char *)s->p + 4 * place, &number, 4);
        } else {
            ((uint8_t *)s->p)[place] = chance(40) ? (uint8_t)bits() : (uint8_t)"IXYZ_x?"[below(7)];
        }
    }
}

static void damage(size_t **counts, size_t count_count, double **numbers, size_t number_count) {
    for (size_t times = 1 + below(3); times; times--) {
        size_t which = below(lent_count + count_count + number_count);
        if (which < lent_count) damage_slice(lent[which]);
        else if (which < lent_count + count_count) *counts[which - lent_count] = odd_count();
        else *numbers[which - lent_count - count_count] = odd_number();
    }
    /* Work tables may hold anything; what is written may too. */
    for (size_t i = 0; i < lent_count; i++)
        if (lent[i]->role != READ && chance(10)) damage_slice(lent[i]);
    for (size_t i = 0; i < lent_count; i++) {
        Slice *s = lent[i];
        s->before = malloc(s->len * s->each + 1);
        memcpy(s->before, s->p, s->len * s->each);
    }
}

/* ---- what must hold afterwards ---- */

static const char *called;
enum { LAST_REFUSAL = 16 };
static uint64_t calls_made, by_refusal[LAST_REFUSAL + 1];

static void wrong(const char *what, uint64_t refusal) {
    fprintf(stderr, "%s: %s (refusal %llu, call %llu)\n", called, what, (unsigned long long)refusal,
            (unsigned long long)calls_made);
    exit(1);
}

static bool unchanged(const Slice *s) { return !memcmp(s->p, s->before, s->len * s->each); }

static bool zero(const Slice *s) {
    const char *bytes = s->p;
    for (size_t i = 0; i < s->len * s->each; i++)
        if (bytes[i]) return false;
    return true;
}

static void check(pebblelinen_status status) {
    uint64_t refusal = status.refusal;
    if (refusal > LAST_REFUSAL) wrong("no such refusal", refusal);
    bool cleared = refusal == 0 || refusal >= 13;
    for (size_t i = 0; i < lent_count; i++) {
        Slice *s = lent[i];
        if (s->role == WORK && cleared) {
            if (!zero(s)) wrong("a work table is not zero", refusal);
        } else if ((s->role == READ || refusal) && !unchanged(s)) {
            wrong("what was lent has changed", refusal);
        }
        release(s);
    }
    by_refusal[refusal]++;
    lent_count = 0;
}

/* ---- sound arguments ---- */

#define P(s) (s).p, (s).len

/* The lanes of a word in a table: those of x, then those of z. */
enum { LANES = PEBBLELINEN_MAX_QUBITS / 64, WORD = 2 * LANES };

static size_t some_qubits(void) {
    static const size_t wide[] = {70, 128, 129, 192, 256};
    return chance(10) ? wide[below(5)] : below(7);
}

static void put_word(uint64_t *lanes, size_t n) {
    memset(lanes, 0, WORD * sizeof *lanes);
    for (size_t times = below(4); times && n; times--) {
        size_t q = below(n);
        if (chance(66)) lanes[q / 64] |= 1ull << q % 64;
        if (chance(66)) lanes[LANES + q / 64] |= 1ull << q % 64;
    }
}

static Slice some_words(size_t count, size_t n, Role role) {
    Slice s = make(WORD * count, 8, role);
    for (size_t i = 0; i < count; i++) put_word((uint64_t *)s.p + WORD * i, n);
    return s;
}

static double some_number(void) { return (double)(int)below(17) / 4 - 2; }

static Slice some_numbers(size_t count, Role role) {
    Slice s = make(count, 8, role);
    for (size_t i = 0; i < count; i++) ((double *)s.p)[i] = some_number();
    return s;
}

static pebblelinen_word some_word(size_t n) {
    uint64_t lanes[WORD];
    put_word(lanes, n);
    if (chance(10)) lanes[below(WORD)] = bits();
    pebblelinen_word word;
    memcpy(word.x, lanes, sizeof word.x);
    memcpy(word.z, lanes + LANES, sizeof word.z);
    return word;
}

/* The texts, counts and numbers of operators; now and then one has no terms, or too many. */
typedef struct {
    Slice texts, lengths, counts, numbers;
} Operators;

static Operators some_operators(size_t n, size_t reals, size_t operators, bool sound) {
    size_t counts[8], terms = 0;
    for (size_t i = 0; i < operators; i++)
        terms += counts[i] = sound || chance(90) ? 1 + below(3) : below(2) * 17;
    size_t total = reals + terms;
    Operators o = {make(total * n, 1, READ), make(total, 8, READ), make(operators, 8, READ),
                   some_numbers(2 * terms, READ)};
    for (size_t i = 0; i < total * n; i++) ((char *)o.texts.p)[i] = "IIXYZ"[below(5)];
    for (size_t i = 0; i < total; i++) ((uint64_t *)o.lengths.p)[i] = n;
    for (size_t i = 0; i < operators; i++) ((uint64_t *)o.counts.p)[i] = counts[i];
    return o;
}

/* The six tables of a model. */
typedef struct {
    pebblelinen_model model;
    Slice h_words, h_coeffs, jumps, rates, t_words, t_numbers;
} Tables;

static Tables tables_of(pebblelinen_sizes sizes, Role role) {
    Tables t = {.h_words = make(sizes.h_words, 8, role), .h_coeffs = make(sizes.h_coeffs, 8, role),
                .jumps = make(sizes.jumps, 8, role), .rates = make(sizes.rates, 8, role),
                .t_words = make(sizes.t_words, 8, role), .t_numbers = make(sizes.t_numbers, 8, role)};
    return t;
}

static void lend_tables(Tables *t) {
    Slice *slices[] = {&t->h_words, &t->h_coeffs, &t->jumps, &t->rates, &t->t_words, &t->t_numbers};
    for (size_t i = 0; i < 6; i++) lend(slices[i]);
}

#define MODEL(t) (t).model, P((t).h_words), P((t).h_coeffs), P((t).jumps), P((t).rates), P((t).t_words), P((t).t_numbers)
#define MODEL_COUNTS(t) &(t).model.qubits, &(t).model.hamiltonian, &(t).model.jumps, &(t).model.terms

/* A model that was built, with room in its tables or none. */
static Tables some_model(size_t n, Role role) {
    size_t reals = below(4), operators = below(4);
    Operators o = some_operators(n, reals, operators, true);
    Slice h = some_numbers(reals, READ), rates = some_numbers(operators, READ);
    for (size_t i = 0; i < operators; i++) ((double *)rates.p)[i] = fabs(((double *)rates.p)[i]);
    pebblelinen_sizes sizes = pebblelinen_model_sizes(reals + below(2), operators + below(8), 3);
    Tables t = tables_of(sizes, role);
    Slice words = make(sizes.work_words, 8, WORK), numbers = make(sizes.work_numbers, 8, WORK);
    pebblelinen_built built = pebblelinen_build_model(
        P(o.texts), P(o.lengths), P(h), P(rates), P(o.counts), P(o.numbers), n, P(t.h_words), P(t.h_coeffs),
        P(t.jumps), P(t.rates), P(t.t_words), P(t.t_numbers), P(words), P(numbers));
    if (built.status.refusal) wrong("a sound model was refused", built.status.refusal);
    t.model = built.model;
    Slice *done[] = {&o.texts, &o.lengths, &o.counts, &o.numbers, &h, &rates, &words, &numbers};
    for (size_t i = 0; i < 8; i++) release(done[i]);
    return t;
}

/* ---- calls ---- */

static void call_text(void) {
    size_t n = some_qubits();
    Slice text = make(n, 1, READ);
    for (size_t i = 0; i < n; i++) ((char *)text.p)[i] = "IXYZ"[below(4)];
    lend(&text);
    damage((size_t *[]){&n}, 1, NULL, 0);
    check(pebblelinen_parse_pauli_string(P(text), n).status);
}

static void call_codes(void) {
    size_t n = some_qubits();
    Slice codes = make(n, 1, READ);
    for (size_t i = 0; i < n; i++) ((uint8_t *)codes.p)[i] = (uint8_t)below(chance(10) ? 256 : 4);
    lend(&codes);
    damage(NULL, 0, NULL, 0);
    check(pebblelinen_word_from_codes(P(codes)).status);
}

static void call_write_codes(void) {
    size_t n = some_qubits();
    pebblelinen_word word = some_word(n);
    Slice out = make(n, 1, CHANGED);
    lend(&out);
    damage((size_t *[]){&n}, 1, NULL, 0);
    check(pebblelinen_codes_from_word(word, n, P(out)));
}

static void call_algebra(void) {
    pebblelinen_word p = some_word(PEBBLELINEN_MAX_QUBITS), q = some_word(PEBBLELINEN_MAX_QUBITS);
    pebblelinen_phased r = pebblelinen_pauli_mul(p, q);
    pebblelinen_commutator c = pebblelinen_comm_product(p, q);
    bool odd = r.phase & 1;
    if (r.phase > 3 || odd != pebblelinen_anti_commutes(p, q) || odd != (c.eps != 0) ||
        !pebblelinen_same_word(r.word, c.word) ||
        pebblelinen_compare_words(p, q) != -pebblelinen_compare_words(q, p) ||
        (!pebblelinen_shares_qubit(p, q) && odd))
        wrong("words do not agree with each other", 0);
    (void)pebblelinen_model_sizes(odd_count(), odd_count(), odd_count());
    (void)pebblelinen_matrix_sizes(odd_count(), odd_count());
    (void)pebblelinen_basis_sizes(odd_count(), odd_count(), odd_count());
    (void)pebblelinen_leakage_sizes(odd_count(), odd_count(), odd_count(), odd_count(), odd_count());
    (void)pebblelinen_matrix_market_text(odd_count());
    (void)pebblelinen_evolution_sizes(odd_count(), odd_count(), odd_count(), odd_count());
    pebblelinen_fitting fitting = pebblelinen_fits_register(p, odd_count());
    if (fitting.status.refusal && fitting.fits) wrong("a word fits a register that was refused", 0);
    check(fitting.status);
}

static void call_build(void) {
    size_t n = some_qubits(), reals = below(4), operators = below(4);
    Operators o = some_operators(n, reals, operators, false);
    Slice h = some_numbers(reals, READ), rates = some_numbers(operators, READ);
    pebblelinen_sizes sizes = pebblelinen_model_sizes(reals, operators, 3);
    Tables t = tables_of(sizes, CHANGED);
    Slice words = make(sizes.work_words, 8, WORK), numbers = make(sizes.work_numbers, 8, WORK);
    lend(&o.texts), lend(&o.lengths), lend(&h), lend(&rates), lend(&o.counts), lend(&o.numbers);
    lend_tables(&t), lend(&words), lend(&numbers);
    damage((size_t *[]){&n}, 1, NULL, 0);
    check(pebblelinen_build_model(P(o.texts), P(o.lengths), P(h), P(rates), P(o.counts), P(o.numbers), n,
                                  P(t.h_words), P(t.h_coeffs), P(t.jumps), P(t.rates), P(t.t_words),
                                  P(t.t_numbers), P(words), P(numbers))
              .status);
}

static void call_matrix(void) {
    size_t n = some_qubits(), operators = below(4);
    Tables t = some_model(n, CHANGED);
    t.h_words.role = t.h_coeffs.role = READ;
    Operators o = some_operators(n, 0, operators, false);
    Slice k = make(2 * operators * operators, 8, READ);
    double *entries = k.p;
    for (size_t i = 0; i < operators; i++)
        for (size_t j = i; j < operators; j++) {
            double re = some_number(), im = i == j ? 0 : some_number();
            entries[2 * (i * operators + j)] = entries[2 * (j * operators + i)] = re;
            entries[2 * (i * operators + j) + 1] = im;
            entries[2 * (j * operators + i) + 1] = chance(5) ? 1 : -im;
        }
    pebblelinen_sizes more = pebblelinen_matrix_sizes(operators, 3);
    resize(&t.jumps, t.jumps.len + more.jumps), resize(&t.rates, t.rates.len + more.rates);
    resize(&t.t_words, t.t_words.len + more.t_words), resize(&t.t_numbers, t.t_numbers.len + more.t_numbers);
    Slice words = make(more.work_words, 8, WORK), numbers = make(more.work_numbers, 8, WORK);
    lend(&o.texts), lend(&o.lengths), lend(&o.counts), lend(&o.numbers), lend(&k);
    lend_tables(&t), lend(&words), lend(&numbers);
    damage((size_t *[]){MODEL_COUNTS(t)}, 4, NULL, 0);
    check(pebblelinen_add_kossakowski(t.model, P(o.texts), P(o.lengths), P(o.counts), P(o.numbers), P(k),
                                      P(t.h_words), P(t.h_coeffs), P(t.jumps), P(t.rates), P(t.t_words),
                                      P(t.t_numbers), P(words), P(numbers))
              .status);
}

static void call_test(void) {
    Tables t = some_model(some_qubits(), READ);
    lend_tables(&t);
    damage((size_t *[]){MODEL_COUNTS(t)}, 4, NULL, 0);
    check(pebblelinen_test_model(MODEL(t)));
}

static void call_action(void) {
    size_t n = some_qubits(), places = below(40);
    Tables t = some_model(n, READ);
    Slice words = make(WORD * places, 8, WORK), sums = make(2 * places, 8, WORK);
    Slice out_words = make(WORD * places, 8, CHANGED), out_values = make(places, 8, CHANGED);
    lend_tables(&t), lend(&words), lend(&sums), lend(&out_words), lend(&out_values);
    pebblelinen_word p = some_word(n);
    damage((size_t *[]){MODEL_COUNTS(t)}, 4, NULL, 0);
    check(pebblelinen_compute_action_terms(MODEL(t), p, P(words), P(sums), P(out_words), P(out_values)).status);
}

static void call_count(void) {
    size_t n = some_qubits(), places = 8 + below(32);
    Tables t = some_model(n, READ);
    Slice list = some_words(below(12), n, READ);
    Slice h_index = make(64 * n, 8, WORK), j_index = make(64 * n, 8, WORK), mask = make(64, 8, WORK);
    Slice words = make(WORD * places, 8, WORK), sums = make(2 * places, 8, WORK);
    lend_tables(&t), lend(&list), lend(&h_index), lend(&j_index), lend(&mask), lend(&words), lend(&sums);
    damage((size_t *[]){MODEL_COUNTS(t)}, 4, NULL, 0);
    check(pebblelinen_count_action_terms(MODEL(t), P(list), P(h_index), P(j_index), P(mask), P(words), P(sums)).status);
}

static void call_shorten(bool capping) {
    size_t n = some_qubits(), len = below(12), room = below(3), limit = below(14);
    double drop_tol = some_number();
    Slice words = some_words(len + room, n, CHANGED), coeffs = some_numbers(len + room, CHANGED);
    Slice fixed_words = some_words(below(4), n, READ);
    pebblelinen_basis_work sizes = pebblelinen_basis_sizes(len, fixed_words.len / WORD, 0);
    Slice order = make(sizes.order, 8, WORK), work = make(sizes.work, 8, WORK);
    Slice fixed = make(sizes.fixed, 8, WORK), kept = make(sizes.kept, 8, WORK);
    lend(&words), lend(&coeffs), lend(&fixed_words), lend(&order), lend(&work), lend(&fixed), lend(&kept);
    damage((size_t *[]){&n, &len, &limit}, 3, (double *[]){&drop_tol}, 1);
    check(capping ? pebblelinen_cap_basis(n, P(words), P(coeffs), len, P(fixed_words), limit, P(order), P(work),
                                          P(fixed), P(kept))
                        .status
                  : pebblelinen_prune_basis(n, P(words), P(coeffs), len, P(fixed_words), drop_tol, P(order),
                                            P(work), P(fixed), P(kept))
                        .status);
}

static void call_prune(void) { call_shorten(false); }
static void call_cap(void) { call_shorten(true); }

static void call_admit(void) {
    size_t n = some_qubits(), len = below(12), listed = below(8), limit = below(24);
    Slice words = some_words(len + below(10), n, CHANGED), coeffs = some_numbers(words.len / WORD, CHANGED);
    Slice list = some_words(listed, n, READ), values = some_numbers(listed, READ);
    pebblelinen_basis_work sizes = pebblelinen_basis_sizes(0, 0, listed);
    Slice order = make(sizes.order, 8, WORK), work = make(sizes.work, 8, WORK), kept = make(sizes.kept, 8, WORK);
    lend(&words), lend(&coeffs), lend(&list), lend(&values), lend(&order), lend(&work), lend(&kept);
    damage((size_t *[]){&n, &len, &limit}, 3, NULL, 0);
    check(pebblelinen_add_leakage_capped(n, P(words), P(coeffs), len, P(list), P(values), limit, P(order), P(work), P(kept)).status);
}

static void call_leakage(void) {
    size_t n = some_qubits(), len = below(12), room = below(20);
    Tables t = some_model(n, READ);
    Slice words = some_words(len, n, READ), coeffs = some_numbers(len, READ);
    for (size_t i = 0; i < len && chance(10); i++) ((double *)coeffs.p)[i] = 1.5e308;
    Slice fixed_words = some_words(below(4), n, READ);
    pebblelinen_limits limits = {len + room, chance(30), below(40), chance(50), some_number()};
    pebblelinen_leakage_lengths sizes = pebblelinen_leakage_sizes(n, len, fixed_words.len / WORD, below(40), below(100));
    size_t lengths[12];
    memcpy(lengths, &sizes, sizeof lengths);
    Slice w[12];
    lend_tables(&t), lend(&words), lend(&coeffs), lend(&fixed_words);
    for (size_t i = 0; i < 12; i++) w[i] = make(lengths[i], 8, WORK), lend(&w[i]);
    Slice out_words = make(WORD * room, 8, CHANGED), out_values = make(room, 8, CHANGED);
    lend(&out_words), lend(&out_values);
    damage((size_t *[]){MODEL_COUNTS(t), &len, &limits.max_basis, &limits.admit_basis}, 7,
           (double *[]){&limits.tau_add}, 1);
    check(pebblelinen_leakage_with_prune(MODEL(t), P(words), P(coeffs), len, P(fixed_words), limits, P(w[0]),
                                         P(w[1]), P(w[2]), P(w[3]), P(w[4]), P(w[5]), P(w[6]), P(w[7]), P(w[8]),
                                         P(w[9]), P(w[10]), P(w[11]), P(out_words), P(out_values))
              .status);
}

#ifdef WITH_GENERATOR
typedef enum { ENTRIES, BY_ROWS, TEXT } Form;

static void generate(Form form) {
    bool few = form == TEXT && chance(50);
    size_t n = few ? 1 : some_qubits(), len = few ? 2 : below(12), entries = below(100);
    Tables t = some_model(n, READ);
    /* Now and then values that are too large to be written. */
    for (size_t i = 0; i < t.h_coeffs.len && form == TEXT && chance(30); i++) ((double *)t.h_coeffs.p)[i] *= 0x1p40;
    Slice words = some_words(len, n, READ);
    pebblelinen_generator_lengths sizes = pebblelinen_generator_sizes(n, len, below(40), entries);
    size_t lengths[10];
    memcpy(lengths, &sizes, sizeof lengths);
    Slice w[10];
    lend_tables(&t), lend(&words);
    for (size_t i = 0; i < 10; i++) w[i] = make(lengths[i], i == 7 || i == 8 ? 4 : 8, WORK), lend(&w[i]);
    Slice first = form == TEXT      ? make(chance(70) ? pebblelinen_matrix_market_text(entries) : below(200), 1, CHANGED)
                  : form == BY_ROWS ? make(len + 1, 8, CHANGED)
                                    : make(entries, 4, CHANGED);
    Slice columns = make(entries, 4, CHANGED), values = make(entries, 8, CHANGED);
    lend(&first), lend(&columns), lend(&values);
    damage((size_t *[]){MODEL_COUNTS(t), &len}, 5, NULL, 0);
#define WORK_TABLES \
    P(w[0]), P(w[1]), P(w[2]), P(w[3]), P(w[4]), P(w[5]), P(w[6]), P(w[7]), P(w[8]), P(w[9])
    if (form == TEXT) {
        pebblelinen_written written = pebblelinen_matrix_market(MODEL(t), P(words), len, WORK_TABLES, P(first));
        bool ends = written.bytes && ((char *)first.p)[written.bytes - 1] == '\n';
        if (written.bytes > first.len || ends == !!written.status.refusal) wrong("a text does not end", 0);
        check(written.status);
        return;
    }
    check(form == BY_ROWS
              ? pebblelinen_build_csr(MODEL(t), P(words), len, WORK_TABLES, P(first), P(columns), P(values)).status
              : pebblelinen_generator(MODEL(t), P(words), len, WORK_TABLES, P(first), P(columns), P(values)).status);
}

static void call_generator(void) { generate(ENTRIES); }
static void call_csr(void) { generate(BY_ROWS); }
static void call_market(void) { generate(TEXT); }

static Slice of(const void *from, size_t len, size_t each, Role role) {
    Slice s = make(len, each, role);
    memcpy(s.p, from, len * each);
    return s;
}

static void call_dot(void) {
    size_t rows = below(10), entries = 0;
    uint64_t offsets[11] = {0};
    uint32_t columns[100];
    for (size_t r = 0; r < rows; r++) {
        for (size_t c = 0; c < rows; c++)
            if (chance(30)) columns[entries++] = (uint32_t)c;
        offsets[r + 1] = entries;
    }
    Slice o = of(offsets, rows + 1, 8, READ), c = of(columns, entries, 4, READ), v = some_numbers(entries, READ);
    Slice input = some_numbers(rows, READ), output = some_numbers(rows, CHANGED), work = make(rows, 8, WORK);
    lend(&o), lend(&c), lend(&v), lend(&input), lend(&output), lend(&work);
    damage((size_t *[]){&rows}, 1, NULL, 0);
    pebblelinen_row row = pebblelinen_csr_row(rows, P(o), P(c), chance(50) ? below(rows + 2) : odd_count());
    if (row.start > row.end || row.end > c.len) wrong("a row is outside the columns", 0);
    if (row.status.refusal && row.end) wrong("a row that was refused has places", 0);
    check(pebblelinen_dot(rows, P(o), P(c), P(v), P(input), chance(50), P(output), P(work)));
}

static void call_norm(void) {
    size_t n = some_qubits(), len = below(12), places = below(40);
    double dt = some_number(), drop_tol = some_number();
    Tables t = some_model(n, READ);
    Slice words = some_words(len, n, READ);
    Slice h_index = make(64 * n, 8, WORK), j_index = make(64 * n, 8, WORK), mask = make(64, 8, WORK);
    Slice work = make(WORD * places, 8, WORK), sums = make(2 * places, 8, WORK);
    Slice heads = make(2 * len, 8, WORK), nexts = make(len, 8, WORK);
    Slice raws = make(len, 8, WORK), diags = make(len, 8, WORK);
    lend_tables(&t), lend(&words), lend(&h_index), lend(&j_index), lend(&mask), lend(&heads), lend(&nexts);
    lend(&work), lend(&sums), lend(&raws), lend(&diags);
    damage((size_t *[]){MODEL_COUNTS(t), &len}, 5, (double *[]){&dt, &drop_tol}, 2);
    pebblelinen_degree degree = pebblelinen_select_ms(odd_number(), odd_number());
    if (degree.status.refusal ? degree.status.refusal != 16 || degree.m || degree.s
                              : !degree.m || (uint64_t)degree.m * degree.s > PEBBLELINEN_MAX_PRODUCTS)
        wrong("a degree is above the ceiling", degree.status.refusal);
    if (chance(10)) dt = 1e6;
    check(chance(50) ? pebblelinen_norm(MODEL(t), P(words), len, P(h_index), P(j_index), P(mask), P(heads), P(nexts),
                                        P(work), P(sums), P(raws), P(diags))
                           .status
                     : pebblelinen_expm_degree(MODEL(t), P(words), len, dt, drop_tol, P(h_index), P(j_index),
                                               P(mask), P(heads), P(nexts), P(work), P(sums), P(raws), P(diags))
                           .status);
}

static void call_evolve(void) {
    bool few = chance(50);
    size_t n = few ? 1 : some_qubits(), len = few ? 2 : below(12), entries = below(100);
    double dt = some_number(), drop_tol = some_number();
    Tables t = some_model(n, READ);
    Slice words = some_words(len, n, READ), coeffs = some_numbers(len, READ);
    for (size_t i = 0; i < len && chance(20); i++) ((double *)coeffs.p)[i] = 1.5e308;
    pebblelinen_evolution_lengths sizes = pebblelinen_evolution_sizes(n, len, below(40), entries);
    enum { TABLES = sizeof sizes / sizeof sizes.h_index };
    size_t lengths[TABLES];
    memcpy(lengths, &sizes, sizeof lengths);
    Slice w[TABLES];
    lend_tables(&t), lend(&words), lend(&coeffs);
    /* Rows and columns of entries have 32 bits. */
    for (size_t i = 0; i < TABLES; i++) w[i] = make(lengths[i], i == 7 || i == 8 || i == 11 ? 4 : 8, WORK), lend(&w[i]);
    Slice out = some_numbers(len + below(3), CHANGED);
    lend(&out);
    damage((size_t *[]){MODEL_COUNTS(t), &len}, 5, (double *[]){&dt, &drop_tol}, 2);
    /* Steps that ask for many products, but no long waits. */
    if (chance(10)) dt = 1e9;
    else if (isfinite(dt) && fabs(dt) > 100) dt = copysign(100, dt);
    pebblelinen_evolved evolved = pebblelinen_evolve(
        MODEL(t), P(words), P(coeffs), len, dt, drop_tol, P(w[0]), P(w[1]), P(w[2]), P(w[3]), P(w[4]), P(w[5]), P(w[6]),
        P(w[7]), P(w[8]), P(w[9]), P(w[10]), P(w[11]), P(w[12]), P(w[13]), P(w[14]), P(w[15]), P(out));
    if (evolved.products > PEBBLELINEN_MAX_PRODUCTS || (evolved.status.refusal && evolved.products))
        wrong("products are above the ceiling", evolved.status.refusal);
    for (size_t i = 0; i < len && !evolved.status.refusal; i++)
        if (!isfinite(((double *)out.p)[i])) wrong("an evolved number is not finite", 0);
    check(evolved.status);
}

static void call_step(void) {
    bool few = chance(50);
    size_t n = few ? 1 : some_qubits(), len = few ? 2 : below(8), places = len + below(12);
    double dt = some_number(), drop_tol = some_number();
    Tables t = some_model(n, READ);
    Slice words = some_words(places, n, CHANGED), coeffs = some_numbers(places, CHANGED);
    for (size_t i = 0; i < len && chance(20); i++) ((double *)coeffs.p)[i] = 1.5e308;
    Slice fixed_words = some_words(below(4), n, READ);
    pebblelinen_limits limits = {len + below(8), chance(30), below(20), chance(50), some_number()};
    pebblelinen_step_lengths sizes =
        pebblelinen_step_sizes(n, places, fixed_words.len / WORD, below(40), below(100), below(200));
    enum { TABLES = sizeof sizes / sizeof sizes.h_index };
    size_t lengths[TABLES];
    memcpy(lengths, &sizes, sizeof lengths);
    Slice w[TABLES];
    lend_tables(&t), lend(&words), lend(&coeffs), lend(&fixed_words);
    /* Rows and columns of entries have 32 bits. */
    for (size_t i = 0; i < TABLES; i++) w[i] = make(lengths[i], i >= 14 && i <= 16 ? 4 : 8, WORK), lend(&w[i]);
    damage((size_t *[]){MODEL_COUNTS(t), &len, &limits.max_basis, &limits.admit_basis}, 7,
           (double *[]){&dt, &drop_tol, &limits.tau_add}, 3);
    /* Steps that ask for many products, but no long waits. */
    if (chance(10)) dt = 1e9;
    else if (isfinite(dt) && fabs(dt) > 10) dt = copysign(10, dt);
    pebblelinen_stepped stepped = pebblelinen_step(
        MODEL(t), P(words), P(coeffs), len, P(fixed_words), limits, dt, drop_tol, P(w[0]), P(w[1]), P(w[2]), P(w[3]),
        P(w[4]), P(w[5]), P(w[6]), P(w[7]), P(w[8]), P(w[9]), P(w[10]), P(w[11]), P(w[12]), P(w[13]), P(w[14]), P(w[15]),
        P(w[16]), P(w[17]), P(w[18]), P(w[19]), P(w[20]));
    if (stepped.status.refusal ? stepped.entries || stepped.products
                               : stepped.entries > coeffs.len || stepped.entries > words.len / WORD ||
                                     stepped.products > 2 * (size_t)PEBBLELINEN_MAX_PRODUCTS)
        wrong("a basis does not fit its tables", stepped.status.refusal);
    for (size_t i = 0; i < stepped.entries; i++)
        if (!isfinite(((double *)coeffs.p)[i])) wrong("a number after a step is not finite", 0);
    check(stepped.status);
}
#endif

static const struct {
    const char *name;
    void (*call)(void);
} calls[] = {
    {"parse_pauli_string", call_text}, {"word_from_codes", call_codes},
    {"codes_from_word", call_write_codes}, {"words", call_algebra},
    {"build_model", call_build}, {"add_kossakowski", call_matrix},
    {"test_model", call_test}, {"compute_action_terms", call_action},
    {"count_action_terms", call_count}, {"prune_basis", call_prune},
    {"cap_basis", call_cap}, {"add_leakage_capped", call_admit},
    {"leakage_with_prune", call_leakage},
#ifdef WITH_GENERATOR
    {"generator", call_generator}, {"build_csr", call_csr},
    {"matrix_market", call_market},
    {"dot", call_dot}, {"norm", call_norm},
    {"evolve", call_evolve}, {"step", call_step},
#endif
};

int main(int count, char **arguments) {
    if (count < 3) return 2;
    uint64_t wanted = strtoull(arguments[1], NULL, 10);
    state = strtoull(arguments[2], NULL, 10) * 0x9E3779B97F4A7C15ull + 1;
    pages = count > 3;
    for (calls_made = 0; calls_made < wanted; calls_made++) {
        size_t which = below(sizeof calls / sizeof *calls);
        called = calls[which].name;
        calls[which].call();
    }
    printf("%llu damaged calls, by refusal:", (unsigned long long)wanted);
    for (size_t i = 0; i <= LAST_REFUSAL; i++) printf(" %zu: %llu", i, (unsigned long long)by_refusal[i]);
    printf("\n");
    return 0;
}
