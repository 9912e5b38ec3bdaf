// SPDX-FileCopyrightText: 2026 The PPVM Authors
// SPDX-License-Identifier: Apache-2.0

//! Models: building and testing, item by item and table by table.

use super::{MAX_QUBITS, fits_register, parse_pauli_string, pauli_mul, refusal};
use crate::port::models::{Built, Given, Lent, Model};
use crate::port::{Status, WORD_LANES, Word, set_word, word_at};
use std::collections::BTreeMap;

pub const MAX_HAMILTONIAN: usize = 4096;
pub const MAX_JUMPS: usize = 4096;
pub const MAX_TERMS: usize = 16;
pub const MAX_OPERATORS: usize = 64;

/// The work places that building asks for where there is a jump.
pub const WORK_PLACES: usize = 272;

/// The places that so many jumps or operators need of a table: none where there is none.
pub fn where_any(count: usize, places: usize) -> usize {
    match count {
        0 => 0,
        _ => places,
    }
}

/// The table of compiled terms, as 13 names it.
pub(super) const TERMS_TABLE: usize = 4;

/// Real part and imaginary part.
pub type Complex = (f64, f64);

pub(super) type Answer<T> = Result<T, Status>;

/// A model number: 0, or from 2^-200 to 2^200 in magnitude.
pub fn in_range(x: f64) -> bool {
    x == 0.0 || (2f64.powi(-200)..=2f64.powi(200)).contains(&x.abs())
}

/// How magnitudes are measured: by squares, as document 01 does, or by hypots, as the Rust does. The
/// two decide differently only where rounding decides.
#[derive(Clone, Copy)]
pub enum Magnitudes {
    Squares,
    Hypots,
}

impl Magnitudes {
    pub(super) fn of(self, (re, im): Complex) -> f64 {
        match self {
            Self::Squares => re * re + im * im,
            Self::Hypots => re.hypot(im),
        }
    }

    /// What a magnitude is compared with.
    pub(super) fn tolerance(self, tolerance: f64) -> f64 {
        match self {
            Self::Squares => tolerance * tolerance,
            Self::Hypots => tolerance,
        }
    }
}

/// A compiled number: at most 2^620 in magnitude.
fn bounded(x: f64) -> bool {
    x.abs() <= 2f64.powi(620)
}

pub(super) fn refuse<T>(number: u64, first: usize, second: usize) -> Answer<T> {
    Err(refusal(number, first, second))
}

pub(super) fn at_most(limit: usize, count: usize) -> Answer<()> {
    if count > limit {
        return refuse(8, count, 0);
    }
    Ok(())
}

pub(super) fn equal(needed: usize, given: usize) -> Answer<()> {
    if given != needed {
        return refuse(9, needed, given);
    }
    Ok(())
}

pub(super) fn lent_places(needed: usize, places: usize) -> Answer<()> {
    if places < needed {
        return refuse(9, needed, places);
    }
    Ok(())
}

/// The starts of consecutive parts, which must make up the whole.
pub(super) fn parts(lengths: &[u64], whole: usize) -> Answer<Vec<usize>> {
    let mut starts = Vec::new();
    let mut at = 0;
    for &length in lengths {
        let left = whole - at;
        match usize::try_from(length) {
            Ok(length) if length <= left => {
                starts.push(at);
                at += length;
            }
            _ => return refuse(9, length as usize, left),
        }
    }
    equal(0, whole - at)?;
    Ok(starts)
}

/// A word with a number.
#[derive(Clone, Copy)]
pub(super) struct Term {
    pub word: Word,
    pub number: Complex,
}

/// Sums that start at 0, in word order.
#[derive(Default)]
pub(super) struct Sums(BTreeMap<[u64; WORD_LANES], Complex>);

impl Sums {
    pub fn add(&mut self, word: Word, number: Complex) {
        let sum = self.0.entry(word.lanes()).or_default();
        *sum = (sum.0 + number.0, sum.1 + number.1);
    }

    pub fn terms(self) -> Vec<Term> {
        let term = |(lanes, number): ([u64; WORD_LANES], Complex)| Term {
            word: Word::of(&lanes),
            number,
        };
        self.0.into_iter().map(term).collect()
    }
}

/// What a jump is compiled to.
struct Compiled {
    rate: f64,
    kind: u64,
    /// How many of the terms are given ones.
    given: usize,
    terms: Vec<Term>,
}

pub(super) fn conjugate((re, im): Complex) -> Complex {
    (re, -im)
}

pub(super) fn times(a: Complex, b: Complex) -> Complex {
    (a.0 * b.0 - a.1 * b.1, a.0 * b.1 + a.1 * b.0)
}

pub(super) fn phase_factor(phase: u32) -> Complex {
    match phase % 4 {
        0 => (1.0, 0.0),
        1 => (0.0, 1.0),
        2 => (-1.0, 0.0),
        _ => (0.0, -1.0),
    }
}

/// The adjoint of an operator times another, in word order, thinned.
pub(super) fn product(by: Magnitudes, left: &[Term], right: &[Term]) -> Vec<Term> {
    let mut sums = Sums::default();
    for a in left {
        for b in right {
            let onto = pauli_mul(a.word, b.word);
            let number = times(
                times(conjugate(a.number), b.number),
                phase_factor(onto.phase),
            );
            sums.add(onto.word, number);
        }
    }
    let mut terms = sums.terms();
    terms.retain(|term| by.of(term.number) > by.tolerance(1e-14));
    terms
}

fn compile(by: Magnitudes, rate: f64, operator: &[Term]) -> Compiled {
    match operator {
        [term] if term.number.1 == 0.0 => {
            return Compiled {
                rate: rate * term.number.0 * term.number.0,
                kind: 0,
                given: 1,
                terms: vec![*term],
            };
        }
        _ => {}
    }
    let mut terms = operator.to_vec();
    terms.extend(product(by, operator, operator));
    Compiled {
        rate,
        kind: 1,
        given: operator.len(),
        terms,
    }
}

fn word(text: &[u8], n_qubits: usize) -> Answer<Word> {
    let parsed = parse_pauli_string(text, n_qubits);
    if parsed.status.refusal != 0 {
        return Err(parsed.status);
    }
    Ok(parsed.word)
}

/// The texts of these lengths, which must make up all bytes.
pub(super) fn texts<'a>(lengths: &[u64], bytes: &'a [u8]) -> Answer<Vec<&'a [u8]>> {
    let starts = parts(lengths, bytes.len())?;
    let text = |(&start, &length): (&usize, &u64)| &bytes[start..][..length as usize];
    Ok(starts.iter().zip(lengths).map(text).collect())
}

/// The operator of a jump or a matrix with this index, tested from 6 on.
pub(super) fn operator(
    index: usize,
    texts: &[&[u8]],
    numbers: &[f64],
    n_qubits: usize,
) -> Answer<Vec<Term>> {
    if texts.is_empty() {
        return refuse(6, index, 0);
    }
    at_most(MAX_TERMS, texts.len())?;
    let mut terms = Vec::new();
    for (text, number) in texts.iter().zip(numbers.chunks_exact(2)) {
        let word = word(text, n_qubits)?;
        let number = (number[0], number[1]);
        if !in_range(number.0) || !in_range(number.1) {
            return refuse(7, index, 0);
        }
        terms.push(Term { word, number });
    }
    Ok(terms)
}

/// The items, tested and compiled.
struct Items {
    hamiltonian: Vec<(Word, f64)>,
    jumps: Vec<Compiled>,
}

/// All tests but 13.
fn items(by: Magnitudes, given: &Given, n_qubits: usize, lent: &Lent) -> Answer<Items> {
    if n_qubits > MAX_QUBITS {
        return refuse(1, n_qubits, MAX_QUBITS);
    }
    let h = given.h_numbers.len();
    let jumps = given.rates.len();
    at_most(MAX_HAMILTONIAN, h)?;
    at_most(MAX_JUMPS, jumps)?;
    let terms = given.numbers.len() / 2;
    equal(h + terms, given.lengths.len())?;
    equal(jumps, given.counts.len())?;
    equal(terms * 2, given.numbers.len())?;
    let first_terms = parts(&given.counts, terms)?;
    let texts = texts(&given.lengths, &given.texts)?;
    lent_places(h, lent.h_words.len() / WORD_LANES)?;
    lent_places(h, lent.h_coeffs.len())?;
    lent_places(jumps, lent.jumps.len() / 8)?;
    lent_places(jumps, lent.rates.len())?;
    let work = where_any(jumps, WORK_PLACES);
    lent_places(work, lent.work_words.len() / WORD_LANES)?;
    lent_places(work, lent.work_numbers.len() / 2)?;

    let mut items = Items {
        hamiltonian: Vec::new(),
        jumps: Vec::new(),
    };
    for (i, &number) in given.h_numbers.iter().enumerate() {
        let word = word(texts[i], n_qubits)?;
        if !in_range(number) {
            return refuse(7, i, 0);
        }
        items.hamiltonian.push((word, number));
    }
    for (k, &rate) in given.rates.iter().enumerate() {
        if rate < 0.0 {
            return refuse(5, k, 0);
        }
        if !in_range(rate) {
            return refuse(7, k, 0);
        }
        let (first, count) = (first_terms[k], given.counts[k] as usize);
        let operator = operator(
            k,
            &texts[h + first..][..count],
            &given.numbers[2 * first..],
            n_qubits,
        )?;
        items.jumps.push(compile(by, rate, &operator));
    }
    Ok(items)
}

/// Puts terms in the terms table, from a place on.
pub(super) fn lay_terms(lent: &mut Lent, at: usize, terms: &[Term]) {
    for (i, term) in terms.iter().enumerate() {
        set_word(&mut lent.t_words, at + i, term.word);
        lent.t_numbers[2 * (at + i)] = term.number.0;
        lent.t_numbers[2 * (at + i) + 1] = term.number.1;
    }
}

/// The places of the terms table.
pub(super) fn term_places(lent: &Lent) -> usize {
    (lent.t_words.len() / WORD_LANES).min(lent.t_numbers.len() / 2)
}

/// Builds a model in what is lent.
pub fn build_model(given: &Given, n_qubits: usize, lent: &mut Lent) -> Built {
    build_model_by(Magnitudes::Squares, given, n_qubits, lent)
}

pub fn build_model_by(by: Magnitudes, given: &Given, n_qubits: usize, lent: &mut Lent) -> Built {
    let refused = |status| Built {
        status,
        model: Model::default(),
    };
    let items = match items(by, given, n_qubits, lent) {
        Ok(items) => items,
        Err(status) => return refused(status),
    };
    lent.work_words.fill(0);
    lent.work_numbers.fill(0.0);
    let places = term_places(lent);
    let terms: usize = items.jumps.iter().map(|jump| jump.terms.len()).sum();
    if terms > places {
        return refused(refusal(13, TERMS_TABLE, places));
    }

    for (i, &(word, number)) in items.hamiltonian.iter().enumerate() {
        set_word(&mut lent.h_words, i, word);
        lent.h_coeffs[i] = number;
    }
    let mut at = 0;
    for (k, jump) in items.jumps.iter().enumerate() {
        lent.rates[k] = jump.rate;
        let middle = at + jump.given;
        let end = at + jump.terms.len();
        let range = if jump.kind == 0 {
            [0, 0]
        } else {
            [middle, end]
        };
        let entry = [
            jump.kind,
            at as u64,
            middle as u64,
            0,
            0,
            0,
            range[0] as u64,
            range[1] as u64,
        ];
        lent.jumps[8 * k..8 * k + 8].copy_from_slice(&entry);
        lay_terms(lent, at, &jump.terms);
        at = end;
    }
    Built {
        status: Status::default(),
        model: Model {
            qubits: n_qubits,
            hamiltonian: items.hamiltonian.len(),
            jumps: items.jumps.len(),
            terms,
        },
    }
}

/// Whether an entry is as its kind asks, with ranges inside the terms.
fn entry_holds(entry: &[u64], rate: f64, terms: u64) -> bool {
    let inside = |start: usize, end: usize| entry[start] <= entry[end] && entry[end] <= terms;
    match entry[0] {
        0 => entry[1] < terms && bounded(rate),
        1 => inside(1, 2) && inside(6, 7) && in_range(rate),
        2 => {
            inside(1, 2) && inside(3, 4) && inside(6, 7) && {
                let factors = u128::from(entry[2] - entry[1]) * u128::from(entry[4] - entry[3]);
                u128::from(entry[5]) + factors <= u128::from(terms)
            }
        }
        _ => false,
    }
}

/// Whether a place of the terms table is that of an operator's term.
fn is_given(entry: &[u64], place: u64) -> bool {
    let in_range = |start: usize, end: usize| entry[start] <= place && place < entry[end];
    match entry[0] {
        0 => entry[1] == place,
        1 => in_range(1, 2),
        _ => in_range(1, 2) || in_range(3, 4),
    }
}

pub(super) fn tested(model: Model, lent: &Lent) -> Answer<()> {
    if model.qubits > MAX_QUBITS {
        return refuse(1, model.qubits, MAX_QUBITS);
    }
    at_most(MAX_HAMILTONIAN, model.hamiltonian)?;
    at_most(MAX_JUMPS, model.jumps)?;
    lent_places(model.hamiltonian, lent.h_words.len() / WORD_LANES)?;
    lent_places(model.hamiltonian, lent.h_coeffs.len())?;
    lent_places(model.jumps, lent.jumps.len() / 8)?;
    lent_places(model.jumps, lent.rates.len())?;
    lent_places(model.terms, lent.t_words.len() / WORD_LANES)?;
    lent_places(model.terms, lent.t_numbers.len() / 2)?;
    let fits = |words: &[u64], place| fits_register(word_at(words, place), model.qubits);
    for i in 0..model.hamiltonian {
        if !fits(&lent.h_words, i) || !in_range(lent.h_coeffs[i]) {
            return refuse(7, i, 0);
        }
    }
    let entry = |j: usize| &lent.jumps[8 * j..8 * j + 8];
    for j in 0..model.jumps {
        if !entry_holds(entry(j), lent.rates[j], model.terms as u64) {
            return refuse(7, j, 0);
        }
    }
    for i in 0..model.terms {
        let numbers = &lent.t_numbers[2 * i..2 * i + 2];
        let given = (0..model.jumps).any(|j| is_given(entry(j), i as u64));
        if !fits(&lent.t_words, i)
            || !numbers.iter().all(|&x| bounded(x))
            || (given && !numbers.iter().all(|&x| in_range(x)))
        {
            return refuse(7, i, 0);
        }
    }
    Ok(())
}

/// Tests a lent model.
pub fn test_model(model: Model, lent: &Lent) -> Status {
    tested(model, lent).err().unwrap_or_default()
}
