// SPDX-FileCopyrightText: 2026 The PPVM Authors
// SPDX-License-Identifier: Apache-2.0

//! Matrices over operators, added to models.

use super::models::{
    Answer, Complex, MAX_JUMPS, MAX_OPERATORS, MAX_TERMS, Magnitudes, TERMS_TABLE, Term, at_most,
    conjugate, equal, in_range, lay_terms, lent_places, operator, parts, product, refuse,
    term_places, tested, texts, times, where_any,
};
use super::refusal;
use crate::port::matrices::Given;
use crate::port::models::{Built, Lent, Model};
use crate::port::{Status, WORD_LANES};

/// The work places for the sums of the largest product.
const SUM_PLACES: usize = 256;

/// The work places of so many operators with so many terms: those of the sums and one for each term
/// that they may have.
pub fn work_places(operators: usize, terms: usize) -> usize {
    where_any(operators, SUM_PLACES + terms.min(MAX_TERMS * operators))
}

/// What a pair stores: its operators, its factors and its product.
struct Pair {
    left: usize,
    right: usize,
    factors: Vec<Term>,
    product: Vec<Term>,
}

/// What a matrix stores.
struct Stored {
    operators: Vec<Vec<Term>>,
    pairs: Vec<Pair>,
}

impl Stored {
    fn terms(&self) -> usize {
        let given: usize = self.operators.iter().map(Vec::len).sum();
        let compiled = |pair: &Pair| pair.factors.len() + pair.product.len();
        given + self.pairs.iter().map(compiled).sum::<usize>()
    }
}

/// The first place, in row order and not below the diagonal, where K is not its mirror's conjugate.
fn not_hermitian(by: Magnitudes, k: &[Vec<Complex>], largest: f64) -> Option<(usize, usize)> {
    let limit = by.tolerance(1e-10) * largest.max(1.0);
    let less = |n: usize, m: usize| (k[n][m].0 - k[m][n].0, k[n][m].1 + k[m][n].1);
    (0..k.len())
        .flat_map(|n| (n..k.len()).map(move |m| (n, m)))
        .find(|&(n, m)| by.of(less(n, m)) > limit)
}

fn pair(
    by: Magnitudes,
    k: Complex,
    (n, left): (usize, &[Term]),
    (m, right): (usize, &[Term]),
) -> Pair {
    let factor = |a: &Term, b: &Term| Term {
        word: b.word,
        number: times(times(conjugate(a.number), b.number), k),
    };
    Pair {
        left: n,
        right: m,
        factors: left
            .iter()
            .flat_map(|a| right.iter().map(move |b| factor(a, b)))
            .collect(),
        product: product(by, left, right)
            .into_iter()
            .map(|Term { word, number }| Term {
                word,
                number: times(k, number),
            })
            .collect(),
    }
}

/// All tests but 13.
fn stored(by: Magnitudes, model: Model, given: &Given, lent: &Lent) -> Answer<Stored> {
    tested(model, lent)?;
    let count = given.counts.len();
    at_most(MAX_OPERATORS, count)?;
    equal(count * count, given.k.len() / 2)?;
    equal(2 * count * count, given.k.len())?;
    let terms = given.numbers.len() / 2;
    equal(terms, given.lengths.len())?;
    equal(terms * 2, given.numbers.len())?;
    let first_terms = parts(&given.counts, terms)?;
    let texts = texts(&given.lengths, &given.texts)?;
    let entries = MAX_JUMPS.min(model.jumps + (1..=count).sum::<usize>());
    lent_places(entries, lent.jumps.len() / 8)?;
    lent_places(entries, lent.rates.len())?;
    let work = work_places(count, terms);
    lent_places(work, lent.work_words.len() / WORD_LANES)?;
    lent_places(work, lent.work_numbers.len() / 2)?;

    let flat: Vec<Complex> = given.k.chunks_exact(2).map(|k| (k[0], k[1])).collect();
    let out_of_range = |&(re, im): &Complex| !in_range(re) || !in_range(im);
    if let Some(place) = flat.iter().position(out_of_range) {
        return refuse(7, place, 0);
    }
    let k: Vec<Vec<Complex>> = (0..count)
        .map(|row| flat[row * count..][..count].to_vec())
        .collect();
    let largest = flat.iter().map(|&k| by.of(k)).fold(0.0, f64::max);
    if let Some((n, m)) = not_hermitian(by, &k, largest) {
        return refuse(10, n, m);
    }
    let mut operators = Vec::new();
    for (index, (&first, &count)) in first_terms.iter().zip(&given.counts).enumerate() {
        operators.push(operator(
            index,
            &texts[first..][..count as usize],
            &given.numbers[2 * first..],
            model.qubits,
        )?);
    }
    let kept: Vec<(usize, usize)> = (0..count)
        .flat_map(|n| (n..count).map(move |m| (n, m)))
        .filter(|&(n, m)| by.of(k[n][m]) > by.tolerance(1e-14) * largest)
        .collect();
    at_most(MAX_JUMPS, model.jumps + kept.len())?;
    let pairs = kept
        .into_iter()
        .map(|(n, m)| pair(by, k[n][m], (n, &operators[n]), (m, &operators[m])))
        .collect();
    Ok(Stored { operators, pairs })
}

/// Adds a matrix to the model in what is lent.
pub fn add_kossakowski(model: Model, given: &Given, lent: &mut Lent) -> Built {
    add_kossakowski_by(Magnitudes::Squares, model, given, lent)
}

pub fn add_kossakowski_by(by: Magnitudes, model: Model, given: &Given, lent: &mut Lent) -> Built {
    let refused = |status| Built {
        status,
        model: Model::default(),
    };
    let stored = match stored(by, model, given, lent) {
        Ok(stored) => stored,
        Err(status) => return refused(status),
    };
    lent.work_words.fill(0);
    lent.work_numbers.fill(0.0);
    let places = term_places(lent);
    let terms = model.terms + stored.terms();
    if terms > places {
        return refused(refusal(13, TERMS_TABLE, places));
    }

    let mut at = model.terms;
    let mut ranges = Vec::new();
    for operator in &stored.operators {
        lay_terms(lent, at, operator);
        ranges.push([at, at + operator.len()]);
        at += operator.len();
    }
    for (i, pair) in stored.pairs.iter().enumerate() {
        let place = model.jumps + i;
        let ([left, left_end], [right, right_end]) = (ranges[pair.left], ranges[pair.right]);
        let middle = at + pair.factors.len();
        let end = middle + pair.product.len();
        let entry = [2, left, left_end, right, right_end, at, middle, end];
        lent.jumps[8 * place..8 * place + 8].copy_from_slice(&entry.map(|number| number as u64));
        lent.rates[place] = 0.0;
        lay_terms(lent, at, &pair.factors);
        lay_terms(lent, middle, &pair.product);
        at = end;
    }
    Built {
        status: Status::default(),
        model: Model {
            jumps: model.jumps + stored.pairs.len(),
            terms,
            ..model
        },
    }
}
