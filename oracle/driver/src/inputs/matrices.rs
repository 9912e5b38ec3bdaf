// SPDX-FileCopyrightText: 2026 The PPVM Authors
// SPDX-License-Identifier: Apache-2.0

//! Matrices over operators, with nothing or something wrong, and entries at the edge of each test.

use super::Rng;
use super::models::{alter, change, number, operator, plain_text, spoil_text, wrong_number};
use crate::port::WORD_LANES;
use crate::port::matrices::Given;
use crate::port::models::{Lent, Model, Sizes};
use crate::rules::models::{Complex, MAX_OPERATORS, MAX_TERMS};

/// Operators, each by its terms, and K by its rows.
#[derive(Clone, Debug)]
pub struct Matrix {
    pub operators: Vec<Vec<(Vec<u8>, Complex)>>,
    pub k: Vec<Vec<Complex>>,
}

impl Matrix {
    /// The operators and K in flat slices.
    pub fn flat(&self) -> Given {
        let mut given = Given::default();
        for (text, (re, im)) in self.operators.iter().flatten() {
            given.texts.extend(text);
            given.lengths.push(text.len() as u64);
            given.numbers.extend([re, im]);
        }
        given.counts = self.operators.iter().map(|op| op.len() as u64).collect();
        given.k = self.k.iter().flatten().flat_map(|k| [k.0, k.1]).collect();
        given
    }

    /// The terms of the longest operator.
    pub fn longest(&self) -> usize {
        self.operators.iter().map(Vec::len).max().unwrap_or(0)
    }

    /// The number of bytes, terms and entries, to tell small inputs from large ones.
    pub fn size(&self) -> usize {
        let given = self.flat();
        given.texts.len() + given.lengths.len() + given.k.len()
    }

    /// Whether K has a row for each operator, with an entry for each operator.
    pub fn is_square(&self) -> bool {
        let count = self.operators.len();
        self.k.len() == count && self.k.iter().all(|row| row.len() == count)
    }
}

fn entry(rng: &mut Rng) -> Complex {
    let whole = |rng: &mut Rng| rng.below(9) as f64 - 4.0;
    match rng.below(8) {
        0 | 1 => (0.0, 0.0),
        2 => (number(rng), number(rng)),
        3 => (whole(rng), 0.0),
        _ => (whole(rng), whole(rng)),
    }
}

/// Sets an entry and its mirror. One on the diagonal keeps its real part alone.
pub(super) fn set(k: &mut [Vec<Complex>], n: usize, m: usize, (re, im): Complex) {
    k[m][n] = (re, -im);
    k[n][m] = if n == m { (re, 0.0) } else { (re, im) };
}

fn hermitian(rng: &mut Rng, count: usize) -> Vec<Vec<Complex>> {
    let mut k = vec![vec![(0.0, 0.0); count]; count];
    for n in 0..count {
        for m in n..count {
            set(&mut k, n, m, entry(rng));
        }
    }
    k
}

/// A matrix without anything wrong.
pub fn sound(rng: &mut Rng, n_qubits: usize) -> Matrix {
    let count = match rng.below(400) {
        0 => MAX_OPERATORS,
        1..=100 => 1,
        _ => rng.below(5),
    };
    let operators = (0..count)
        .map(|_| {
            let terms = match rng.below(24) {
                _ if count > 8 => 1,
                0 => MAX_TERMS,
                1..=10 => 1,
                _ => 1 + rng.below(4),
            };
            operator(rng, n_qubits, terms)
        })
        .collect();
    let mut matrix = Matrix {
        operators,
        k: hermitian(rng, count),
    };
    if rng.one_in(4) {
        skip_edge(rng, &mut matrix.k);
    }
    matrix
}

/// A matrix of so many operators of so many terms each, with no entry of K 0.
pub fn full(
    rng: &mut Rng,
    n_qubits: usize,
    neighbours: bool,
    count: usize,
    terms: usize,
) -> Matrix {
    let part = |rng: &mut Rng| 1.0 + rng.below(1000) as f64 / 1024.0;
    let operators = (0..count)
        .map(|_| {
            let text = |rng: &mut Rng| plain_text(rng, n_qubits, neighbours);
            let term = |_| (text(rng), (part(rng), part(rng)));
            (0..terms).map(term).collect()
        })
        .collect();
    let mut k = vec![vec![(0.0, 0.0); count]; count];
    for n in 0..count {
        for m in n..count {
            set(&mut k, n, m, (part(rng), part(rng)));
        }
    }
    Matrix { operators, k }
}

/// A complex number of about this magnitude: on an axis or between, a few units in the last place
/// more or less.
fn about(rng: &mut Rng, magnitude: f64) -> Complex {
    let nudge = |rng: &mut Rng, x: f64| {
        let steps = rng.below(5) as i32 - 2;
        (0..steps.abs()).fold(x, |x, _| {
            if x == 0.0 {
                x
            } else if steps < 0 {
                x.next_down()
            } else {
                x.next_up()
            }
        })
    };
    let (re, im) = rng.pick(&[(1.0, 0.0), (0.0, 1.0), (0.6, 0.8), (-0.8, 0.6)]);
    (nudge(rng, re * magnitude), nudge(rng, im * magnitude))
}

/// The largest magnitude in K.
fn largest(k: &[Vec<Complex>]) -> f64 {
    let magnitudes = k.iter().flatten().map(|&(re, im)| re.hypot(im));
    magnitudes.fold(0.0, f64::max)
}

/// A place of K, not below the diagonal.
fn place(rng: &mut Rng, count: usize) -> (usize, usize) {
    let (n, m) = (rng.below(count), rng.below(count));
    (n.min(m), n.max(m))
}

/// Puts an entry about where one is skipped, often beside one that was made the largest.
fn skip_edge(rng: &mut Rng, k: &mut [Vec<Complex>]) {
    if k.is_empty() {
        return;
    }
    if rng.one_in(2) {
        let (n, m) = place(rng, k.len());
        let size = rng.pick(&[1.0, 7.0, 11.0, 2f64.powi(200), 2f64.powi(-100)]);
        let size = size * (1 + rng.below(4)) as f64;
        let (re, im) = about(rng, size.min(2f64.powi(199)));
        set(k, n, m, (re, im));
    }
    let magnitude = 1e-14 * largest(k);
    // Below that the edge is out of range.
    if magnitude >= 2f64.powi(-190) {
        let (n, m) = place(rng, k.len());
        let edge = about(rng, magnitude);
        set(k, n, m, edge);
    }
}

/// Makes K not Hermitian at one place: by about the tolerance, or by much.
fn not_hermitian(rng: &mut Rng, k: &mut [Vec<Complex>]) {
    let (n, m) = place(rng, k.len());
    if rng.one_in(4) {
        k[n][m] = (k[n][m].0 + 1.0, k[n][m].1 - 1.0);
        return;
    }
    let (re, im) = about(rng, 1e-10 * largest(k).max(1.0));
    if n == m {
        k[n][n].1 = (re + im) / 2.0;
    } else if rng.one_in(2) {
        k[n][m] = (re, im);
        k[m][n] = (0.0, 0.0);
    } else {
        k[m][n] = (k[n][m].0 + re, im - k[n][m].1);
    }
}

/// A K of another shape.
fn reshape(rng: &mut Rng, k: &mut Vec<Vec<Complex>>) {
    let entry = (1.0, 0.0);
    match rng.below(5) {
        0 => drop(k.pop()),
        1 => k.push(vec![entry; k.len()]),
        2 if !k.is_empty() => drop(k[0].pop()),
        3 if !k.is_empty() => k[0].push(entry),
        _ if k.len() > 1 => {
            // A ragged K with as many entries as a square one.
            let moved = k[0].pop().expect("a row has an entry");
            k[1].push(moved);
        }
        _ => {}
    }
}

/// Something wrong in K or in an operator.
pub fn spoil(rng: &mut Rng, n_qubits: usize, matrix: &mut Matrix) {
    let Matrix { operators, k } = matrix;
    if operators.is_empty() {
        reshape(rng, k);
        return;
    }
    let square = k.len() == operators.len() && k.iter().all(|row| row.len() == k.len());
    let index = rng.below(operators.len());
    match rng.below(16) {
        0..=5 if square => not_hermitian(rng, k),
        6 | 7 if square => {
            let row = rng.below(k.len());
            let (re, im) = &mut k[row][rng.below(operators.len())];
            *(if rng.one_in(2) { re } else { im }) = wrong_number(rng);
        }
        8 if square => skip_edge(rng, k),
        9 => reshape(rng, k),
        10 => operators[index].clear(),
        11 => {
            let count = MAX_TERMS + rng.below(3);
            operators[index] = operator(rng, n_qubits, count);
        }
        _ if operators[index].is_empty() => {}
        choice => {
            let term = rng.below(operators[index].len());
            let (text, (re, im)) = &mut operators[index][term];
            if choice % 2 == 0 {
                *(if rng.one_in(2) { re } else { im }) = wrong_number(rng);
            } else {
                spoil_text(rng, text);
            }
        }
    }
}

/// Something wrong with the lengths of what is given.
pub fn spoil_lengths(rng: &mut Rng, given: &mut Given) {
    match rng.below(8) {
        0 => change(rng, &mut given.texts),
        1 => change(rng, &mut given.lengths),
        2 => change(rng, &mut given.counts),
        3 => change(rng, &mut given.numbers),
        4 => change(rng, &mut given.k),
        5 => given.k.truncate(given.k.len().saturating_sub(2)),
        6 => alter(rng, &mut given.lengths),
        _ => alter(rng, &mut given.counts),
    }
}

/// The lengths that are enough for a model and what a matrix adds to it.
pub fn enough(model: Model, added: Sizes) -> Sizes {
    Sizes {
        h_words: WORD_LANES * model.hamiltonian,
        h_coeffs: model.hamiltonian,
        jumps: 8 * model.jumps + added.jumps,
        rates: model.jumps + added.rates,
        t_words: WORD_LANES * model.terms + added.t_words,
        t_numbers: 2 * model.terms + added.t_numbers,
        ..added
    }
}

/// The same tables with other lengths, with something in the places that are new and in the work
/// tables.
pub fn relent(rng: &mut Rng, old: &Lent, sizes: Sizes) -> Lent {
    fn keep<T: Copy>(new: &mut [T], old: &[T]) {
        let kept = new.len().min(old.len());
        new[..kept].copy_from_slice(&old[..kept]);
    }
    let mut lent = super::models::lent(rng, sizes);
    keep(&mut lent.h_words, &old.h_words);
    keep(&mut lent.h_coeffs, &old.h_coeffs);
    keep(&mut lent.jumps, &old.jumps);
    keep(&mut lent.rates, &old.rates);
    keep(&mut lent.t_words, &old.t_words);
    keep(&mut lent.t_numbers, &old.t_numbers);
    lent
}
