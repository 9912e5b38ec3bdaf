// SPDX-FileCopyrightText: 2026 The PPVM Authors
// SPDX-License-Identifier: Apache-2.0

//! Models whose action is asked, the words that it is asked on, and the tables for it.

use super::matrices::{Matrix, set};
use super::models::{Items, number};
use super::{EDGES, LANE_ENDS, Rng, letters, neighbour, word};
use crate::port::actions::{CountRoom, Room};
use crate::port::{LANES, WORD_LANES, Word};
use crate::rules::actions::ROW_LANES;
use crate::rules::models::{Complex, MAX_TERMS};
use crate::rules::{MAX_QUBITS, letters_of, word_of};
use std::collections::BTreeSet;

/// The most operators of a matrix here.
const OPERATORS: usize = 8;

/// The qubits of a local word: some of so many neighbours.
const WINDOW: usize = 4;

/// How the words and numbers of one model are.
struct Style {
    n_qubits: usize,
    local: bool,
    number: fn(&mut Rng) -> f64,
    at_tolerance: bool,
}

/// A whole number with a magnitude of at most 256.
fn whole(rng: &mut Rng) -> f64 {
    let limit = rng.pick(&[4, 256]);
    rng.below(2 * limit + 1) as f64 - limit as f64
}

/// A number of any magnitude from 2^-200 to 2^200.
pub(super) fn wide(rng: &mut Rng) -> f64 {
    let digits = 1.0 + (rng.next() >> 12) as f64 * 2f64.powi(-52);
    let size = digits * 2f64.powi(rng.below(400) as i32 - 200);
    if rng.one_in(2) { size } else { -size }
}

/// A number from -1 to 1.
pub(super) fn plain(rng: &mut Rng) -> f64 {
    (rng.next() >> 11) as f64 * 2f64.powi(-52) - 1.0
}

/// Numbers whose products, and entries of K, are often at a tolerance of 1e-14, where a square and a
/// hypot may decide differently.
const AT_TOLERANCE: [Complex; 8] = [
    (1.0, 0.0),
    (0.0, -1.0),
    (7.0, 0.0),
    (9.0, 0.0),
    (6e-15, 8e-15),
    (-8e-15, 6e-15),
    (7e-14, 0.0),
    (5.400000000000001e-14, 7.2e-14),
];

/// Letters on a few neighbouring qubits, often about the end of a lane.
pub(super) fn local_letters(rng: &mut Rng, n_qubits: usize) -> Vec<u8> {
    let mut letters = vec![b'I'; n_qubits];
    if n_qubits == 0 {
        return letters;
    }
    let first = match rng.below(3) {
        0 => rng.pick(&LANE_ENDS).saturating_sub(rng.below(WINDOW)) % n_qubits,
        _ => rng.below(n_qubits),
    };
    for letter in letters.iter_mut().skip(first).take(WINDOW) {
        *letter = rng.pick(b"IXYZ");
    }
    letters
}

impl Style {
    fn new(rng: &mut Rng) -> Self {
        let n_qubits = match rng.below(5) {
            0 => rng.pick(&EDGES).min(MAX_QUBITS),
            1 => rng.below(MAX_QUBITS + 1),
            // About the end of a lane.
            2 => 64 * (1 + rng.below(LANES - 1)) - 4 + rng.below(10),
            _ => rng.below(6),
        };
        Self {
            n_qubits,
            local: !rng.one_in(3),
            number: rng.pick(&[number, whole, wide, plain]),
            at_tolerance: rng.one_in(6),
        }
    }

    fn text(&self, rng: &mut Rng) -> Vec<u8> {
        if self.local {
            local_letters(rng, self.n_qubits)
        } else {
            letters(rng, self.n_qubits)
        }
    }

    fn complex(&self, rng: &mut Rng, real: bool) -> Complex {
        if self.at_tolerance && rng.one_in(2) {
            return rng.pick(&AT_TOLERANCE);
        }
        let im = match real {
            true => rng.pick(&[0.0, -0.0]),
            false => (self.number)(rng),
        };
        ((self.number)(rng), im)
    }

    /// Terms of an operator. Some words come again.
    fn operator(&self, rng: &mut Rng, count: usize, real: bool) -> Vec<(Vec<u8>, Complex)> {
        let words: Vec<Vec<u8>> = (0..count).map(|_| self.text(rng)).collect();
        let word = |rng: &mut Rng| words[rng.below(count)].clone();
        (0..count)
            .map(|_| (word(rng), self.complex(rng, real)))
            .collect()
    }

    fn hamiltonian(&self, rng: &mut Rng) -> Vec<(Vec<u8>, f64)> {
        let count = rng.below(7);
        (0..count)
            .map(|_| (self.text(rng), (self.number)(rng)))
            .collect()
    }

    fn jumps(&self, rng: &mut Rng, pauli: bool) -> Vec<(f64, Vec<(Vec<u8>, Complex)>)> {
        let count = 1 + rng.below(4);
        (0..count)
            .map(|_| {
                let terms = match rng.below(16) {
                    _ if pauli => 1,
                    0 => MAX_TERMS,
                    1..=3 => 1,
                    _ => 2 + rng.below(3),
                };
                let real = pauli || rng.one_in(4);
                let rate = (self.number)(rng).abs();
                (rate, self.operator(rng, terms, real))
            })
            .collect()
    }

    /// A matrix over a few operators, K real or complex.
    fn matrix(&self, rng: &mut Rng) -> Matrix {
        let count = match rng.below(12) {
            0 => OPERATORS,
            _ => 1 + rng.below(4),
        };
        let operators = (0..count)
            .map(|_| {
                let terms = match rng.below(16) {
                    0 if count < OPERATORS => MAX_TERMS,
                    1..=7 => 1,
                    _ => 1 + rng.below(3),
                };
                let real = rng.one_in(2);
                self.operator(rng, terms, real)
            })
            .collect();
        let real = rng.one_in(3);
        let mut k = vec![vec![(0.0, 0.0); count]; count];
        for n in 0..count {
            for m in n..count {
                if !rng.one_in(4) {
                    set(&mut k, n, m, self.complex(rng, real));
                }
            }
        }
        Matrix { operators, k }
    }
}

/// A model without anything wrong: Hamiltonian items, Pauli jumps, general jumps or matrices, each
/// alone or together with the others.
pub fn model(rng: &mut Rng) -> (Items, Vec<Matrix>) {
    let style = Style::new(rng);
    let [hamiltonian, paulis, generals, matrices] = match rng.below(8) {
        0 => [true, false, false, false],
        1 => [false, true, false, false],
        2 => [false, false, true, false],
        3 => [false, false, false, true],
        4 => [true, true, true, false],
        5 => [true, false, true, true],
        6 => [false; 4],
        _ => [true; 4],
    };
    let mut items = Items {
        n_qubits: style.n_qubits,
        hamiltonian: Vec::new(),
        jumps: Vec::new(),
    };
    if hamiltonian {
        items.hamiltonian = style.hamiltonian(rng);
    }
    if paulis {
        items.jumps.extend(style.jumps(rng, true));
    }
    if generals {
        let place = rng.below(items.jumps.len() + 1);
        let jumps = style.jumps(rng, false);
        items.jumps.splice(place..place, jumps);
    }
    let count = if matrices { 1 + rng.below(2) } else { 0 };
    let matrices = (0..count).map(|_| style.matrix(rng)).collect();
    (items, matrices)
}

/// A matrix over a few operators, and its register.
pub fn matrix(rng: &mut Rng) -> (usize, Matrix) {
    let style = Style::new(rng);
    (style.n_qubits, style.matrix(rng))
}

/// Many items on a few qubits.
pub fn crowded(rng: &mut Rng) -> Items {
    let style = Style {
        n_qubits: 3 + rng.below(3),
        ..Style::new(rng)
    };
    let hamiltonian = (0..8).flat_map(|_| style.hamiltonian(rng)).collect();
    let jumps = (0..4).flat_map(|case| style.jumps(rng, case % 2 == 0));
    Items {
        n_qubits: style.n_qubits,
        jumps: jumps.collect(),
        hamiltonian,
    }
}

/// A chain of at least two qubits: XX, YY and ZZ on neighbours, Z on each qubit, jumps (X + iY)/2 and
/// Z on each qubit. Numbers vary by a little. All of it comes again until there are so many items of
/// each sort, or once.
pub fn chain(rng: &mut Rng, n_qubits: usize, items: Option<usize>) -> Items {
    let text = |letters: &[(usize, u8)]| {
        let mut text = vec![b'I'; n_qubits];
        for &(qubit, letter) in letters {
            text[qubit] = letter;
        }
        text
    };
    let neighbours = |qubit: usize| b"XYZ".map(|letter| [(qubit, letter), (qubit + 1, letter)]);
    let couplings = (0..n_qubits - 1).flat_map(neighbours);
    let mut words: Vec<Vec<u8>> = couplings.map(|letters| text(&letters)).collect();
    words.extend((0..n_qubits).map(|qubit| text(&[(qubit, b'Z')])));
    let one = |qubit: usize, letter: u8, number: Complex| (text(&[(qubit, letter)]), number);
    let jumps: Vec<Vec<(Vec<u8>, Complex)>> = (0..n_qubits)
        .flat_map(|qubit| {
            let lowering = vec![one(qubit, b'X', (0.5, 0.0)), one(qubit, b'Y', (0.0, 0.5))];
            [lowering, vec![one(qubit, b'Z', (1.0, 0.0))]]
        })
        .collect();
    let mut number = || 1.0 + rng.below(1000) as f64 / 1024.0;
    let count = |once: usize| items.unwrap_or(once);
    Items {
        n_qubits,
        hamiltonian: (0..count(words.len()))
            .map(|i| (words[i % words.len()].clone(), number()))
            .collect(),
        jumps: (0..count(jumps.len()))
            .map(|i| (number(), jumps[i % jumps.len()].clone()))
            .collect(),
    }
}

/// A chain on the first half of the qubits, and then, up to so many items of each sort, items of a chain on
/// the other half.
pub fn chain_beside(rng: &mut Rng, n_qubits: usize, items: usize) -> Items {
    let half = n_qubits / 2;
    let Items {
        mut hamiltonian,
        mut jumps,
        ..
    } = chain(rng, half, None);
    let beside = chain(rng, half, Some(items));
    let first = |text: &mut Vec<u8>| text.extend(vec![b'I'; half]);
    let second = |text: &mut Vec<u8>| drop(text.splice(0..0, vec![b'I'; half]));
    hamiltonian.iter_mut().for_each(|(text, _)| first(text));
    let terms = jumps.iter_mut().flat_map(|(_, terms)| terms);
    terms.for_each(|(text, _)| first(text));
    for (mut text, number) in beside.hamiltonian {
        second(&mut text);
        hamiltonian.push((text, number));
    }
    for (rate, mut terms) in beside.jumps {
        terms.iter_mut().for_each(|(text, _)| second(text));
        jumps.push((rate, terms));
    }
    hamiltonian.truncate(items);
    jumps.truncate(items);
    Items {
        n_qubits,
        hamiltonian,
        jumps,
    }
}

/// So many different words, each with one to four letters on six neighbouring qubits.
pub fn local_words(rng: &mut Rng, n_qubits: usize, count: usize) -> Vec<Word> {
    let mut found = BTreeSet::new();
    let mut words = Vec::new();
    while words.len() < count {
        let first = rng.below(n_qubits - 5);
        let mut letters = vec![b'I'; n_qubits];
        for _ in 0..=rng.below(4) {
            letters[first + rng.below(6)] = rng.pick(b"XYZ");
        }
        let word = word_of(&letters);
        if found.insert(word.lanes()) {
            words.push(word);
        }
    }
    words
}

/// The texts of a model, without `_`.
fn texts(items: &Items, matrices: &[Matrix]) -> Vec<Vec<u8>> {
    let reals = items.hamiltonian.iter().map(|(text, _)| text);
    let jumps = items.jumps.iter().flat_map(|(_, terms)| terms);
    let operators = matrices.iter().flat_map(|matrix| &matrix.operators);
    let terms = jumps.chain(operators.flatten()).map(|(text, _)| text);
    reals.chain(terms).cloned().collect()
}

/// Words for a model: I, one letter, a few neighbours, any weight, a word of the model or one apart
/// from it in at most two letters, and one that touches nothing of the model.
pub fn words(rng: &mut Rng, items: &Items, matrices: &[Matrix], count: usize) -> Vec<Word> {
    let n_qubits = items.n_qubits;
    let texts = texts(items, matrices);
    let mut word = |case: usize| match case % 8 {
        0 if case == 0 => Word::default(),
        1 => {
            let mut letters = vec![b'I'; n_qubits];
            let qubit = match rng.below(2) {
                0 => rng.pick(&LANE_ENDS),
                _ => rng.below(n_qubits.max(1)),
            };
            if qubit < n_qubits {
                letters[qubit] = rng.pick(b"XYZ");
            }
            word_of(&letters)
        }
        2 | 3 | 4 if !texts.is_empty() => {
            let p = word_of(&texts[rng.below(texts.len())]);
            neighbour(rng, p, n_qubits)
        }
        5 => {
            let mut letters = letters_of(word(rng, n_qubits));
            for text in &texts {
                let touched = text.iter().zip(&mut letters);
                for (_, letter) in touched.filter(|(touched, _)| **touched != b'I') {
                    *letter = b'I';
                }
            }
            word_of(&letters)
        }
        6 => word(rng, n_qubits),
        _ => word_of(&local_letters(rng, n_qubits)),
    };
    (0..count).map(&mut word).collect()
}

/// A word with a letter at or above the register, which must have fewer qubits than it can.
pub fn outside(rng: &mut Rng, n_qubits: usize) -> Word {
    let mut letters = letters_of(word(rng, MAX_QUBITS));
    let qubit = match rng.below(2) {
        0 => n_qubits,
        _ => n_qubits + rng.below(MAX_QUBITS - n_qubits),
    };
    letters[qubit] = rng.pick(b"XYZ");
    word_of(&letters)
}

/// Tables with so many places for sums and for the list, one slice of each perhaps longer, with
/// something in them already.
pub fn room(rng: &mut Rng, sums: usize, list: usize) -> Room {
    let mut lengths = [WORD_LANES * sums, 2 * sums, WORD_LANES * list, list];
    lengths[rng.below(2)] += rng.below(9);
    lengths[2 + rng.below(2)] += rng.below(9);
    let [work_words, work_sums, out_words, out_values] = lengths;
    Room {
        work_words: lanes(rng, work_words),
        work_sums: numbers(work_sums),
        out_words: lanes(rng, out_words),
        out_values: numbers(out_values),
    }
}

/// Lanes and numbers that a table may hold already.
pub(super) fn lanes(rng: &mut Rng, length: usize) -> Vec<u64> {
    let seed = rng.next();
    (0..length).map(|i| seed ^ i as u64).collect()
}

pub(super) fn numbers(length: usize) -> Vec<f64> {
    let filler = [f64::NAN, -0.0, 1.5, f64::INFINITY];
    (0..length).map(|i| filler[i % 4]).collect()
}

/// Tables for counting on so many qubits with so many places for sums, one slice of them perhaps
/// longer and, where `short`, one too short, with something in them already.
pub fn count_room(rng: &mut Rng, n_qubits: usize, sums: usize, short: bool) -> CountRoom {
    let index = ROW_LANES * n_qubits;
    let mut lengths = [index, index, ROW_LANES, WORD_LANES * sums, 2 * sums];
    lengths[3 + rng.below(2)] += rng.below(9);
    let table = rng.below(3);
    lengths[table] = match (short, rng.below(3)) {
        (true, 0) => rng.below(lengths[table] + 1),
        (true, _) => lengths[table].saturating_sub(1),
        (false, spare) => lengths[table] + spare,
    };
    let [h_index, j_index, mask, work_words, work_sums] = lengths;
    CountRoom {
        h_index: lanes(rng, h_index),
        j_index: lanes(rng, j_index),
        mask: lanes(rng, mask),
        work_words: lanes(rng, work_words),
        work_sums: numbers(work_sums),
    }
}
