// SPDX-FileCopyrightText: 2026 The PPVM Authors
// SPDX-License-Identifier: Apache-2.0

//! Models: items with nothing or something wrong, lent tables that are long enough or too short, and
//! models that were damaged after they were built.

use super::{EDGES, Rng, damage, letters};
use crate::port::WORD_LANES;
use crate::port::models::{Given, Lent, Model, Sizes};
use crate::rules::MAX_QUBITS;
use crate::rules::models::{Complex, MAX_HAMILTONIAN, MAX_JUMPS, MAX_TERMS};

/// What a model is built from, item by item: texts with their numbers, and rates with their terms.
#[derive(Clone, Debug)]
pub struct Items {
    pub n_qubits: usize,
    pub hamiltonian: Vec<(Vec<u8>, f64)>,
    pub jumps: Vec<(f64, Vec<(Vec<u8>, Complex)>)>,
}

impl Items {
    /// The items in flat slices.
    pub fn flat(&self) -> Given {
        let mut given = Given::default();
        let reals = self.hamiltonian.iter().map(|(text, _)| text);
        let terms = self.jumps.iter().flat_map(|(_, terms)| terms);
        for text in reals.chain(terms.clone().map(|(text, _)| text)) {
            given.texts.extend(text);
            given.lengths.push(text.len() as u64);
        }
        given.h_numbers = self.hamiltonian.iter().map(|(_, x)| *x).collect();
        given.rates = self.jumps.iter().map(|(rate, _)| *rate).collect();
        given.counts = self.jumps.iter().map(|(_, t)| t.len() as u64).collect();
        given.numbers = terms.flat_map(|&(_, (re, im))| [re, im]).collect();
        given
    }

    /// The terms of the longest operator.
    pub fn longest(&self) -> usize {
        let lengths = self.jumps.iter().map(|(_, terms)| terms.len());
        lengths.max().unwrap_or(0)
    }

    /// The number of bytes and items, to tell small inputs from large ones.
    pub fn size(&self) -> usize {
        let given = self.flat();
        given.texts.len() + given.lengths.len() + given.rates.len()
    }
}

/// A number within the range of model numbers: whole, at the range's ends, any, or such that the
/// product of an operator with one of its terms 1 has numbers at the tolerance of thinning.
pub(super) fn number(rng: &mut Rng) -> f64 {
    let size = match rng.below(8) {
        0 => 0.0,
        1..=3 => rng.below(5) as f64,
        4 => rng.pick(&[5e-15f64.next_down(), 5e-15, 5e-15f64.next_up(), 1e-7]),
        5 => rng.pick(&[2f64.powi(200), 2f64.powi(-200), 6e-15, 8e-15]),
        _ => (rng.next() >> 11) as f64 * 2f64.powi(-50 - rng.below(8) as i32),
    };
    if rng.one_in(2) { size } else { -size }
}

/// A number out of the range, or at its ends.
pub(super) fn wrong_number(rng: &mut Rng) -> f64 {
    let size = rng.pick(&[
        f64::NAN,
        f64::INFINITY,
        f64::MAX,
        2f64.powi(200).next_up(),
        2f64.powi(200),
        2f64.powi(-200).next_down(),
        2f64.powi(-200),
        f64::MIN_POSITIVE,
        f64::from_bits(1),
    ]);
    if rng.one_in(2) { size } else { -size }
}

fn text(rng: &mut Rng, n_qubits: usize) -> Vec<u8> {
    let mut text = letters(rng, n_qubits);
    if rng.one_in(8) {
        text.insert(rng.below(text.len() + 1), b'_');
    }
    text
}

/// Terms of an operator. Some words come again, so that numbers of the product add up and cancel.
pub(super) fn operator(rng: &mut Rng, n_qubits: usize, count: usize) -> Vec<(Vec<u8>, Complex)> {
    let words: Vec<Vec<u8>> = (0..count).map(|_| text(rng, n_qubits)).collect();
    let number = |rng: &mut Rng| match rng.below(3) {
        0 => (number(rng), 0.0),
        1 => (number(rng), -0.0),
        _ => (number(rng), number(rng)),
    };
    (0..count)
        .map(|_| (words[rng.below(count)].clone(), number(rng)))
        .collect()
}

/// Items without anything wrong.
pub fn sound(rng: &mut Rng) -> Items {
    let n_qubits = match rng.below(4) {
        0 => rng.pick(&EDGES).min(MAX_QUBITS),
        1 => rng.below(MAX_QUBITS + 1),
        _ => rng.below(6),
    };
    let hamiltonian = (0..rng.below(5))
        .map(|_| (text(rng, n_qubits), number(rng)))
        .collect();
    let jumps = (0..rng.below(5))
        .map(|_| {
            let count = match rng.below(12) {
                0 => MAX_TERMS,
                1..=5 => 1,
                _ => 1 + rng.below(4),
            };
            (number(rng).abs(), operator(rng, n_qubits, count))
        })
        .collect();
    Items {
        n_qubits,
        hamiltonian,
        jumps,
    }
}

/// A text with letters on two neighbours of at least two qubits, or with every weight as likely as
/// every other.
pub(super) fn plain_text(rng: &mut Rng, n_qubits: usize, neighbours: bool) -> Vec<u8> {
    if !neighbours {
        return letters(rng, n_qubits);
    }
    let mut text = vec![b'I'; n_qubits];
    let qubit = rng.below(n_qubits - 1);
    text[qubit] = rng.pick(b"XYZ");
    text[qubit + 1] = rng.pick(b"IXYZ");
    text
}

/// The largest model of Hamiltonian items and general jumps of two terms.
pub fn largest(rng: &mut Rng, n_qubits: usize, neighbours: bool) -> Items {
    let text = |rng: &mut Rng| plain_text(rng, n_qubits, neighbours);
    let number = |rng: &mut Rng| 1.0 + rng.below(1000) as f64 / 1024.0;
    Items {
        n_qubits,
        hamiltonian: (0..MAX_HAMILTONIAN)
            .map(|_| (text(rng), number(rng)))
            .collect(),
        jumps: (0..MAX_JUMPS)
            .map(|_| {
                let term = |rng: &mut Rng| (text(rng), (number(rng), number(rng)));
                (number(rng), vec![term(rng), term(rng)])
            })
            .collect(),
    }
}

/// Something wrong in an item, or in the register.
pub fn spoil(rng: &mut Rng, items: &mut Items) {
    let Items {
        n_qubits,
        hamiltonian,
        jumps,
    } = items;
    match rng.below(8) {
        0 => *n_qubits = super::register(rng, usize::MAX),
        1 if !hamiltonian.is_empty() => {
            let item = rng.below(hamiltonian.len());
            hamiltonian[item].1 = wrong_number(rng);
        }
        2 if !hamiltonian.is_empty() => {
            let item = rng.below(hamiltonian.len());
            spoil_text(rng, &mut hamiltonian[item].0);
        }
        _ if jumps.is_empty() => {}
        choice => {
            let jump = rng.below(jumps.len());
            let (rate, terms) = &mut jumps[jump];
            match choice {
                3 => *rate = wrong_number(rng),
                4 => *rate = rng.pick(&[-1.0, -0.0, -f64::from_bits(1), f64::NEG_INFINITY]),
                5 if rng.one_in(2) => terms.clear(),
                5 => {
                    let count = MAX_TERMS + rng.below(3);
                    *terms = operator(rng, *n_qubits % 256, count);
                }
                _ if terms.is_empty() => {}
                6 => {
                    let term = rng.below(terms.len());
                    let (re, im) = &mut terms[term].1;
                    *(if rng.one_in(2) { re } else { im }) = wrong_number(rng);
                }
                _ => {
                    let term = rng.below(terms.len());
                    spoil_text(rng, &mut terms[term].0);
                }
            }
        }
    }
}

pub(super) fn spoil_text(rng: &mut Rng, text: &mut Vec<u8>) {
    match rng.below(4) {
        0 => text.push(b'I'),
        1 => drop(text.pop()),
        _ => damage(rng, text),
    }
}

/// One more or one less.
pub(super) fn change<T: Default>(rng: &mut Rng, slice: &mut Vec<T>) {
    if rng.one_in(2) {
        slice.push(T::default());
    } else {
        slice.pop();
    }
}

/// Another length in the place of one.
pub(super) fn alter(rng: &mut Rng, lengths: &mut [u64]) {
    if !lengths.is_empty() {
        let length = &mut lengths[rng.below(lengths.len())];
        *length = match rng.below(4) {
            0 => rng.next(),
            1 => length.wrapping_add(1 << 63),
            2 => length.wrapping_add(1),
            _ => length.wrapping_sub(1),
        };
    }
}

/// Something wrong with the lengths of what is given.
pub fn spoil_lengths(rng: &mut Rng, given: &mut Given) {
    match rng.below(8) {
        0 => change(rng, &mut given.texts),
        1 => change(rng, &mut given.lengths),
        2 => change(rng, &mut given.h_numbers),
        3 => change(rng, &mut given.rates),
        4 => change(rng, &mut given.counts),
        5 => change(rng, &mut given.numbers),
        6 => alter(rng, &mut given.lengths),
        _ => alter(rng, &mut given.counts),
    }
}

/// Tables of these lengths, with something in them already.
pub fn lent(rng: &mut Rng, sizes: Sizes) -> Lent {
    let seed = rng.next();
    let lanes = |length: usize| (0..length).map(|i| seed ^ i as u64).collect();
    let numbers = |length: usize| (0..length).map(|i| 0.5 + i as f64).collect();
    Lent {
        h_words: lanes(sizes.h_words),
        h_coeffs: numbers(sizes.h_coeffs),
        jumps: lanes(sizes.jumps),
        rates: numbers(sizes.rates),
        t_words: lanes(sizes.t_words),
        t_numbers: numbers(sizes.t_numbers),
        work_words: lanes(sizes.work_words),
        work_numbers: numbers(sizes.work_numbers),
    }
}

/// One slice a place or one number shorter, or longer.
pub fn other_length(rng: &mut Rng, sizes: &mut Sizes) {
    let (length, place) = match rng.below(8) {
        0 => (&mut sizes.h_words, WORD_LANES),
        1 => (&mut sizes.h_coeffs, 1),
        2 => (&mut sizes.jumps, 8),
        3 => (&mut sizes.rates, 1),
        4 => (&mut sizes.t_words, WORD_LANES),
        5 => (&mut sizes.t_numbers, 2),
        6 => (&mut sizes.work_words, WORD_LANES),
        _ => (&mut sizes.work_numbers, 2),
    };
    *length = match rng.below(4) {
        0 => length.saturating_sub(place),
        1 => length.saturating_sub(1),
        2 => *length + 1,
        _ => rng.below(*length + 1),
    };
}

/// Something else in a model that stands: in its counts, its tables or the lengths of these.
pub fn spoil_model(rng: &mut Rng, model: &mut Model, lent: &mut Lent) {
    match rng.below(10) {
        0 => spoil_counts(rng, model),
        1 => spoil_tables(rng, lent),
        2 => spoil_word(rng, &mut lent.h_words),
        3 => spoil_word(rng, &mut lent.t_words),
        4 => spoil_number(rng, &mut lent.h_coeffs),
        5 => spoil_number(rng, &mut lent.rates),
        6 => spoil_number(rng, &mut lent.t_numbers),
        // The count may have been damaged before, to one that leaves no room above it.
        _ => spoil_entry(rng, model.terms.min(usize::MAX - 4), &mut lent.jumps),
    }
}

fn spoil_counts(rng: &mut Rng, model: &mut Model) {
    let near = |rng: &mut Rng, count: usize, limit: usize| match rng.below(4) {
        0 => count.wrapping_sub(1),
        1 => count + 1,
        2 => limit + rng.below(2),
        _ => rng.next() as usize,
    };
    match rng.below(4) {
        0 => model.qubits = near(rng, model.qubits, MAX_QUBITS),
        1 => model.hamiltonian = near(rng, model.hamiltonian, 4096),
        2 => model.jumps = near(rng, model.jumps, 4096),
        _ => model.terms = near(rng, model.terms, 0),
    }
}

fn spoil_tables(rng: &mut Rng, lent: &mut Lent) {
    fn shorten<T>(rng: &mut Rng, slice: &mut Vec<T>) {
        let length = rng.below(slice.len() + 1);
        slice.truncate(length);
    }
    match rng.below(6) {
        0 => shorten(rng, &mut lent.h_words),
        1 => shorten(rng, &mut lent.h_coeffs),
        2 => shorten(rng, &mut lent.jumps),
        3 => shorten(rng, &mut lent.rates),
        4 => shorten(rng, &mut lent.t_words),
        _ => shorten(rng, &mut lent.t_numbers),
    }
}

fn spoil_word(rng: &mut Rng, words: &mut [u64]) {
    if !words.is_empty() {
        let lane = rng.below(words.len());
        words[lane] ^= 1 << rng.below(64);
    }
}

/// Also numbers between the bound of given ones and that of compiled ones, and beyond it.
fn spoil_number(rng: &mut Rng, numbers: &mut [f64]) {
    if numbers.is_empty() {
        return;
    }
    let place = rng.below(numbers.len());
    numbers[place] = match rng.below(5) {
        0 => 2f64.powi(620),
        1 => -2f64.powi(620).next_up(),
        2 => -1.0,
        _ => wrong_number(rng),
    };
}

/// Another kind, or another end of a range, often near the ends of the terms table.
fn spoil_entry(rng: &mut Rng, terms: usize, jumps: &mut [u64]) {
    if jumps.len() < 8 {
        return;
    }
    let entry = rng.below(jumps.len() / 8) * 8;
    for _ in 0..=rng.below(3) {
        let near = match rng.below(5) {
            0 => rng.next(),
            1 => u64::MAX,
            2 => terms as u64 + 1,
            3 => terms as u64,
            _ => rng.below(terms + 1) as u64,
        };
        match rng.below(9) {
            0 => jumps[entry] = rng.below(4) as u64,
            8 => pair(rng, terms as u64, &mut jumps[entry..entry + 8]),
            number => jumps[entry + number] = near,
        }
    }
}

/// A pair whose ranges are inside the terms table, and whose factors nearly are or just are.
fn pair(rng: &mut Rng, terms: u64, entry: &mut [u64]) {
    let mut range = || {
        let start = rng.below(terms as usize + 1) as u64;
        let width = rng.below(4) as u64;
        [start, terms.min(start + width)]
    };
    let [left, right, product] = [range(), range(), range()];
    let factors = (left[1] - left[0]) * (right[1] - right[0]);
    let first = terms
        .wrapping_sub(factors)
        .wrapping_add(rng.below(3) as u64)
        .wrapping_sub(1);
    let all = [
        2, left[0], left[1], right[0], right[1], first, product[0], product[1],
    ];
    entry.copy_from_slice(&all);
}
