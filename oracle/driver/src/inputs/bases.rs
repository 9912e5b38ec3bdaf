// SPDX-FileCopyrightText: 2026 The PPVM Authors
// SPDX-License-Identifier: Apache-2.0

//! Bases in lent tables, with protected or listed words, limits and thresholds.
//!
//! Words come again, coefficients tie, limits and thresholds stand where an entry more or less is
//! decided. What is not in use of a table has something in it already, words outside of the register
//! and numbers that are not finite among it.

use super::actions::{lanes, local_letters, numbers, outside, plain, wide};
use super::{EDGES, Rng, neighbour, word};
use crate::port::bases::{Basis, BasisSizes};
use crate::port::{WORD_LANES, Word, set_word};
use crate::rules::actions::MAX_WORDS;
use crate::rules::bases::basis_sizes;
use crate::rules::{MAX_QUBITS, word_of};

/// Lengths about a pass of leakage, longer ones, and the most.
pub const LARGE: [usize; 5] = [4095, 4096, 4097, 12_000, MAX_WORDS];

/// From so many words on, lanes are drawn and not letters.
const MANY: usize = 1000;

/// Numbers that tie, and numbers at the ends of their range.
const FEW: [f64; 6] = [0.0, -0.0, 1.0, -1.0, 0.5, 2.0];
const EXTREME: [f64; 8] = [
    0.0,
    -0.0,
    5e-324,
    -5e-324,
    f64::MIN_POSITIVE,
    1.7e308,
    f64::MAX,
    f64::MIN,
];
pub(super) const NOT_FINITE: [f64; 3] = [f64::NAN, f64::INFINITY, f64::NEG_INFINITY];

/// A basis with what prune and cap are given beside a threshold or a limit.
#[derive(Clone)]
pub struct Keeping {
    pub n_qubits: usize,
    pub len: usize,
    pub protected: Vec<u64>,
    pub basis: Basis,
}

/// A basis with what admission is given.
#[derive(Clone)]
pub struct Admission {
    pub n_qubits: usize,
    pub len: usize,
    pub list: Vec<u64>,
    pub values: Vec<f64>,
    pub limit: usize,
    pub basis: Basis,
}

// ---- words and numbers

fn register(rng: &mut Rng) -> usize {
    match rng.below(4) {
        0 => rng.pick(&EDGES).min(MAX_QUBITS),
        1 => rng.below(MAX_QUBITS + 1),
        2 => MAX_QUBITS,
        _ => 1 + rng.below(5),
    }
}

/// How many words a small list has: none, a few, or some hundreds.
pub(super) fn small(rng: &mut Rng) -> usize {
    match rng.below(8) {
        0 => rng.below(3),
        1 => rng.below(400),
        2 => 8 + rng.below(60),
        _ => rng.below(20),
    }
}

/// A word of drawn lanes.
fn drawn(rng: &mut Rng, n_qubits: usize) -> Word {
    let mut lane = |first: usize| {
        let letters = n_qubits.saturating_sub(first).min(64);
        match letters {
            64 => rng.next(),
            _ => rng.next() & ((1 << letters) - 1),
        }
    };
    let mut lanes = || std::array::from_fn(|i| lane(64 * i));
    Word {
        x: lanes(),
        z: lanes(),
    }
}

/// So many words; often some come again.
fn words(rng: &mut Rng, n_qubits: usize, count: usize) -> Vec<Word> {
    let again = rng.pick(&[0, 0, 4, 40]);
    let mut words: Vec<Word> = Vec::with_capacity(count);
    for i in 0..count {
        words.push(match rng.below(4) {
            _ if again > 0 && i > 0 && rng.one_in(again) => words[rng.below(i)],
            _ if count >= MANY => drawn(rng, n_qubits),
            0 if i > 0 => neighbour(rng, words[i - 1], n_qubits),
            1 => word_of(&local_letters(rng, n_qubits)),
            _ => word(rng, n_qubits),
        });
    }
    words
}

/// So many finite numbers of one sort, or of all.
pub(super) fn coefficients(rng: &mut Rng, count: usize) -> Vec<f64> {
    let sort = rng.below(7);
    let size = plain(rng);
    let mut number = |sort: usize| match sort {
        0 => rng.pick(&[size, -size]),
        1 | 2 => rng.pick(&FEW),
        3 => rng.pick(&EXTREME),
        4 => wide(rng),
        _ => plain(rng),
    };
    let sorts = (0..count).map(|i| if sort == 6 { i % 6 } else { sort });
    sorts.map(&mut number).collect()
}

/// Protected words: none, some of the basis, some of others, or all, often more than once.
fn protected(rng: &mut Rng, n_qubits: usize, entries: &[Word]) -> Vec<Word> {
    let count = match rng.below(6) {
        0 => return Vec::new(),
        1 => return entries.to_vec(),
        2 => rng.below(2 * entries.len() + 3),
        _ => rng.below(6),
    };
    let inside = rng.below(4);
    let mut one = || match rng.below(3) < inside && !entries.is_empty() {
        true => entries[rng.below(entries.len())],
        false => drawn(rng, n_qubits),
    };
    (0..count).map(|_| one()).collect()
}

pub fn lanes_of(words: &[Word]) -> Vec<u64> {
    words.iter().flat_map(|w| w.lanes()).collect()
}

/// How many entries of a basis are protected, the basis sound.
fn protected_positions(keeping: &Keeping) -> usize {
    let protected: Vec<&[u64]> = keeping.protected.chunks_exact(WORD_LANES).collect();
    let entries = keeping
        .basis
        .words
        .chunks_exact(WORD_LANES)
        .take(keeping.len);
    match protected.len() * keeping.len > MANY * MANY {
        true => 0,
        false => entries.filter(|lanes| protected.contains(lanes)).count(),
    }
}

/// A limit at or about where it decides, now and then above those that are accepted.
pub fn limit(rng: &mut Rng, keeping: &Keeping) -> usize {
    let len = keeping.len.min(MAX_WORDS);
    match rng.below(16) {
        0 => 0,
        1 => 1,
        2 | 3 => len.saturating_sub(1),
        4 => len,
        5 => len + 1,
        6 => MAX_WORDS,
        7 => rng.pick(&[MAX_WORDS + 1, usize::MAX]),
        8 | 9 => protected_positions(keeping),
        10 => protected_positions(keeping) + 1,
        11 => protected_positions(keeping).saturating_sub(1),
        _ => rng.below(len + 1),
    }
}

/// A threshold that drops nothing, something or all, often the magnitude of a coefficient or its
/// neighbour, now and then not finite.
pub fn threshold(rng: &mut Rng, keeping: &Keeping) -> f64 {
    let coeffs = &keeping.basis.coeffs;
    let size = match coeffs.is_empty() {
        true => 1.0,
        false => coeffs[rng.below(coeffs.len())].abs(),
    };
    match rng.below(16) {
        0 => 0.0,
        1 => -0.0,
        2 => -size,
        3 => rng.pick(&NOT_FINITE),
        4 => size.next_up(),
        5 => size.next_down(),
        6 => rng.pick(&[5e-324, 1.7e308, f64::MAX, -f64::MAX]),
        7 => plain(rng),
        _ => size,
    }
}

// ---- lent tables

/// Tables that hold entries, with so many places more or a little above, and work tables of these
/// lengths or a little longer.
fn lent(rng: &mut Rng, entries: &[Word], coeffs: &[f64], spare: usize, work: BasisSizes) -> Basis {
    let mut words = lanes_of(entries);
    let mut coeffs = coeffs.to_vec();
    let (more, lanes_more) = match rng.below(3) {
        0 => (0, rng.below(9)),
        1 => (rng.below(3), 0),
        _ => (0, 0),
    };
    words.extend(lanes(rng, WORD_LANES * spare + lanes_more));
    coeffs.extend(numbers(spare + more));
    let mut lengths = [work.order, work.work, work.fixed, work.kept];
    if rng.one_in(2) {
        lengths[rng.below(4)] += rng.below(5);
    }
    let [order, work, fixed, kept] = lengths.map(|length| lanes(rng, length));
    Basis {
        words,
        coeffs,
        order,
        work,
        fixed,
        kept,
    }
}

/// A basis of so many entries, with protected words.
pub fn keeping(rng: &mut Rng, len: usize) -> Keeping {
    let n_qubits = register(rng);
    let entries = words(rng, n_qubits, len);
    let coeffs = coefficients(rng, len);
    let protected = protected(rng, n_qubits, &entries);
    let spare = rng.pick(&[0, 0, 1, 7]);
    let work = basis_sizes(len, protected.len(), 0);
    Keeping {
        n_qubits,
        len,
        protected: lanes_of(&protected),
        basis: lent(rng, &entries, &coeffs, spare, work),
    }
}

/// A basis of so many entries, and so many listed words with a limit that has room for this many of
/// them.
pub fn admission(rng: &mut Rng, len: usize, listed: usize, room: usize) -> Admission {
    let n_qubits = register(rng);
    let entries = words(rng, n_qubits, len);
    let coeffs = coefficients(rng, len);
    let mut list = words(rng, n_qubits, listed);
    if len > 0 && rng.one_in(4) {
        for w in list.iter_mut().step_by(3) {
            *w = entries[rng.below(len)];
        }
    }
    let limit = match room {
        0 => rng.pick(&[0, len / 2, len]),
        _ => len + room,
    };
    let spare = room.min(listed) + rng.pick(&[0, 0, 1, 9]);
    Admission {
        n_qubits,
        len,
        list: lanes_of(&list),
        values: coefficients(rng, listed),
        limit,
        basis: lent(rng, &entries, &coeffs, spare, basis_sizes(0, 0, listed)),
    }
}

pub fn small_keeping(rng: &mut Rng) -> Keeping {
    let len = small(rng);
    keeping(rng, len)
}

/// Room for none, for some, for all or for more.
pub fn room(rng: &mut Rng, listed: usize) -> usize {
    match rng.below(8) {
        0 => 0,
        1 => 1,
        2 => listed.saturating_sub(1),
        3 => listed + 1,
        4 | 5 => rng.below(listed + 1),
        _ => listed,
    }
}

pub fn small_admission(rng: &mut Rng) -> Admission {
    let (len, listed) = (small(rng), small(rng));
    let room = room(rng, listed);
    admission(rng, len, listed, room)
}

// ---- what is wrong with them

/// Puts a word outside of the register somewhere in a table of words.
pub(super) fn put_outside(rng: &mut Rng, n_qubits: usize, lanes: &mut [u64]) {
    let places = lanes.len() / WORD_LANES;
    if places > 0 && n_qubits < MAX_QUBITS {
        let place = rng.below(places);
        let w = outside(rng, n_qubits);
        set_word(lanes, place, w);
    }
}

pub(super) fn put_not_finite(rng: &mut Rng, numbers: &mut [f64]) {
    if !numbers.is_empty() {
        let place = rng.below(numbers.len());
        numbers[place] = rng.pick(&NOT_FINITE);
    }
}

/// One place less, or now and then many.
pub(super) fn shorten<T>(rng: &mut Rng, table: &mut Vec<T>, places: usize) {
    let length = match rng.below(4) {
        0 => rng.below(table.len() + 1),
        _ => places.saturating_sub(1),
    };
    table.truncate(length);
}

/// What may be wrong with a basis in its tables.
fn spoil_basis(
    rng: &mut Rng,
    n_qubits: &mut usize,
    len: &mut usize,
    needed: BasisSizes,
    basis: &mut Basis,
) {
    let places = *len;
    match rng.below(9) {
        0 => *n_qubits = rng.pick(&[MAX_QUBITS + 1, 1 << 40, usize::MAX]),
        1 => *len = rng.pick(&[MAX_WORDS + 1, usize::MAX, places + 1, MAX_WORDS]),
        2 => shorten(rng, &mut basis.words, WORD_LANES * places),
        3 => shorten(rng, &mut basis.coeffs, places),
        4 => match rng.below(4) {
            0 => shorten(rng, &mut basis.order, needed.order),
            1 => shorten(rng, &mut basis.work, needed.work),
            2 => shorten(rng, &mut basis.fixed, needed.fixed),
            _ => shorten(rng, &mut basis.kept, needed.kept),
        },
        5 | 6 => put_outside(rng, *n_qubits, &mut basis.words),
        _ => put_not_finite(rng, &mut basis.coeffs),
    }
}

/// A last word that is cut off.
pub(super) fn cut(rng: &mut Rng, lanes: &mut Vec<u64>) {
    match rng.below(2) {
        0 => lanes.push(0),
        _ => drop(lanes.pop()),
    }
}

pub fn spoil_keeping(rng: &mut Rng, keeping: &mut Keeping) {
    let Keeping {
        n_qubits,
        len,
        protected,
        basis,
    } = keeping;
    match rng.below(6) {
        0 => cut(rng, protected),
        1 => put_outside(rng, *n_qubits, protected),
        _ => {
            let needed = basis_sizes(*len, protected.len() / WORD_LANES, 0);
            spoil_basis(rng, n_qubits, len, needed, basis);
        }
    }
}

pub fn spoil_admission(rng: &mut Rng, admission: &mut Admission) {
    let Admission {
        n_qubits,
        len,
        list,
        values,
        limit,
        basis,
    } = admission;
    match rng.below(12) {
        0 => cut(rng, list),
        1 => put_outside(rng, *n_qubits, list),
        2 => put_not_finite(rng, values),
        3 => values.push(1.0),
        4 => drop(values.pop()),
        5 => *limit = rng.pick(&[MAX_WORDS + 1, usize::MAX]),
        // Too few places for the words that come in, or just enough.
        6..=8 => {
            let more = limit.saturating_sub(*len).min(values.len());
            let places = (*len + more).saturating_sub(rng.below(more + 1));
            match rng.below(2) {
                0 => basis.words.truncate(WORD_LANES * places),
                _ => basis.coeffs.truncate(places),
            }
        }
        _ => {
            let needed = basis_sizes(0, 0, values.len());
            spoil_basis(rng, n_qubits, len, needed, basis);
        }
    }
}

// ---- to be timed

/// These words with numbers from -1 to 1, in tables of just their length, and work tables for so many
/// protected words.
pub fn plain_basis(rng: &mut Rng, entries: &[Word], protected: usize) -> Basis {
    let BasisSizes {
        order,
        work,
        fixed,
        kept,
    } = basis_sizes(entries.len(), protected, 0);
    Basis {
        words: lanes_of(entries),
        coeffs: entries.iter().map(|_| plain(rng)).collect(),
        order: vec![0; order],
        work: vec![0; work],
        fixed: vec![0; fixed],
        kept: vec![0; kept],
    }
}
