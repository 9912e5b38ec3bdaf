// SPDX-FileCopyrightText: 2026 The PPVM Authors
// SPDX-License-Identifier: Apache-2.0

//! Bases for leakage, with protected words, limits, thresholds and tables.
//!
//! What may decide is chosen when it is known which words a basis leaks to, and how much.

use super::Rng;
use super::actions::{self, lanes, numbers, plain};
use super::bases::{
    NOT_FINITE, coefficients, cut, lanes_of, put_not_finite, put_outside, shorten, small,
};
use super::matrices::Matrix;
use super::models::Items;
use crate::port::leakages::{Given, LeakRoom, LeakageSizes, Limits};
use crate::port::{WORD_LANES, Word};
use crate::rules::actions::MAX_WORDS;
use crate::rules::leakages::{Places, leakage_sizes};
use crate::rules::{MAX_QUBITS, pauli_mul, word_of};

/// Lengths about a pass, and of three.
pub const LARGE: [usize; 4] = [4095, 4096, 4097, 12_000];

/// Words with their coefficients.
pub struct Entries {
    pub words: Vec<Word>,
    pub coeffs: Vec<f64>,
}

impl Entries {
    pub fn new(rng: &mut Rng, words: Vec<Word>) -> Self {
        let coeffs = coefficients(rng, words.len());
        Self { words, coeffs }
    }
}

/// Words near a model: none, a few, or some hundreds. Often some come again.
pub fn entries(rng: &mut Rng, items: &Items, matrices: &[Matrix]) -> Entries {
    let len = small(rng);
    let mut words = actions::words(rng, items, matrices, len);
    let again = rng.pick(&[0, 0, 4, 40]);
    for i in 1..len {
        if again > 0 && rng.one_in(again) {
            words[i] = words[rng.below(i)];
        }
    }
    Entries::new(rng, words)
}

/// The word whose hash the Rust cannot tell from that of w, in a register of more than 68 qubits.
pub fn same_hash(w: Word) -> Word {
    let mut letters = [b'I'; MAX_QUBITS];
    letters[63] = b'X';
    letters[68] = b'X';
    pauli_mul(w, word_of(&letters)).word
}

/// Protected words: none, or some of the basis, of the words that it leaks to, of others, and of those
/// that have the hash of one that it leaks to; often some come again.
pub fn protected(
    rng: &mut Rng,
    n_qubits: usize,
    basis: &[Word],
    reached: &[(Word, f64)],
) -> Vec<Word> {
    let count = match rng.below(4) {
        0 => 0,
        1 => rng.below(reached.len() + 2),
        _ => rng.below(5),
    };
    let hashes = n_qubits > 68 && rng.one_in(2);
    let mut one = || match rng.below(4) {
        0 if !basis.is_empty() => basis[rng.below(basis.len())],
        1 | 2 if !reached.is_empty() => {
            let w = reached[rng.below(reached.len())].0;
            if hashes { same_hash(w) } else { w }
        }
        _ => super::word(rng, n_qubits),
    };
    let mut words: Vec<Word> = (0..count).map(|_| one()).collect();
    if count > 0 && rng.one_in(3) {
        words.push(words[0]);
    }
    words
}

/// Room for none, for one, for some, for all or for more of the words that a basis leaks to, told in
/// one of the ways to tell it; and a threshold that is absent, decides, or decides nothing.
pub fn limits(rng: &mut Rng, len: usize, reached: &[(Word, f64)]) -> Limits {
    let count = reached.len();
    let room = match rng.below(8) {
        0 => 0,
        1 => 1,
        2 => count.saturating_sub(1),
        3 => count,
        4 => count + 1,
        _ => rng.below(count + 1),
    };
    let limit = match room {
        0 => rng.pick(&[0, len / 2, len]),
        _ => (len + room).min(MAX_WORDS),
    };
    let size = match count {
        0 => 1.0,
        _ => reached[rng.below(count)].1.abs(),
    };
    let (tau_given, tau_add) = match rng.below(12) {
        0 | 1 => (0, rng.pick(&NOT_FINITE)),
        2 => (1, rng.pick(&[0.0, -0.0])),
        3 => (u64::MAX, -size),
        4 => (1, size.next_up()),
        5 => (1, size.next_down()),
        6 => (1, plain(rng)),
        7 => (1, rng.pick(&[f64::MAX, -1.0, 5e-324, -5e-324])),
        8 => (0, 0.5),
        _ => (1, size),
    };
    told(rng, limit, tau_given, tau_add)
}

/// The limit as max_basis, or as admit_basis, or as both of them.
fn told(rng: &mut Rng, limit: usize, tau_given: u64, tau_add: f64) -> Limits {
    let (max_basis, admit_given, admit_basis) = match rng.below(4) {
        0 => (limit, 0, rng.pick(&[0, MAX_WORDS + 1, usize::MAX])),
        1 => (limit, 1, rng.below(limit + 1)),
        2 => (rng.below(limit + 1), rng.pick(&[1, 1 << 63]), limit),
        _ => (limit, 0, 0),
    };
    Limits {
        max_basis,
        admit_given,
        admit_basis,
        tau_given,
        tau_add,
    }
}

/// The basis in tables with something past it.
pub fn given(rng: &mut Rng, entries: &Entries, protected: &[Word], limits: Limits) -> Given {
    let mut words = lanes_of(&entries.words);
    let mut coeffs = entries.coeffs.clone();
    if rng.one_in(2) {
        let spare = rng.below(9);
        words.extend(lanes(rng, spare));
        coeffs.extend(numbers(rng.below(4)));
    }
    Given {
        words,
        coeffs,
        len: entries.words.len(),
        protected: lanes_of(protected),
        limits,
    }
}

/// Tables of these places, some slices longer, with something in them already.
pub fn room(rng: &mut Rng, n_qubits: usize, given: &Given, places: Places) -> LeakRoom {
    let Places {
        touched,
        held,
        listed,
    } = places;
    let protected = given.protected.len() / WORD_LANES;
    let needed = leakage_sizes(n_qubits, given.len, protected, touched, held);
    let mut more = |least: usize| least + rng.pick(&[0, 0, 0, 1, 3, 100]);
    let lengths = LeakageSizes {
        h_index: more(needed.h_index),
        mask: more(needed.mask),
        work_sums: more(needed.work_sums),
        order: more(needed.order),
        heads: more(needed.nexts),
        cand_sums: more(needed.cand_sums),
        place_order: more(held),
        place_work: more(held),
        ..needed
    };
    let (out_words, out_values) = (more(WORD_LANES * listed), more(listed));
    filled(rng, lengths, out_words, out_values)
}

/// Tables of these lengths, with something in them already.
pub fn filled(rng: &mut Rng, sizes: LeakageSizes, out_words: usize, out_values: usize) -> LeakRoom {
    LeakRoom {
        h_index: lanes(rng, sizes.h_index),
        j_index: lanes(rng, sizes.j_index),
        mask: lanes(rng, sizes.mask),
        work_words: lanes(rng, sizes.work_words),
        work_sums: numbers(sizes.work_sums),
        order: lanes(rng, sizes.order),
        heads: lanes(rng, sizes.heads),
        nexts: lanes(rng, sizes.nexts),
        cand_words: lanes(rng, sizes.cand_words),
        cand_sums: numbers(sizes.cand_sums),
        place_order: lanes(rng, sizes.place_order),
        place_work: lanes(rng, sizes.place_work),
        out_words: lanes(rng, out_words),
        out_values: numbers(out_values),
    }
}

/// Something wrong with what is given or lent.
pub fn spoil(rng: &mut Rng, n_qubits: usize, given: &mut Given, room: &mut LeakRoom) {
    let Given {
        words,
        coeffs,
        len,
        protected,
        limits,
    } = given;
    let places = *len;
    match rng.below(12) {
        0 => *len = rng.pick(&[MAX_WORDS + 1, usize::MAX, places + 1, MAX_WORDS]),
        1 => limits.max_basis = rng.pick(&[MAX_WORDS + 1, usize::MAX]),
        2 => {
            limits.admit_given = 1;
            limits.admit_basis = rng.pick(&[MAX_WORDS + 1, usize::MAX]);
        }
        3 => {
            limits.tau_given = 1;
            limits.tau_add = rng.pick(&NOT_FINITE);
        }
        4 => cut(rng, protected),
        5 => put_outside(rng, n_qubits, protected),
        6 => put_outside(rng, n_qubits, words),
        7 => put_not_finite(rng, coeffs),
        8 => shorten(rng, words, WORD_LANES * places),
        9 => shorten(rng, coeffs, places),
        _ => {
            let count = protected.len() / WORD_LANES;
            let rows = leakage_sizes(n_qubits, 0, 0, 0, 0).h_index;
            match rng.below(6) {
                0 => shorten(rng, &mut room.h_index, rows),
                1 => shorten(rng, &mut room.j_index, rows),
                2 => shorten(rng, &mut room.mask, 64),
                3 => shorten(rng, &mut room.order, places),
                4 => shorten(rng, &mut room.heads, places + count),
                _ => shorten(rng, &mut room.nexts, places + count),
            }
        }
    }
}
