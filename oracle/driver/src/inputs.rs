// SPDX-FileCopyrightText: 2026 The PPVM Authors
// SPDX-License-Identifier: Apache-2.0

//! Random inputs, the same for the same seed on every machine.
//!
//! Every generator leans towards the limits: registers around the ends of the lanes, letters on the
//! first and last qubit of a lane, inputs with nothing or one thing wrong.

pub mod actions;
pub mod bases;
pub mod generators;
pub mod leakages;
pub mod matrices;
pub mod models;
pub mod norms;
pub mod products;

use crate::port::{LANES, Word};
use crate::rules::{MAX_QUBITS, letters_of, word_of};

/// Registers around the limits.
#[rustfmt::skip]
const EDGES: [usize; 15] = [
    0, 1, 2, 63, 64, 65, 127, 128, 129, 191, 192, 193, 255, 256, MAX_QUBITS + 1,
];

/// The first and last qubit of each lane.
const LANE_ENDS: [usize; 2 * LANES] = [0, 63, 64, 127, 128, 191, 192, MAX_QUBITS - 1];

/// Characters of two, three and four bytes. The second's code point equals its first byte.
const NOT_ASCII: [char; 5] = ['\u{80}', 'Ã', 'é', '√', '𝄞'];

/// The generator splitmix64.
pub struct Rng(u64);

impl Rng {
    pub fn new(seed: u64) -> Self {
        Self(seed)
    }

    pub fn next(&mut self) -> u64 {
        self.0 = self.0.wrapping_add(0x9e37_79b9_7f4a_7c15);
        let mut z = self.0;
        z = (z ^ (z >> 30)).wrapping_mul(0xbf58_476d_1ce4_e5b9);
        z = (z ^ (z >> 27)).wrapping_mul(0x94d0_49bb_1331_11eb);
        z ^ (z >> 31)
    }

    /// A number below `limit`.
    pub fn below(&mut self, limit: usize) -> usize {
        (self.next() % limit as u64) as usize
    }

    /// True once in `n` times.
    pub fn one_in(&mut self, n: usize) -> bool {
        self.below(n) == 0
    }

    pub fn byte(&mut self) -> u8 {
        self.next() as u8
    }

    pub fn pick<T: Copy>(&mut self, choices: &[T]) -> T {
        choices[self.below(choices.len())]
    }
}

/// The register of the given case: each limit four times, then all to a little above the limit in turn,
/// then any of these, and now and then one far above.
pub fn register(rng: &mut Rng, case: usize) -> usize {
    let limits = 4 * EDGES.len();
    let all = MAX_QUBITS + 3;
    if case < limits {
        EDGES[case % EDGES.len()]
    } else if case < limits + all {
        case - limits
    } else if rng.one_in(50) {
        (rng.next() >> rng.below(56)) as usize
    } else if rng.one_in(3) {
        rng.pick(&EDGES)
    } else {
        rng.below(all)
    }
}

/// The same, of at least so many qubits.
pub fn register_from(rng: &mut Rng, case: usize, from: usize) -> usize {
    if from == 0 {
        return register(rng, case);
    }
    loop {
        let n_qubits = register(rng, usize::MAX);
        if n_qubits >= from {
            return n_qubits;
        }
    }
}

/// `n`, or one less, or one more.
fn about(rng: &mut Rng, n: usize) -> usize {
    match rng.below(6) {
        0 => n.saturating_sub(1),
        1 => n + 1,
        _ => n,
    }
}

/// A length for a register: near it, or now and then anything that is not too long, as always where
/// the register is far above the limit.
fn length(rng: &mut Rng, n_qubits: usize) -> usize {
    if n_qubits > 2 * MAX_QUBITS || rng.one_in(100) {
        rng.below(4 * MAX_QUBITS)
    } else {
        about(rng, n_qubits)
    }
}

/// `count` letters, every weight as likely as every other.
fn letters(rng: &mut Rng, count: usize) -> Vec<u8> {
    let mut letters = vec![b'I'; count];
    let mut weight = rng.below(count + 1);
    for (qubit, letter) in letters.iter_mut().enumerate() {
        if rng.below(count - qubit) < weight {
            *letter = rng.pick(b"XYZ");
            weight -= 1;
        }
    }
    for qubit in LANE_ENDS {
        if qubit < count && rng.one_in(2) {
            letters[qubit] = rng.pick(b"IXYZ");
        }
    }
    letters
}

/// A word on `n_qubits` qubits, at most as many as it can have.
pub fn word(rng: &mut Rng, n_qubits: usize) -> Word {
    word_of(&letters(rng, n_qubits))
}

/// Two words on one register of as many at most: unrelated, with some lanes alike, or apart in at most
/// two letters.
pub fn pair(rng: &mut Rng, n_qubits: usize) -> (Word, Word) {
    let p = word(rng, n_qubits);
    let mut q = word(rng, n_qubits);
    match rng.below(3) {
        0 => copy_lanes(rng, p, &mut q),
        1 => q = neighbour(rng, p, n_qubits),
        _ => {}
    }
    (p, q)
}

/// Gives `q` some of the lanes of `p`.
fn copy_lanes(rng: &mut Rng, p: Word, q: &mut Word) {
    let from = p.x.iter().chain(&p.z);
    let to = q.x.iter_mut().chain(&mut q.z);
    for (to, from) in to.zip(from) {
        if rng.one_in(2) {
            *to = *from;
        }
    }
}

/// A word that is apart from `p` in at most two letters.
fn neighbour(rng: &mut Rng, p: Word, n_qubits: usize) -> Word {
    let mut letters = letters_of(p);
    for _ in 0..rng.below(3).min(n_qubits) {
        letters[rng.below(n_qubits)] = rng.pick(b"IXYZ");
    }
    word_of(&letters)
}

/// Both words of every pair of letters on every qubit, the other qubits I.
pub fn letter_pairs() -> impl Iterator<Item = (Word, Word)> {
    let words = |qubit: usize| {
        b"IXYZ".map(|letter| {
            let mut letters = [b'I'; MAX_QUBITS];
            letters[qubit] = letter;
            word_of(&letters)
        })
    };
    (0..MAX_QUBITS).flat_map(move |qubit| {
        let words = words(qubit);
        words.into_iter().flat_map(move |p| words.map(|q| (p, q)))
    })
}

/// A text for a register: letters, some `_`, and often something wrong.
pub fn text(rng: &mut Rng, n_qubits: usize) -> Vec<u8> {
    let count = length(rng, n_qubits);
    let mut text = letters(rng, count);
    if rng.one_in(2) {
        for _ in 0..=rng.below(2) {
            damage(rng, &mut text);
        }
    }
    if rng.one_in(2) {
        for _ in 0..=rng.below(4) {
            text.insert(rng.below(text.len() + 1), b'_');
        }
    }
    text
}

/// Puts something that is no letter in the place of one.
fn damage(rng: &mut Rng, text: &mut Vec<u8>) {
    if text.is_empty() {
        return;
    }
    let place = rng.below(text.len());
    match rng.below(5) {
        0 => text[place] = text[place].to_ascii_lowercase(),
        1 => text[place] = rng.byte() % 128,
        2 => text[place] = rng.byte() | 128,
        _ => {
            let mut bytes = [0; 4];
            let bytes = rng.pick(&NOT_ASCII).encode_utf8(&mut bytes).bytes();
            text.splice(place..=place, bytes);
        }
    }
}

/// A text of ASCII bytes for a register.
pub fn ascii_text(rng: &mut Rng, n_qubits: usize) -> Vec<u8> {
    loop {
        let text = text(rng, n_qubits);
        if text.is_ascii() {
            return text;
        }
    }
}

/// Codes for a register, some above 3.
pub fn codes(rng: &mut Rng, n_qubits: usize) -> Vec<u8> {
    let count = length(rng, n_qubits);
    let mut codes: Vec<u8> = (0..count).map(|_| rng.byte() % 4).collect();
    if count > 0 && rng.one_in(3) {
        for _ in 0..=rng.below(3) {
            codes[rng.below(count)] = rng.byte();
        }
    }
    codes
}

/// Places to write the codes of a register to, with something in them already.
pub fn places(rng: &mut Rng, n_qubits: usize) -> Vec<u8> {
    let spare = if rng.one_in(4) { rng.below(8) } else { 0 };
    let count = length(rng, n_qubits) + spare;
    (0..count).map(|_| rng.byte()).collect()
}
