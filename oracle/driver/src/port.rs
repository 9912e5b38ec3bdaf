// SPDX-FileCopyrightText: 2026 The PPVM Authors
// SPDX-License-Identifier: Apache-2.0

//! The port, by its C interface.
//!
//! The structs and functions are those of `include/pebblelinen.h`, in its order. Nothing checks
//! one against the other, so change both together. All sides of the driver answer in these structs.

pub mod actions;
pub mod bases;
pub mod evolutions;
pub mod generators;
pub mod leakages;
pub mod matrices;
pub mod models;
pub mod norms;
pub mod products;

use std::fmt::{Debug, Formatter};

#[repr(C)]
#[derive(Clone, Copy, Debug, Default, PartialEq, Eq)]
pub struct Status {
    pub refusal: u64,
    pub first: u64,
    pub second: u64,
}

/// The x lanes of a word, and its z lanes. The Rust has as many chunks.
pub const LANES: usize = 4;

/// The lanes that a word has in a table: those of x, then those of z.
pub const WORD_LANES: usize = 2 * LANES;

#[repr(C)]
#[derive(Clone, Copy, Default, PartialEq, Eq)]
pub struct Word {
    pub x: [u64; LANES],
    pub z: [u64; LANES],
}

impl Word {
    /// The word of these lanes, in the order of tables.
    pub fn of(lanes: &[u64]) -> Self {
        let lane = |first: usize| std::array::from_fn(|i| lanes[first + i]);
        Self {
            x: lane(0),
            z: lane(LANES),
        }
    }

    /// The lanes in the order of tables.
    pub fn lanes(self) -> [u64; WORD_LANES] {
        std::array::from_fn(|i| match i < LANES {
            true => self.x[i],
            false => self.z[i - LANES],
        })
    }
}

/// The word in a place of a table.
pub fn word_at(words: &[u64], place: usize) -> Word {
    Word::of(&words[WORD_LANES * place..])
}

/// Puts a word in a place of a table.
pub fn set_word(words: &mut [u64], place: usize, word: Word) {
    words[WORD_LANES * place..][..WORD_LANES].copy_from_slice(&word.lanes());
}

/// Lanes are read as bits.
impl Debug for Word {
    fn fmt(&self, f: &mut Formatter) -> std::fmt::Result {
        write!(f, "x {:x?} z {:x?}", self.x, self.z)
    }
}

#[repr(C)]
#[derive(Clone, Copy, Debug, Default, PartialEq, Eq)]
pub struct Parsed {
    pub status: Status,
    pub word: Word,
}

#[repr(C)]
#[derive(Clone, Copy, Debug, Default, PartialEq, Eq)]
pub struct Fitting {
    pub status: Status,
    pub fits: bool,
}

#[repr(C)]
#[derive(Clone, Copy, Debug, PartialEq, Eq)]
pub struct Phased {
    pub word: Word,
    pub phase: u32,
}

#[repr(C)]
#[derive(Clone, Copy, Debug)]
pub struct Commutator {
    pub word: Word,
    pub eps: f64,
}

/// Bit for bit: 0 and -0 are two answers.
impl PartialEq for Commutator {
    fn eq(&self, other: &Self) -> bool {
        self.word == other.word && self.eps.to_bits() == other.eps.to_bits()
    }
}

// What takes no pointer is safe to call.
unsafe extern "C" {
    fn pebblelinen_parse_pauli_string(text: *const u8, text_len: usize, n_qubits: usize) -> Parsed;
    fn pebblelinen_word_from_codes(codes: *const u8, n_qubits: usize) -> Parsed;
    fn pebblelinen_codes_from_word(
        word: Word,
        n_qubits: usize,
        out: *mut u8,
        out_len: usize,
    ) -> Status;
    safe fn pebblelinen_pauli_mul(p: Word, q: Word) -> Phased;
    safe fn pebblelinen_anti_commutes(p: Word, q: Word) -> bool;
    safe fn pebblelinen_comm_product(h: Word, p: Word) -> Commutator;
    safe fn pebblelinen_compare_words(p: Word, q: Word) -> i32;
    safe fn pebblelinen_same_word(p: Word, q: Word) -> bool;
    safe fn pebblelinen_shares_qubit(p: Word, q: Word) -> bool;
    safe fn pebblelinen_fits_register(word: Word, n_qubits: usize) -> Fitting;
}

pub fn parse_pauli_string(text: &[u8], n_qubits: usize) -> Parsed {
    // SAFETY: the pointer and the length are those of a slice that outlives the call.
    unsafe { pebblelinen_parse_pauli_string(text.as_ptr(), text.len(), n_qubits) }
}

pub fn word_from_codes(codes: &[u8]) -> Parsed {
    // SAFETY: as above.
    unsafe { pebblelinen_word_from_codes(codes.as_ptr(), codes.len()) }
}

pub fn codes_from_word(word: Word, n_qubits: usize, out: &mut [u8]) -> Status {
    // SAFETY: as above, and nobody else has the slice meanwhile.
    unsafe { pebblelinen_codes_from_word(word, n_qubits, out.as_mut_ptr(), out.len()) }
}

#[inline(always)]
pub fn pauli_mul(p: Word, q: Word) -> Phased {
    pebblelinen_pauli_mul(p, q)
}

pub fn anti_commutes(p: Word, q: Word) -> bool {
    pebblelinen_anti_commutes(p, q)
}

pub fn comm_product(h: Word, p: Word) -> Commutator {
    pebblelinen_comm_product(h, p)
}

pub fn compare_words(p: Word, q: Word) -> i32 {
    pebblelinen_compare_words(p, q)
}

pub fn same_word(p: Word, q: Word) -> bool {
    pebblelinen_same_word(p, q)
}

pub fn shares_qubit(p: Word, q: Word) -> bool {
    pebblelinen_shares_qubit(p, q)
}

pub fn fits_register(word: Word, n_qubits: usize) -> Fitting {
    pebblelinen_fits_register(word, n_qubits)
}
