// SPDX-FileCopyrightText: 2026 The PPVM Authors
// SPDX-License-Identifier: Apache-2.0

//! Stand-in for the bit array inside a Pauli word: bit `q % 64` of lane `q / 64`.
//!
//! This layout is the one that document 01 names. Were the published one another, words would still
//! be compared letter by letter, but lanes would not.

use std::ops::Index;

#[derive(Clone, Copy, PartialEq, Eq, PartialOrd, Ord)]
pub struct BitArray<A> {
    pub data: A,
}

impl<const C: usize> BitArray<[u64; C]> {
    pub fn zero() -> Self {
        Self { data: [0; C] }
    }

    pub fn set(&mut self, q: usize, bit: bool) {
        let mask = 1 << (q % 64);
        if bit {
            self.data[q / 64] |= mask;
        } else {
            self.data[q / 64] &= !mask;
        }
    }
}

impl<const C: usize> Index<usize> for BitArray<[u64; C]> {
    type Output = bool;

    fn index(&self, q: usize) -> &bool {
        if self.data[q / 64] >> (q % 64) & 1 == 1 {
            &true
        } else {
            &false
        }
    }
}
