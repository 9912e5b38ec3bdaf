// SPDX-FileCopyrightText: 2026 The PPVM Authors
// SPDX-License-Identifier: Apache-2.0

//! Stand-in for the Pauli word itself. What it could distort is said in the crate's root.

use crate::bits::BitArray;
use ppvm_traits::PauliWordTrait;
use std::cmp::Ordering;
use std::hash::{BuildHasher, Hash, Hasher};
use std::marker::PhantomData;

/// A Pauli word with its hash. `REHASH` is a promise of the published type that `set` on a word
/// keeps the hash; the published files set bits below the word and call `rehash` themselves.
pub struct PauliWord<A, S, const REHASH: bool> {
    pub xbits: BitArray<A>,
    pub zbits: BitArray<A>,
    n_qubits: usize,
    hash: u64,
    hasher: PhantomData<fn() -> S>,
}

impl<const C: usize, S, const REHASH: bool> PauliWordTrait for PauliWord<[u64; C], S, REHASH>
where
    S: BuildHasher + Default,
{
    #[inline(always)]
    fn new(n_qubits: usize) -> Self {
        Self {
            xbits: BitArray::zero(),
            zbits: BitArray::zero(),
            n_qubits,
            hash: 0,
            hasher: PhantomData,
        }
    }

    #[inline(always)]
    fn n_qubits(&self) -> usize {
        self.n_qubits
    }

    #[inline(always)]
    fn rehash(&mut self) {
        let mut hasher = S::default().build_hasher();
        for lane in self.xbits.data.iter().chain(&self.zbits.data) {
            hasher.write_u64(*lane);
        }
        self.hash = hasher.finish();
    }
}

// The impls below are written out since a derive would ask the same of the hasher.

impl<A: Copy, S, const REHASH: bool> Clone for PauliWord<A, S, REHASH> {
    #[inline(always)]
    fn clone(&self) -> Self {
        *self
    }
}

impl<A: Copy, S, const REHASH: bool> Copy for PauliWord<A, S, REHASH> {}

impl<A: Ord, S, const REHASH: bool> PartialEq for PauliWord<A, S, REHASH> {
    #[inline(always)]
    fn eq(&self, other: &Self) -> bool {
        self.xbits == other.xbits && self.zbits == other.zbits
    }
}

impl<A: Ord, S, const REHASH: bool> Eq for PauliWord<A, S, REHASH> {}

impl<A: Ord, S, const REHASH: bool> PartialOrd for PauliWord<A, S, REHASH> {
    fn partial_cmp(&self, other: &Self) -> Option<Ordering> {
        Some(self.cmp(other))
    }
}

impl<A: Ord, S, const REHASH: bool> Ord for PauliWord<A, S, REHASH> {
    fn cmp(&self, other: &Self) -> Ordering {
        let z = || self.zbits.cmp(&other.zbits);
        self.xbits.cmp(&other.xbits).then_with(z)
    }
}

impl<A, S, const REHASH: bool> Hash for PauliWord<A, S, REHASH> {
    #[inline(always)]
    fn hash<H: Hasher>(&self, state: &mut H) {
        state.write_u64(self.hash);
    }
}
