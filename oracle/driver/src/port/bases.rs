// SPDX-FileCopyrightText: 2026 The PPVM Authors
// SPDX-License-Identifier: Apache-2.0

//! Calls on a lent basis.

use super::{Status, WORD_LANES, Word};
use std::fmt::{Debug, Formatter};

#[repr(C)]
#[derive(Clone, Copy, Debug, Default, PartialEq, Eq)]
pub struct Kept {
    pub status: Status,
    pub entries: usize,
}

#[repr(C)]
#[derive(Clone, Copy, Debug, PartialEq, Eq)]
pub struct BasisSizes {
    pub order: usize,
    pub work: usize,
    pub fixed: usize,
    pub kept: usize,
}

/// What a call on a basis is lent to write to: the basis and the work tables.
#[derive(Clone)]
pub struct Basis {
    pub words: Vec<u64>,
    pub coeffs: Vec<f64>,
    pub order: Vec<u64>,
    pub work: Vec<u64>,
    pub fixed: Vec<u64>,
    pub kept: Vec<u64>,
}

impl Basis {
    /// The slices of words and work, and that of coefficients by their bits.
    fn same_bits(&self, other: &Self) -> bool {
        let bits = |x: &f64| x.to_bits();
        self.words == other.words
            && self.coeffs.len() == other.coeffs.len()
            && self
                .coeffs
                .iter()
                .map(bits)
                .eq(other.coeffs.iter().map(bits))
            && self.order == other.order
            && self.work == other.work
            && self.fixed == other.fixed
            && self.kept == other.kept
    }

    /// The first entries, as many as both slices have at most.
    pub fn entries(&self, count: usize) -> Vec<(Word, f64)> {
        let words = self.words.chunks_exact(WORD_LANES).map(Word::of);
        words.zip(self.coeffs.iter().copied()).take(count).collect()
    }
}

/// Bit for bit.
impl PartialEq for Basis {
    fn eq(&self, other: &Self) -> bool {
        self.same_bits(other)
    }
}

/// The basis, and which work tables are all zero.
impl Debug for Basis {
    fn fmt(&self, f: &mut Formatter) -> std::fmt::Result {
        let tables = [&self.order, &self.work, &self.fixed, &self.kept];
        let zero = tables.map(|table| table.iter().all(|&number| number == 0));
        write!(f, "{:x?} {:?}, work zero {zero:?}", self.words, self.coeffs)
    }
}

// What takes no pointer is safe to call.
unsafe extern "C" {
    safe fn pebblelinen_basis_sizes(
        entries: usize,
        protected_words: usize,
        listed: usize,
    ) -> BasisSizes;
    fn pebblelinen_prune_basis(
        n: usize,
        words: *mut u64,
        words_len: usize,
        coeffs: *mut f64,
        coeffs_len: usize,
        len: usize,
        protected_words: *const u64,
        protected_words_len: usize,
        drop_tol: f64,
        order: *mut u64,
        order_len: usize,
        work: *mut u64,
        work_len: usize,
        fixed: *mut u64,
        fixed_len: usize,
        kept: *mut u64,
        kept_len: usize,
    ) -> Kept;
    fn pebblelinen_cap_basis(
        n: usize,
        words: *mut u64,
        words_len: usize,
        coeffs: *mut f64,
        coeffs_len: usize,
        len: usize,
        protected_words: *const u64,
        protected_words_len: usize,
        limit: usize,
        order: *mut u64,
        order_len: usize,
        work: *mut u64,
        work_len: usize,
        fixed: *mut u64,
        fixed_len: usize,
        kept: *mut u64,
        kept_len: usize,
    ) -> Kept;
    fn pebblelinen_add_leakage_capped(
        n: usize,
        words: *mut u64,
        words_len: usize,
        coeffs: *mut f64,
        coeffs_len: usize,
        len: usize,
        list: *const u64,
        list_len: usize,
        values: *const f64,
        values_len: usize,
        limit: usize,
        order: *mut u64,
        order_len: usize,
        work: *mut u64,
        work_len: usize,
        kept: *mut u64,
        kept_len: usize,
    ) -> Kept;
}

pub fn basis_sizes(entries: usize, protected: usize, listed: usize) -> BasisSizes {
    pebblelinen_basis_sizes(entries, protected, listed)
}

/// The protected words are given by their lanes.
pub fn prune_basis(
    n: usize,
    len: usize,
    protected: &[u64],
    drop_tol: f64,
    basis: &mut Basis,
) -> Kept {
    // SAFETY: pointers and lengths are those of slices that outlive the call, and nobody else has
    // those of the basis meanwhile.
    unsafe {
        pebblelinen_prune_basis(
            n,
            basis.words.as_mut_ptr(),
            basis.words.len(),
            basis.coeffs.as_mut_ptr(),
            basis.coeffs.len(),
            len,
            protected.as_ptr(),
            protected.len(),
            drop_tol,
            basis.order.as_mut_ptr(),
            basis.order.len(),
            basis.work.as_mut_ptr(),
            basis.work.len(),
            basis.fixed.as_mut_ptr(),
            basis.fixed.len(),
            basis.kept.as_mut_ptr(),
            basis.kept.len(),
        )
    }
}

/// The same with a limit in place of the threshold.
pub fn cap_basis(n: usize, len: usize, protected: &[u64], limit: usize, basis: &mut Basis) -> Kept {
    // SAFETY: as above.
    unsafe {
        pebblelinen_cap_basis(
            n,
            basis.words.as_mut_ptr(),
            basis.words.len(),
            basis.coeffs.as_mut_ptr(),
            basis.coeffs.len(),
            len,
            protected.as_ptr(),
            protected.len(),
            limit,
            basis.order.as_mut_ptr(),
            basis.order.len(),
            basis.work.as_mut_ptr(),
            basis.work.len(),
            basis.fixed.as_mut_ptr(),
            basis.fixed.len(),
            basis.kept.as_mut_ptr(),
            basis.kept.len(),
        )
    }
}

/// The listed words are given by their lanes. The table `fixed` is not lent.
pub fn add_leakage_capped(
    n: usize,
    len: usize,
    list: &[u64],
    values: &[f64],
    limit: usize,
    basis: &mut Basis,
) -> Kept {
    // SAFETY: as above.
    unsafe {
        pebblelinen_add_leakage_capped(
            n,
            basis.words.as_mut_ptr(),
            basis.words.len(),
            basis.coeffs.as_mut_ptr(),
            basis.coeffs.len(),
            len,
            list.as_ptr(),
            list.len(),
            values.as_ptr(),
            values.len(),
            limit,
            basis.order.as_mut_ptr(),
            basis.order.len(),
            basis.work.as_mut_ptr(),
            basis.work.len(),
            basis.kept.as_mut_ptr(),
            basis.kept.len(),
        )
    }
}
