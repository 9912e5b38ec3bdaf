// SPDX-FileCopyrightText: 2026 The PPVM Authors
// SPDX-License-Identifier: Apache-2.0

//! Matrices over operators, added to models.

use super::models::{Built, Lent, Model};

/// Operators and the matrix K over them, in flat slices.
#[derive(Clone, Debug, Default)]
pub struct Given {
    pub texts: Vec<u8>,
    pub lengths: Vec<u64>,
    pub counts: Vec<u64>,
    pub numbers: Vec<f64>,
    pub k: Vec<f64>,
}

unsafe extern "C" {
    fn pebblelinen_add_kossakowski(
        model: Model,
        texts: *const u8,
        texts_len: usize,
        lengths: *const u64,
        lengths_len: usize,
        counts: *const u64,
        counts_len: usize,
        numbers: *const f64,
        numbers_len: usize,
        k: *const f64,
        k_len: usize,
        h_words: *const u64,
        h_words_len: usize,
        h_coeffs: *const f64,
        h_coeffs_len: usize,
        jumps: *mut u64,
        jumps_len: usize,
        rates: *mut f64,
        rates_len: usize,
        t_words: *mut u64,
        t_words_len: usize,
        t_numbers: *mut f64,
        t_numbers_len: usize,
        work_words: *mut u64,
        work_words_len: usize,
        work_numbers: *mut f64,
        work_numbers_len: usize,
    ) -> Built;
}

pub fn add_kossakowski(model: Model, given: &Given, lent: &mut Lent) -> Built {
    // SAFETY: pointers and lengths are those of slices that outlive the call, and nobody else has
    // the lent ones meanwhile.
    unsafe {
        pebblelinen_add_kossakowski(
            model,
            given.texts.as_ptr(),
            given.texts.len(),
            given.lengths.as_ptr(),
            given.lengths.len(),
            given.counts.as_ptr(),
            given.counts.len(),
            given.numbers.as_ptr(),
            given.numbers.len(),
            given.k.as_ptr(),
            given.k.len(),
            lent.h_words.as_ptr(),
            lent.h_words.len(),
            lent.h_coeffs.as_ptr(),
            lent.h_coeffs.len(),
            lent.jumps.as_mut_ptr(),
            lent.jumps.len(),
            lent.rates.as_mut_ptr(),
            lent.rates.len(),
            lent.t_words.as_mut_ptr(),
            lent.t_words.len(),
            lent.t_numbers.as_mut_ptr(),
            lent.t_numbers.len(),
            lent.work_words.as_mut_ptr(),
            lent.work_words.len(),
            lent.work_numbers.as_mut_ptr(),
            lent.work_numbers.len(),
        )
    }
}
