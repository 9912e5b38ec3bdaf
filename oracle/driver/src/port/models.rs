// SPDX-FileCopyrightText: 2026 The PPVM Authors
// SPDX-License-Identifier: Apache-2.0

//! Models.

use super::Status;
use std::fmt::{Debug, Formatter};

#[repr(C)]
#[derive(Clone, Copy, Debug, Default, PartialEq, Eq)]
pub struct Model {
    pub qubits: usize,
    pub hamiltonian: usize,
    pub jumps: usize,
    pub terms: usize,
}

#[repr(C)]
#[derive(Clone, Copy, Debug, Default, PartialEq, Eq)]
pub struct Built {
    pub status: Status,
    pub model: Model,
}

#[repr(C)]
#[derive(Clone, Copy, Debug, PartialEq, Eq)]
pub struct Sizes {
    pub h_words: usize,
    pub h_coeffs: usize,
    pub jumps: usize,
    pub rates: usize,
    pub t_words: usize,
    pub t_numbers: usize,
    pub work_words: usize,
    pub work_numbers: usize,
}

/// What a model is built from, in flat slices.
#[derive(Clone, Debug, Default)]
pub struct Given {
    pub texts: Vec<u8>,
    pub lengths: Vec<u64>,
    pub h_numbers: Vec<f64>,
    pub rates: Vec<f64>,
    pub counts: Vec<u64>,
    pub numbers: Vec<f64>,
}

/// The tables of a model and the work tables.
#[derive(Clone)]
pub struct Lent {
    pub h_words: Vec<u64>,
    pub h_coeffs: Vec<f64>,
    pub jumps: Vec<u64>,
    pub rates: Vec<f64>,
    pub t_words: Vec<u64>,
    pub t_numbers: Vec<f64>,
    pub work_words: Vec<u64>,
    pub work_numbers: Vec<f64>,
}

impl Lent {
    /// How long the slices are.
    pub fn sizes(&self) -> Sizes {
        Sizes {
            h_words: self.h_words.len(),
            h_coeffs: self.h_coeffs.len(),
            jumps: self.jumps.len(),
            rates: self.rates.len(),
            t_words: self.t_words.len(),
            t_numbers: self.t_numbers.len(),
            work_words: self.work_words.len(),
            work_numbers: self.work_numbers.len(),
        }
    }

    /// The slices of words and entries, and those of numbers by their bits.
    fn bits(&self) -> [Vec<u64>; 8] {
        let bits = |numbers: &[f64]| numbers.iter().map(|x| x.to_bits()).collect();
        [
            self.h_words.clone(),
            bits(&self.h_coeffs),
            self.jumps.clone(),
            bits(&self.rates),
            self.t_words.clone(),
            bits(&self.t_numbers),
            self.work_words.clone(),
            bits(&self.work_numbers),
        ]
    }
}

/// Bit for bit.
impl PartialEq for Lent {
    fn eq(&self, other: &Self) -> bool {
        self.bits() == other.bits()
    }
}

/// The model's tables only: the work tables are long, and all zero where they are not as lent.
impl Debug for Lent {
    fn fmt(&self, f: &mut Formatter) -> std::fmt::Result {
        let zero = self.work_words.iter().all(|&lane| lane == 0)
            && self.work_numbers.iter().all(|x| x.to_bits() == 0);
        write!(
            f,
            "{:x?} {:?} {:?} {:?} {:x?} {:?}{}",
            self.h_words,
            self.h_coeffs,
            self.jumps,
            self.rates,
            self.t_words,
            self.t_numbers,
            if zero { ", work zero" } else { "" },
        )
    }
}

// What takes no pointer is safe to call.
unsafe extern "C" {
    safe fn pebblelinen_model_sizes(hamiltonian: usize, jumps: usize, terms: usize) -> Sizes;
    safe fn pebblelinen_matrix_sizes(operators: usize, terms: usize) -> Sizes;
    fn pebblelinen_build_model(
        texts: *const u8,
        texts_len: usize,
        lengths: *const u64,
        lengths_len: usize,
        h_numbers: *const f64,
        h_numbers_len: usize,
        given: *const f64,
        given_len: usize,
        counts: *const u64,
        counts_len: usize,
        numbers: *const f64,
        numbers_len: usize,
        n_qubits: usize,
        h_words: *mut u64,
        h_words_len: usize,
        h_coeffs: *mut f64,
        h_coeffs_len: usize,
        jumps: *mut u64,
        jumps_len: usize,
        rates: *mut f64,
        rates_len: usize,
        t_words: *mut u64,
        t_words_len: usize,
        t_numbers: *mut f64,
        t_numbers_len: usize,
        work_words: *mut u64,
        work_words_len: usize,
        work_numbers: *mut f64,
        work_numbers_len: usize,
    ) -> Built;
    fn pebblelinen_test_model(
        model: Model,
        h_words: *const u64,
        h_words_len: usize,
        h_coeffs: *const f64,
        h_coeffs_len: usize,
        jumps: *const u64,
        jumps_len: usize,
        rates: *const f64,
        rates_len: usize,
        t_words: *const u64,
        t_words_len: usize,
        t_numbers: *const f64,
        t_numbers_len: usize,
    ) -> Status;
}

pub fn model_sizes(hamiltonian: usize, jumps: usize, terms: usize) -> Sizes {
    pebblelinen_model_sizes(hamiltonian, jumps, terms)
}

pub fn matrix_sizes(operators: usize, terms: usize) -> Sizes {
    pebblelinen_matrix_sizes(operators, terms)
}

pub fn build_model(given: &Given, n_qubits: usize, lent: &mut Lent) -> Built {
    // SAFETY: pointers and lengths are those of slices that outlive the call, and nobody else has
    // the lent ones meanwhile.
    unsafe {
        pebblelinen_build_model(
            given.texts.as_ptr(),
            given.texts.len(),
            given.lengths.as_ptr(),
            given.lengths.len(),
            given.h_numbers.as_ptr(),
            given.h_numbers.len(),
            given.rates.as_ptr(),
            given.rates.len(),
            given.counts.as_ptr(),
            given.counts.len(),
            given.numbers.as_ptr(),
            given.numbers.len(),
            n_qubits,
            lent.h_words.as_mut_ptr(),
            lent.h_words.len(),
            lent.h_coeffs.as_mut_ptr(),
            lent.h_coeffs.len(),
            lent.jumps.as_mut_ptr(),
            lent.jumps.len(),
            lent.rates.as_mut_ptr(),
            lent.rates.len(),
            lent.t_words.as_mut_ptr(),
            lent.t_words.len(),
            lent.t_numbers.as_mut_ptr(),
            lent.t_numbers.len(),
            lent.work_words.as_mut_ptr(),
            lent.work_words.len(),
            lent.work_numbers.as_mut_ptr(),
            lent.work_numbers.len(),
        )
    }
}

pub fn test_model(model: Model, lent: &Lent) -> Status {
    // SAFETY: pointers and lengths are those of slices that outlive the call.
    unsafe {
        pebblelinen_test_model(
            model,
            lent.h_words.as_ptr(),
            lent.h_words.len(),
            lent.h_coeffs.as_ptr(),
            lent.h_coeffs.len(),
            lent.jumps.as_ptr(),
            lent.jumps.len(),
            lent.rates.as_ptr(),
            lent.rates.len(),
            lent.t_words.as_ptr(),
            lent.t_words.len(),
            lent.t_numbers.as_ptr(),
            lent.t_numbers.len(),
        )
    }
}
