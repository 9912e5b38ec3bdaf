// SPDX-FileCopyrightText: 2026 The PPVM Authors
// SPDX-License-Identifier: Apache-2.0

//! The action of a model on a word.

use super::models::{Lent, Model};
use super::{Status, WORD_LANES, Word};
use std::fmt::{Debug, Formatter};

#[repr(C)]
#[derive(Clone, Copy, Debug, Default, PartialEq, Eq)]
pub struct Listed {
    pub status: Status,
    pub count: usize,
}

/// What an action is lent beside the model: the work tables, and those of its list.
#[derive(Clone)]
pub struct Room {
    pub work_words: Vec<u64>,
    pub work_sums: Vec<f64>,
    pub out_words: Vec<u64>,
    pub out_values: Vec<f64>,
}

impl Room {
    /// The slices of words, and those of numbers by their bits.
    fn bits(&self) -> [Vec<u64>; 4] {
        let bits = |numbers: &[f64]| numbers.iter().map(|x| x.to_bits()).collect();
        [
            self.work_words.clone(),
            bits(&self.work_sums),
            self.out_words.clone(),
            bits(&self.out_values),
        ]
    }

    /// The first words of the list with their values.
    pub fn list(&self, count: usize) -> Vec<(Word, f64)> {
        let words = self.out_words.chunks_exact(WORD_LANES).map(Word::of);
        words.zip(self.out_values.clone()).take(count).collect()
    }
}

/// Bit for bit.
impl PartialEq for Room {
    fn eq(&self, other: &Self) -> bool {
        self.bits() == other.bits()
    }
}

/// The list's tables only: the work tables are all zero where they are not as lent.
impl Debug for Room {
    fn fmt(&self, f: &mut Formatter) -> std::fmt::Result {
        let zero = self.work_words.iter().all(|&lane| lane == 0)
            && self.work_sums.iter().all(|x| x.to_bits() == 0);
        let lists = format!("{:x?} {:?}", self.out_words, self.out_values);
        write!(f, "{lists}{}", if zero { ", work zero" } else { "" })
    }
}

#[repr(C)]
#[derive(Clone, Copy, Debug, Default, PartialEq, Eq)]
pub struct Counted {
    pub status: Status,
    pub touched: usize,
    pub listed: usize,
}

/// What counting is lent beside the model and the words: work tables only.
#[derive(Clone)]
pub struct CountRoom {
    pub h_index: Vec<u64>,
    pub j_index: Vec<u64>,
    pub mask: Vec<u64>,
    pub work_words: Vec<u64>,
    pub work_sums: Vec<f64>,
}

impl CountRoom {
    /// All lanes, and the numbers by their bits.
    fn bits(&self) -> [Vec<u64>; 5] {
        [
            self.h_index.clone(),
            self.j_index.clone(),
            self.mask.clone(),
            self.work_words.clone(),
            self.work_sums.iter().map(|x| x.to_bits()).collect(),
        ]
    }
}

/// Bit for bit.
impl PartialEq for CountRoom {
    fn eq(&self, other: &Self) -> bool {
        self.bits() == other.bits()
    }
}

/// The tables are long, and all zero where they are not as lent.
impl Debug for CountRoom {
    fn fmt(&self, f: &mut Formatter) -> std::fmt::Result {
        let zero = self.bits().iter().flatten().all(|&bits| bits == 0);
        write!(f, "{}", if zero { "work zero" } else { "work not zero" })
    }
}

unsafe extern "C" {
    fn pebblelinen_compute_action_terms(
        model: Model,
        h_words: *const u64,
        h_words_len: usize,
        h_coeffs: *const f64,
        h_coeffs_len: usize,
        jumps: *const u64,
        jumps_len: usize,
        rates: *const f64,
        rates_len: usize,
        t_words: *const u64,
        t_words_len: usize,
        t_numbers: *const f64,
        t_numbers_len: usize,
        p: Word,
        work_words: *mut u64,
        work_words_len: usize,
        work_sums: *mut f64,
        work_sums_len: usize,
        out_words: *mut u64,
        out_words_len: usize,
        out_values: *mut f64,
        out_values_len: usize,
    ) -> Listed;
    fn pebblelinen_count_action_terms(
        model: Model,
        h_words: *const u64,
        h_words_len: usize,
        h_coeffs: *const f64,
        h_coeffs_len: usize,
        jumps: *const u64,
        jumps_len: usize,
        rates: *const f64,
        rates_len: usize,
        t_words: *const u64,
        t_words_len: usize,
        t_numbers: *const f64,
        t_numbers_len: usize,
        words: *const u64,
        words_len: usize,
        h_index: *mut u64,
        h_index_len: usize,
        j_index: *mut u64,
        j_index_len: usize,
        mask: *mut u64,
        mask_len: usize,
        work_words: *mut u64,
        work_words_len: usize,
        work_sums: *mut f64,
        work_sums_len: usize,
    ) -> Counted;
}

pub fn compute_action_terms(model: Model, lent: &Lent, p: Word, room: &mut Room) -> Listed {
    // SAFETY: pointers and lengths are those of slices that outlive the call, and nobody else has
    // those of the room meanwhile.
    unsafe {
        pebblelinen_compute_action_terms(
            model,
            lent.h_words.as_ptr(),
            lent.h_words.len(),
            lent.h_coeffs.as_ptr(),
            lent.h_coeffs.len(),
            lent.jumps.as_ptr(),
            lent.jumps.len(),
            lent.rates.as_ptr(),
            lent.rates.len(),
            lent.t_words.as_ptr(),
            lent.t_words.len(),
            lent.t_numbers.as_ptr(),
            lent.t_numbers.len(),
            p,
            room.work_words.as_mut_ptr(),
            room.work_words.len(),
            room.work_sums.as_mut_ptr(),
            room.work_sums.len(),
            room.out_words.as_mut_ptr(),
            room.out_words.len(),
            room.out_values.as_mut_ptr(),
            room.out_values.len(),
        )
    }
}

/// The places that the actions on many words need, the words given by their lanes.
pub fn count_action_terms(
    model: Model,
    lent: &Lent,
    words: &[u64],
    room: &mut CountRoom,
) -> Counted {
    // SAFETY: as above.
    unsafe {
        pebblelinen_count_action_terms(
            model,
            lent.h_words.as_ptr(),
            lent.h_words.len(),
            lent.h_coeffs.as_ptr(),
            lent.h_coeffs.len(),
            lent.jumps.as_ptr(),
            lent.jumps.len(),
            lent.rates.as_ptr(),
            lent.rates.len(),
            lent.t_words.as_ptr(),
            lent.t_words.len(),
            lent.t_numbers.as_ptr(),
            lent.t_numbers.len(),
            words.as_ptr(),
            words.len(),
            room.h_index.as_mut_ptr(),
            room.h_index.len(),
            room.j_index.as_mut_ptr(),
            room.j_index.len(),
            room.mask.as_mut_ptr(),
            room.mask.len(),
            room.work_words.as_mut_ptr(),
            room.work_words.len(),
            room.work_sums.as_mut_ptr(),
            room.work_sums.len(),
        )
    }
}
