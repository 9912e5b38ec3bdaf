// SPDX-FileCopyrightText: 2026 The PPVM Authors
// SPDX-License-Identifier: Apache-2.0

//! Leakage out of a lent basis.

use super::actions::Listed;
use super::models::{Lent, Model};
use super::{WORD_LANES, Word};
use std::fmt::{Debug, Formatter};

#[repr(C)]
#[derive(Clone, Copy, Debug, Default)]
pub struct Limits {
    pub max_basis: usize,
    pub admit_given: u64,
    pub admit_basis: usize,
    pub tau_given: u64,
    pub tau_add: f64,
}

#[repr(C)]
#[derive(Clone, Copy, Debug, PartialEq, Eq)]
pub struct LeakageSizes {
    pub h_index: usize,
    pub j_index: usize,
    pub mask: usize,
    pub work_words: usize,
    pub work_sums: usize,
    pub order: usize,
    pub heads: usize,
    pub nexts: usize,
    pub cand_words: usize,
    pub cand_sums: usize,
    pub place_order: usize,
    pub place_work: usize,
}

/// What leakage is given beside the model. Words are given by their lanes, and the first `len` are the
/// basis.
#[derive(Clone, Debug)]
pub struct Given {
    pub words: Vec<u64>,
    pub coeffs: Vec<f64>,
    pub len: usize,
    pub protected: Vec<u64>,
    pub limits: Limits,
}

/// What leakage is lent to write to: the work tables, and those of its list.
#[derive(Clone)]
pub struct LeakRoom {
    pub h_index: Vec<u64>,
    pub j_index: Vec<u64>,
    pub mask: Vec<u64>,
    pub work_words: Vec<u64>,
    pub work_sums: Vec<f64>,
    pub order: Vec<u64>,
    pub heads: Vec<u64>,
    pub nexts: Vec<u64>,
    pub cand_words: Vec<u64>,
    pub cand_sums: Vec<f64>,
    pub place_order: Vec<u64>,
    pub place_work: Vec<u64>,
    pub out_words: Vec<u64>,
    pub out_values: Vec<f64>,
}

impl LeakRoom {
    /// Tables of these lengths, and so many places to list into.
    pub fn of(lengths: &LeakageSizes, listed: usize) -> Self {
        Self {
            h_index: vec![0; lengths.h_index],
            j_index: vec![0; lengths.j_index],
            mask: vec![0; lengths.mask],
            work_words: vec![0; lengths.work_words],
            work_sums: vec![0.0; lengths.work_sums],
            order: vec![0; lengths.order],
            heads: vec![0; lengths.heads],
            nexts: vec![0; lengths.nexts],
            cand_words: vec![0; lengths.cand_words],
            cand_sums: vec![0.0; lengths.cand_sums],
            place_order: vec![0; lengths.place_order],
            place_work: vec![0; lengths.place_work],
            out_words: vec![0; WORD_LANES * listed],
            out_values: vec![0.0; listed],
        }
    }

    /// The tables of lanes and places that are work tables.
    pub fn work_lanes(&mut self) -> [&mut Vec<u64>; 10] {
        [
            &mut self.h_index,
            &mut self.j_index,
            &mut self.mask,
            &mut self.work_words,
            &mut self.order,
            &mut self.heads,
            &mut self.nexts,
            &mut self.cand_words,
            &mut self.place_order,
            &mut self.place_work,
        ]
    }

    /// Those of numbers.
    pub fn work_numbers(&mut self) -> [&mut Vec<f64>; 2] {
        [&mut self.work_sums, &mut self.cand_sums]
    }

    /// All tables of lanes and places, and all of numbers.
    fn tables(&self) -> ([&Vec<u64>; 11], [&Vec<f64>; 3]) {
        let lanes = [
            &self.h_index,
            &self.j_index,
            &self.mask,
            &self.work_words,
            &self.order,
            &self.heads,
            &self.nexts,
            &self.cand_words,
            &self.place_order,
            &self.place_work,
            &self.out_words,
        ];
        let numbers = [&self.work_sums, &self.cand_sums, &self.out_values];
        (lanes, numbers)
    }

    /// How long the work tables are.
    pub fn lengths(&self) -> LeakageSizes {
        LeakageSizes {
            h_index: self.h_index.len(),
            j_index: self.j_index.len(),
            mask: self.mask.len(),
            work_words: self.work_words.len(),
            work_sums: self.work_sums.len(),
            order: self.order.len(),
            heads: self.heads.len(),
            nexts: self.nexts.len(),
            cand_words: self.cand_words.len(),
            cand_sums: self.cand_sums.len(),
            place_order: self.place_order.len(),
            place_work: self.place_work.len(),
        }
    }

    /// The first words of the list with their sums.
    pub fn list(&self, count: usize) -> Vec<(Word, f64)> {
        let words = self.out_words.chunks_exact(WORD_LANES).map(Word::of);
        words.zip(self.out_values.clone()).take(count).collect()
    }
}

/// Bit for bit.
impl PartialEq for LeakRoom {
    fn eq(&self, other: &Self) -> bool {
        let ((lanes, numbers), (others, other_numbers)) = (self.tables(), other.tables());
        let bits = |table: &Vec<f64>| -> Vec<u64> { table.iter().map(|x| x.to_bits()).collect() };
        lanes == others && numbers.map(bits) == other_numbers.map(bits)
    }
}

/// The list's tables, and whether all work tables are zero.
impl Debug for LeakRoom {
    fn fmt(&self, f: &mut Formatter) -> std::fmt::Result {
        let (lanes, numbers) = self.tables();
        let zero = lanes[..10]
            .iter()
            .all(|table| table.iter().all(|&lane| lane == 0))
            && numbers[..2]
                .iter()
                .all(|table| table.iter().all(|x| x.to_bits() == 0));
        let lists = format!("{:x?} {:?}", self.out_words, self.out_values);
        write!(f, "{lists}{}", if zero { ", work zero" } else { "" })
    }
}

// What takes no pointer is safe to call.
unsafe extern "C" {
    safe fn pebblelinen_leakage_sizes(
        qubits: usize,
        entries: usize,
        protected_words: usize,
        touched: usize,
        candidates: usize,
    ) -> LeakageSizes;
    fn pebblelinen_leakage_with_prune(
        model: Model,
        h_words: *const u64,
        h_words_len: usize,
        h_coeffs: *const f64,
        h_coeffs_len: usize,
        jumps: *const u64,
        jumps_len: usize,
        rates: *const f64,
        rates_len: usize,
        t_words: *const u64,
        t_words_len: usize,
        t_numbers: *const f64,
        t_numbers_len: usize,
        words: *const u64,
        words_len: usize,
        coeffs: *const f64,
        coeffs_len: usize,
        len: usize,
        protected_words: *const u64,
        protected_words_len: usize,
        limits: Limits,
        h_index: *mut u64,
        h_index_len: usize,
        j_index: *mut u64,
        j_index_len: usize,
        mask: *mut u64,
        mask_len: usize,
        work_words: *mut u64,
        work_words_len: usize,
        work_sums: *mut f64,
        work_sums_len: usize,
        order: *mut u64,
        order_len: usize,
        heads: *mut u64,
        heads_len: usize,
        nexts: *mut u64,
        nexts_len: usize,
        cand_words: *mut u64,
        cand_words_len: usize,
        cand_sums: *mut f64,
        cand_sums_len: usize,
        place_order: *mut u64,
        place_order_len: usize,
        place_work: *mut u64,
        place_work_len: usize,
        out_words: *mut u64,
        out_words_len: usize,
        out_values: *mut f64,
        out_values_len: usize,
    ) -> Listed;
}

pub fn leakage_sizes(
    qubits: usize,
    entries: usize,
    protected: usize,
    touched: usize,
    candidates: usize,
) -> LeakageSizes {
    pebblelinen_leakage_sizes(qubits, entries, protected, touched, candidates)
}

pub fn leakage_with_prune(model: Model, lent: &Lent, given: &Given, room: &mut LeakRoom) -> Listed {
    // SAFETY: pointers and lengths are those of slices that outlive the call, and nobody else has
    // those of the room meanwhile.
    unsafe {
        pebblelinen_leakage_with_prune(
            model,
            lent.h_words.as_ptr(),
            lent.h_words.len(),
            lent.h_coeffs.as_ptr(),
            lent.h_coeffs.len(),
            lent.jumps.as_ptr(),
            lent.jumps.len(),
            lent.rates.as_ptr(),
            lent.rates.len(),
            lent.t_words.as_ptr(),
            lent.t_words.len(),
            lent.t_numbers.as_ptr(),
            lent.t_numbers.len(),
            given.words.as_ptr(),
            given.words.len(),
            given.coeffs.as_ptr(),
            given.coeffs.len(),
            given.len,
            given.protected.as_ptr(),
            given.protected.len(),
            given.limits,
            room.h_index.as_mut_ptr(),
            room.h_index.len(),
            room.j_index.as_mut_ptr(),
            room.j_index.len(),
            room.mask.as_mut_ptr(),
            room.mask.len(),
            room.work_words.as_mut_ptr(),
            room.work_words.len(),
            room.work_sums.as_mut_ptr(),
            room.work_sums.len(),
            room.order.as_mut_ptr(),
            room.order.len(),
            room.heads.as_mut_ptr(),
            room.heads.len(),
            room.nexts.as_mut_ptr(),
            room.nexts.len(),
            room.cand_words.as_mut_ptr(),
            room.cand_words.len(),
            room.cand_sums.as_mut_ptr(),
            room.cand_sums.len(),
            room.place_order.as_mut_ptr(),
            room.place_order.len(),
            room.place_work.as_mut_ptr(),
            room.place_work.len(),
            room.out_words.as_mut_ptr(),
            room.out_words.len(),
            room.out_values.as_mut_ptr(),
            room.out_values.len(),
        )
    }
}
