// SPDX-FileCopyrightText: 2026 The PPVM Authors
// SPDX-License-Identifier: Apache-2.0

//! The norm of the generator over a lent basis, and the Taylor degree for it.

use super::Status;
use super::generators::GeneratorSizes;
use super::models::{Lent, Model};
use std::fmt::{Debug, Formatter};

#[repr(C)]
#[derive(Clone, Copy, Debug)]
pub struct Normed {
    pub status: Status,
    pub mu: f64,
    pub norm: f64,
}

#[repr(C)]
#[derive(Clone, Copy, Debug, PartialEq, Eq)]
pub struct Degree {
    pub status: Status,
    pub m: u32,
    pub s: u32,
}

#[repr(C)]
#[derive(Clone, Copy, Debug)]
pub struct Partition {
    pub status: Status,
    pub mu: f64,
    pub norm: f64,
    pub m: u32,
    pub s: u32,
}

/// Bit for bit.
impl PartialEq for Normed {
    fn eq(&self, other: &Self) -> bool {
        let bits = |of: &Self| (of.status, of.mu.to_bits(), of.norm.to_bits());
        bits(self) == bits(other)
    }
}

/// Bit for bit.
impl PartialEq for Partition {
    fn eq(&self, other: &Self) -> bool {
        let bits = |of: &Self| (of.status, of.mu.to_bits(), of.norm.to_bits(), of.m, of.s);
        bits(self) == bits(other)
    }
}

/// The work tables.
#[derive(Clone)]
pub struct NormRoom {
    pub h_index: Vec<u64>,
    pub j_index: Vec<u64>,
    pub mask: Vec<u64>,
    pub heads: Vec<u64>,
    pub nexts: Vec<u64>,
    pub work_words: Vec<u64>,
    pub work_sums: Vec<f64>,
    pub raws: Vec<f64>,
    pub diags: Vec<f64>,
}

impl NormRoom {
    /// Tables of these lengths that are all zero, and places for the numbers of so many columns.
    pub fn of(lengths: &GeneratorSizes, columns: usize) -> Self {
        Self {
            h_index: vec![0; lengths.h_index],
            j_index: vec![0; lengths.j_index],
            mask: vec![0; lengths.mask],
            heads: vec![0; lengths.heads],
            nexts: vec![0; lengths.nexts],
            work_words: vec![0; lengths.work_words],
            work_sums: vec![0.0; lengths.work_sums],
            raws: vec![0.0; columns],
            diags: vec![0.0; columns],
        }
    }

    /// All tables become zero.
    pub fn clear(&mut self) {
        for table in [
            &mut self.h_index,
            &mut self.j_index,
            &mut self.mask,
            &mut self.heads,
            &mut self.nexts,
            &mut self.work_words,
        ] {
            table.fill(0);
        }
        for table in [&mut self.work_sums, &mut self.raws, &mut self.diags] {
            table.fill(0.0);
        }
    }

    /// Numbers by their bits.
    fn bits(&self) -> [Vec<u64>; 9] {
        let bits = |numbers: &[f64]| numbers.iter().map(|x| x.to_bits()).collect();
        [
            self.h_index.clone(),
            self.j_index.clone(),
            self.mask.clone(),
            self.heads.clone(),
            self.nexts.clone(),
            self.work_words.clone(),
            bits(&self.work_sums),
            bits(&self.raws),
            bits(&self.diags),
        ]
    }
}

/// Bit for bit.
impl PartialEq for NormRoom {
    fn eq(&self, other: &Self) -> bool {
        self.bits() == other.bits()
    }
}

/// How long the tables are, and whether they are all zero.
impl Debug for NormRoom {
    fn fmt(&self, f: &mut Formatter) -> std::fmt::Result {
        let tables = self.bits();
        let zero = tables.iter().flatten().all(|&x| x == 0);
        let lengths = tables.map(|table| table.len());
        write!(f, "{lengths:?}{}", if zero { ", work zero" } else { "" })
    }
}

// What takes no pointer is safe to call.
unsafe extern "C" {
    safe fn pebblelinen_select_ms(t: f64, drop_tol: f64) -> Degree;
    fn pebblelinen_norm(
        model: Model,
        h_words: *const u64,
        h_words_len: usize,
        h_coeffs: *const f64,
        h_coeffs_len: usize,
        jumps: *const u64,
        jumps_len: usize,
        rates: *const f64,
        rates_len: usize,
        t_words: *const u64,
        t_words_len: usize,
        t_numbers: *const f64,
        t_numbers_len: usize,
        words: *const u64,
        words_len: usize,
        len: usize,
        h_index: *mut u64,
        h_index_len: usize,
        j_index: *mut u64,
        j_index_len: usize,
        mask: *mut u64,
        mask_len: usize,
        heads: *mut u64,
        heads_len: usize,
        nexts: *mut u64,
        nexts_len: usize,
        work_words: *mut u64,
        work_words_len: usize,
        work_sums: *mut f64,
        work_sums_len: usize,
        raws: *mut f64,
        raws_len: usize,
        diags: *mut f64,
        diags_len: usize,
    ) -> Normed;
    fn pebblelinen_expm_degree(
        model: Model,
        h_words: *const u64,
        h_words_len: usize,
        h_coeffs: *const f64,
        h_coeffs_len: usize,
        jumps: *const u64,
        jumps_len: usize,
        rates: *const f64,
        rates_len: usize,
        t_words: *const u64,
        t_words_len: usize,
        t_numbers: *const f64,
        t_numbers_len: usize,
        words: *const u64,
        words_len: usize,
        len: usize,
        dt: f64,
        drop_tol: f64,
        h_index: *mut u64,
        h_index_len: usize,
        j_index: *mut u64,
        j_index_len: usize,
        mask: *mut u64,
        mask_len: usize,
        heads: *mut u64,
        heads_len: usize,
        nexts: *mut u64,
        nexts_len: usize,
        work_words: *mut u64,
        work_words_len: usize,
        work_sums: *mut f64,
        work_sums_len: usize,
        raws: *mut f64,
        raws_len: usize,
        diags: *mut f64,
        diags_len: usize,
    ) -> Partition;
}

pub fn select_ms(t: f64, drop_tol: f64) -> Degree {
    pebblelinen_select_ms(t, drop_tol)
}

pub fn norm(model: Model, lent: &Lent, words: &[u64], len: usize, room: &mut NormRoom) -> Normed {
    // SAFETY: pointers and lengths are those of slices that outlive the call, and nobody else has
    // those of the room meanwhile.
    unsafe {
        pebblelinen_norm(
            model,
            lent.h_words.as_ptr(),
            lent.h_words.len(),
            lent.h_coeffs.as_ptr(),
            lent.h_coeffs.len(),
            lent.jumps.as_ptr(),
            lent.jumps.len(),
            lent.rates.as_ptr(),
            lent.rates.len(),
            lent.t_words.as_ptr(),
            lent.t_words.len(),
            lent.t_numbers.as_ptr(),
            lent.t_numbers.len(),
            words.as_ptr(),
            words.len(),
            len,
            room.h_index.as_mut_ptr(),
            room.h_index.len(),
            room.j_index.as_mut_ptr(),
            room.j_index.len(),
            room.mask.as_mut_ptr(),
            room.mask.len(),
            room.heads.as_mut_ptr(),
            room.heads.len(),
            room.nexts.as_mut_ptr(),
            room.nexts.len(),
            room.work_words.as_mut_ptr(),
            room.work_words.len(),
            room.work_sums.as_mut_ptr(),
            room.work_sums.len(),
            room.raws.as_mut_ptr(),
            room.raws.len(),
            room.diags.as_mut_ptr(),
            room.diags.len(),
        )
    }
}

pub fn expm_degree(
    model: Model,
    lent: &Lent,
    words: &[u64],
    len: usize,
    (dt, drop_tol): (f64, f64),
    room: &mut NormRoom,
) -> Partition {
    // SAFETY: as above.
    unsafe {
        pebblelinen_expm_degree(
            model,
            lent.h_words.as_ptr(),
            lent.h_words.len(),
            lent.h_coeffs.as_ptr(),
            lent.h_coeffs.len(),
            lent.jumps.as_ptr(),
            lent.jumps.len(),
            lent.rates.as_ptr(),
            lent.rates.len(),
            lent.t_words.as_ptr(),
            lent.t_words.len(),
            lent.t_numbers.as_ptr(),
            lent.t_numbers.len(),
            words.as_ptr(),
            words.len(),
            len,
            dt,
            drop_tol,
            room.h_index.as_mut_ptr(),
            room.h_index.len(),
            room.j_index.as_mut_ptr(),
            room.j_index.len(),
            room.mask.as_mut_ptr(),
            room.mask.len(),
            room.heads.as_mut_ptr(),
            room.heads.len(),
            room.nexts.as_mut_ptr(),
            room.nexts.len(),
            room.work_words.as_mut_ptr(),
            room.work_words.len(),
            room.work_sums.as_mut_ptr(),
            room.work_sums.len(),
            room.raws.as_mut_ptr(),
            room.raws.len(),
            room.diags.as_mut_ptr(),
            room.diags.len(),
        )
    }
}
