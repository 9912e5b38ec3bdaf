// SPDX-FileCopyrightText: 2026 The PPVM Authors
// SPDX-License-Identifier: Apache-2.0

//! The generator of a lent model over a lent basis, and the same matrix by rows.

use super::actions::Listed;
use super::models::{Lent, Model};
use std::fmt::{Debug, Formatter};

#[repr(C)]
#[derive(Clone, Copy, Debug, PartialEq, Eq)]
pub struct GeneratorSizes {
    pub h_index: usize,
    pub j_index: usize,
    pub mask: usize,
    pub heads: usize,
    pub nexts: usize,
    pub work_words: usize,
    pub work_sums: usize,
    pub stage_rows: usize,
    pub stage_columns: usize,
    pub stage_values: usize,
}

/// What both calls are lent to write to: the work tables, and those of the entries. The generator has rows
/// and no offsets, the matrix by rows has offsets and no rows.
#[derive(Clone)]
pub struct GeneratorRoom {
    pub h_index: Vec<u64>,
    pub j_index: Vec<u64>,
    pub mask: Vec<u64>,
    pub heads: Vec<u64>,
    pub nexts: Vec<u64>,
    pub work_words: Vec<u64>,
    pub work_sums: Vec<f64>,
    pub stage_rows: Vec<u32>,
    pub stage_columns: Vec<u32>,
    pub stage_values: Vec<f64>,
    pub rows: Vec<u32>,
    pub offsets: Vec<u64>,
    pub columns: Vec<u32>,
    pub values: Vec<f64>,
}

impl GeneratorRoom {
    /// Tables of these lengths that are all zero, and places for so many words and entries.
    pub fn of(lengths: &GeneratorSizes, words: usize, entries: usize) -> Self {
        Self {
            h_index: vec![0; lengths.h_index],
            j_index: vec![0; lengths.j_index],
            mask: vec![0; lengths.mask],
            heads: vec![0; lengths.heads],
            nexts: vec![0; lengths.nexts],
            work_words: vec![0; lengths.work_words],
            work_sums: vec![0.0; lengths.work_sums],
            stage_rows: vec![0; lengths.stage_rows],
            stage_columns: vec![0; lengths.stage_columns],
            stage_values: vec![0.0; lengths.stage_values],
            rows: vec![0; entries],
            offsets: vec![0; words + 1],
            columns: vec![0; entries],
            values: vec![0.0; entries],
        }
    }

    /// How long the work tables are.
    pub fn lengths(&self) -> GeneratorSizes {
        GeneratorSizes {
            h_index: self.h_index.len(),
            j_index: self.j_index.len(),
            mask: self.mask.len(),
            heads: self.heads.len(),
            nexts: self.nexts.len(),
            work_words: self.work_words.len(),
            work_sums: self.work_sums.len(),
            stage_rows: self.stage_rows.len(),
            stage_columns: self.stage_columns.len(),
            stage_values: self.stage_values.len(),
        }
    }

    /// The work tables become zero.
    pub fn clear_work(&mut self) {
        let Self {
            h_index,
            j_index,
            mask,
            heads,
            nexts,
            work_words,
            ..
        } = self;
        for table in [h_index, j_index, mask, heads, nexts, work_words] {
            table.fill(0);
        }
        self.stage_rows.fill(0);
        self.stage_columns.fill(0);
        self.work_sums.fill(0.0);
        self.stage_values.fill(0.0);
    }

    /// The work tables and the others, numbers by their bits.
    fn bits(&self) -> ([Vec<u64>; 10], [Vec<u64>; 4]) {
        let bits = |numbers: &[f64]| numbers.iter().map(|x| x.to_bits()).collect();
        let wide = |numbers: &[u32]| numbers.iter().map(|&x| x.into()).collect();
        let work = [
            self.h_index.clone(),
            self.j_index.clone(),
            self.mask.clone(),
            self.heads.clone(),
            self.nexts.clone(),
            self.work_words.clone(),
            bits(&self.work_sums),
            wide(&self.stage_rows),
            wide(&self.stage_columns),
            bits(&self.stage_values),
        ];
        let out = [
            wide(&self.rows),
            self.offsets.clone(),
            wide(&self.columns),
            bits(&self.values),
        ];
        (work, out)
    }
}

/// Bit for bit.
impl PartialEq for GeneratorRoom {
    fn eq(&self, other: &Self) -> bool {
        self.bits() == other.bits()
    }
}

/// The entries, and whether all work tables are zero.
impl Debug for GeneratorRoom {
    fn fmt(&self, f: &mut Formatter) -> std::fmt::Result {
        let (work, _) = self.bits();
        let zero = work.iter().flatten().all(|&x| x == 0);
        let Self {
            rows,
            offsets,
            columns,
            values,
            ..
        } = self;
        let zero = if zero { ", work zero" } else { "" };
        write!(f, "{rows:?} {offsets:?} {columns:?} {values:?}{zero}")
    }
}

// What takes no pointer is safe to call.
unsafe extern "C" {
    safe fn pebblelinen_generator_sizes(
        qubits: usize,
        words: usize,
        touched: usize,
        entries: usize,
    ) -> GeneratorSizes;
    fn pebblelinen_generator(
        model: Model,
        h_words: *const u64,
        h_words_len: usize,
        h_coeffs: *const f64,
        h_coeffs_len: usize,
        jumps: *const u64,
        jumps_len: usize,
        rates: *const f64,
        rates_len: usize,
        t_words: *const u64,
        t_words_len: usize,
        t_numbers: *const f64,
        t_numbers_len: usize,
        words: *const u64,
        words_len: usize,
        len: usize,
        h_index: *mut u64,
        h_index_len: usize,
        j_index: *mut u64,
        j_index_len: usize,
        mask: *mut u64,
        mask_len: usize,
        heads: *mut u64,
        heads_len: usize,
        nexts: *mut u64,
        nexts_len: usize,
        work_words: *mut u64,
        work_words_len: usize,
        work_sums: *mut f64,
        work_sums_len: usize,
        stage_rows: *mut u32,
        stage_rows_len: usize,
        stage_columns: *mut u32,
        stage_columns_len: usize,
        stage_values: *mut f64,
        stage_values_len: usize,
        rows: *mut u32,
        rows_len: usize,
        columns: *mut u32,
        columns_len: usize,
        values: *mut f64,
        values_len: usize,
    ) -> Listed;
    fn pebblelinen_build_csr(
        model: Model,
        h_words: *const u64,
        h_words_len: usize,
        h_coeffs: *const f64,
        h_coeffs_len: usize,
        jumps: *const u64,
        jumps_len: usize,
        rates: *const f64,
        rates_len: usize,
        t_words: *const u64,
        t_words_len: usize,
        t_numbers: *const f64,
        t_numbers_len: usize,
        words: *const u64,
        words_len: usize,
        len: usize,
        h_index: *mut u64,
        h_index_len: usize,
        j_index: *mut u64,
        j_index_len: usize,
        mask: *mut u64,
        mask_len: usize,
        heads: *mut u64,
        heads_len: usize,
        nexts: *mut u64,
        nexts_len: usize,
        work_words: *mut u64,
        work_words_len: usize,
        work_sums: *mut f64,
        work_sums_len: usize,
        stage_rows: *mut u32,
        stage_rows_len: usize,
        stage_columns: *mut u32,
        stage_columns_len: usize,
        stage_values: *mut f64,
        stage_values_len: usize,
        offsets: *mut u64,
        offsets_len: usize,
        columns: *mut u32,
        columns_len: usize,
        values: *mut f64,
        values_len: usize,
    ) -> Listed;
}

pub fn generator_sizes(
    qubits: usize,
    words: usize,
    touched: usize,
    entries: usize,
) -> GeneratorSizes {
    pebblelinen_generator_sizes(qubits, words, touched, entries)
}

pub fn generator(
    model: Model,
    lent: &Lent,
    words: &[u64],
    len: usize,
    room: &mut GeneratorRoom,
) -> Listed {
    // SAFETY: pointers and lengths are those of slices that outlive the call, and nobody else has
    // those of the room meanwhile.
    unsafe {
        pebblelinen_generator(
            model,
            lent.h_words.as_ptr(),
            lent.h_words.len(),
            lent.h_coeffs.as_ptr(),
            lent.h_coeffs.len(),
            lent.jumps.as_ptr(),
            lent.jumps.len(),
            lent.rates.as_ptr(),
            lent.rates.len(),
            lent.t_words.as_ptr(),
            lent.t_words.len(),
            lent.t_numbers.as_ptr(),
            lent.t_numbers.len(),
            words.as_ptr(),
            words.len(),
            len,
            room.h_index.as_mut_ptr(),
            room.h_index.len(),
            room.j_index.as_mut_ptr(),
            room.j_index.len(),
            room.mask.as_mut_ptr(),
            room.mask.len(),
            room.heads.as_mut_ptr(),
            room.heads.len(),
            room.nexts.as_mut_ptr(),
            room.nexts.len(),
            room.work_words.as_mut_ptr(),
            room.work_words.len(),
            room.work_sums.as_mut_ptr(),
            room.work_sums.len(),
            room.stage_rows.as_mut_ptr(),
            room.stage_rows.len(),
            room.stage_columns.as_mut_ptr(),
            room.stage_columns.len(),
            room.stage_values.as_mut_ptr(),
            room.stage_values.len(),
            room.rows.as_mut_ptr(),
            room.rows.len(),
            room.columns.as_mut_ptr(),
            room.columns.len(),
            room.values.as_mut_ptr(),
            room.values.len(),
        )
    }
}

pub fn build_csr(
    model: Model,
    lent: &Lent,
    words: &[u64],
    len: usize,
    room: &mut GeneratorRoom,
) -> Listed {
    // SAFETY: as above.
    unsafe {
        pebblelinen_build_csr(
            model,
            lent.h_words.as_ptr(),
            lent.h_words.len(),
            lent.h_coeffs.as_ptr(),
            lent.h_coeffs.len(),
            lent.jumps.as_ptr(),
            lent.jumps.len(),
            lent.rates.as_ptr(),
            lent.rates.len(),
            lent.t_words.as_ptr(),
            lent.t_words.len(),
            lent.t_numbers.as_ptr(),
            lent.t_numbers.len(),
            words.as_ptr(),
            words.len(),
            len,
            room.h_index.as_mut_ptr(),
            room.h_index.len(),
            room.j_index.as_mut_ptr(),
            room.j_index.len(),
            room.mask.as_mut_ptr(),
            room.mask.len(),
            room.heads.as_mut_ptr(),
            room.heads.len(),
            room.nexts.as_mut_ptr(),
            room.nexts.len(),
            room.work_words.as_mut_ptr(),
            room.work_words.len(),
            room.work_sums.as_mut_ptr(),
            room.work_sums.len(),
            room.stage_rows.as_mut_ptr(),
            room.stage_rows.len(),
            room.stage_columns.as_mut_ptr(),
            room.stage_columns.len(),
            room.stage_values.as_mut_ptr(),
            room.stage_values.len(),
            room.offsets.as_mut_ptr(),
            room.offsets.len(),
            room.columns.as_mut_ptr(),
            room.columns.len(),
            room.values.as_mut_ptr(),
            room.values.len(),
        )
    }
}
