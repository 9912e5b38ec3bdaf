// SPDX-FileCopyrightText: 2026 The PPVM Authors
// SPDX-License-Identifier: Apache-2.0

//! The coefficients of a lent basis evolved over one time step.

use super::Status;
use super::models::{Lent, Model};

#[repr(C)]
#[derive(Clone, Copy, Debug, PartialEq, Eq)]
pub struct Evolved {
    pub status: Status,
    pub products: usize,
}

#[repr(C)]
#[derive(Clone, Copy, Debug, PartialEq, Eq)]
pub struct EvolutionSizes {
    pub h_index: usize,
    pub j_index: usize,
    pub mask: usize,
    pub heads: usize,
    pub nexts: usize,
    pub work_words: usize,
    pub work_sums: usize,
    pub stage_rows: usize,
    pub stage_columns: usize,
    pub stage_values: usize,
    pub offsets: usize,
    pub columns: usize,
    pub values: usize,
    pub v: usize,
    pub b: usize,
    pub product: usize,
}

/// The work tables, and the evolved numbers.
pub struct EvolutionRoom {
    pub h_index: Vec<u64>,
    pub j_index: Vec<u64>,
    pub mask: Vec<u64>,
    pub heads: Vec<u64>,
    pub nexts: Vec<u64>,
    pub work_words: Vec<u64>,
    pub work_sums: Vec<f64>,
    pub stage_rows: Vec<u32>,
    pub stage_columns: Vec<u32>,
    pub stage_values: Vec<f64>,
    pub offsets: Vec<u64>,
    pub columns: Vec<u32>,
    pub values: Vec<f64>,
    pub v: Vec<f64>,
    pub b: Vec<f64>,
    pub product: Vec<f64>,
    pub out: Vec<f64>,
}

impl EvolutionRoom {
    /// Tables of these lengths that are all zero, and places for the numbers of so many words.
    pub fn of(lengths: &EvolutionSizes, words: usize) -> Self {
        Self {
            h_index: vec![0; lengths.h_index],
            j_index: vec![0; lengths.j_index],
            mask: vec![0; lengths.mask],
            heads: vec![0; lengths.heads],
            nexts: vec![0; lengths.nexts],
            work_words: vec![0; lengths.work_words],
            work_sums: vec![0.0; lengths.work_sums],
            stage_rows: vec![0; lengths.stage_rows],
            stage_columns: vec![0; lengths.stage_columns],
            stage_values: vec![0.0; lengths.stage_values],
            offsets: vec![0; lengths.offsets],
            columns: vec![0; lengths.columns],
            values: vec![0.0; lengths.values],
            v: vec![0.0; lengths.v],
            b: vec![0.0; lengths.b],
            product: vec![0.0; lengths.product],
            out: vec![0.0; words],
        }
    }
}

// What takes no pointer is safe to call.
unsafe extern "C" {
    safe fn pebblelinen_evolution_sizes(
        qubits: usize,
        words: usize,
        touched: usize,
        entries: usize,
    ) -> EvolutionSizes;
    fn pebblelinen_evolve(
        model: Model,
        h_words: *const u64,
        h_words_len: usize,
        h_coeffs: *const f64,
        h_coeffs_len: usize,
        jumps: *const u64,
        jumps_len: usize,
        rates: *const f64,
        rates_len: usize,
        t_words: *const u64,
        t_words_len: usize,
        t_numbers: *const f64,
        t_numbers_len: usize,
        words: *const u64,
        words_len: usize,
        coeffs: *const f64,
        coeffs_len: usize,
        len: usize,
        dt: f64,
        drop_tol: f64,
        h_index: *mut u64,
        h_index_len: usize,
        j_index: *mut u64,
        j_index_len: usize,
        mask: *mut u64,
        mask_len: usize,
        heads: *mut u64,
        heads_len: usize,
        nexts: *mut u64,
        nexts_len: usize,
        work_words: *mut u64,
        work_words_len: usize,
        work_sums: *mut f64,
        work_sums_len: usize,
        stage_rows: *mut u32,
        stage_rows_len: usize,
        stage_columns: *mut u32,
        stage_columns_len: usize,
        stage_values: *mut f64,
        stage_values_len: usize,
        offsets: *mut u64,
        offsets_len: usize,
        columns: *mut u32,
        columns_len: usize,
        values: *mut f64,
        values_len: usize,
        v: *mut f64,
        v_len: usize,
        b: *mut f64,
        b_len: usize,
        product: *mut f64,
        product_len: usize,
        out: *mut f64,
        out_len: usize,
    ) -> Evolved;
}

pub fn evolution_sizes(
    qubits: usize,
    words: usize,
    touched: usize,
    entries: usize,
) -> EvolutionSizes {
    pebblelinen_evolution_sizes(qubits, words, touched, entries)
}

pub fn evolve(
    model: Model,
    lent: &Lent,
    words: &[u64],
    coeffs: &[f64],
    (dt, drop_tol): (f64, f64),
    room: &mut EvolutionRoom,
) -> Evolved {
    // SAFETY: pointers and lengths are those of slices that outlive the call, and nobody else has
    // those of the room meanwhile.
    unsafe {
        pebblelinen_evolve(
            model,
            lent.h_words.as_ptr(),
            lent.h_words.len(),
            lent.h_coeffs.as_ptr(),
            lent.h_coeffs.len(),
            lent.jumps.as_ptr(),
            lent.jumps.len(),
            lent.rates.as_ptr(),
            lent.rates.len(),
            lent.t_words.as_ptr(),
            lent.t_words.len(),
            lent.t_numbers.as_ptr(),
            lent.t_numbers.len(),
            words.as_ptr(),
            words.len(),
            coeffs.as_ptr(),
            coeffs.len(),
            coeffs.len(),
            dt,
            drop_tol,
            room.h_index.as_mut_ptr(),
            room.h_index.len(),
            room.j_index.as_mut_ptr(),
            room.j_index.len(),
            room.mask.as_mut_ptr(),
            room.mask.len(),
            room.heads.as_mut_ptr(),
            room.heads.len(),
            room.nexts.as_mut_ptr(),
            room.nexts.len(),
            room.work_words.as_mut_ptr(),
            room.work_words.len(),
            room.work_sums.as_mut_ptr(),
            room.work_sums.len(),
            room.stage_rows.as_mut_ptr(),
            room.stage_rows.len(),
            room.stage_columns.as_mut_ptr(),
            room.stage_columns.len(),
            room.stage_values.as_mut_ptr(),
            room.stage_values.len(),
            room.offsets.as_mut_ptr(),
            room.offsets.len(),
            room.columns.as_mut_ptr(),
            room.columns.len(),
            room.values.as_mut_ptr(),
            room.values.len(),
            room.v.as_mut_ptr(),
            room.v.len(),
            room.b.as_mut_ptr(),
            room.b.len(),
            room.product.as_mut_ptr(),
            room.product.len(),
            room.out.as_mut_ptr(),
            room.out.len(),
        )
    }
}
