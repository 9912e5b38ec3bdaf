// SPDX-FileCopyrightText: 2026 The PPVM Authors
// SPDX-License-Identifier: Apache-2.0

//! A lent matrix by rows: where a row stands, and its product with a vector.

use super::Status;

/// A matrix by rows.
#[derive(Clone, Debug, Default)]
pub struct Csr {
    pub rows: usize,
    pub offsets: Vec<u64>,
    pub columns: Vec<u32>,
    pub values: Vec<f64>,
}

/// What a product writes to.
#[derive(Clone, Debug)]
pub struct ProductRoom {
    pub output: Vec<f64>,
    pub work: Vec<f64>,
}

/// Bit for bit.
impl PartialEq for ProductRoom {
    fn eq(&self, other: &Self) -> bool {
        let bits = |numbers: &[f64]| -> Vec<u64> { numbers.iter().map(|x| x.to_bits()).collect() };
        bits(&self.output) == bits(&other.output) && bits(&self.work) == bits(&other.work)
    }
}

/// Where a row stands.
#[repr(C)]
#[derive(Clone, Copy, Debug, Default, PartialEq, Eq)]
pub struct Row {
    pub status: Status,
    pub start: usize,
    pub end: usize,
}

unsafe extern "C" {
    fn pebblelinen_csr_row(
        rows: usize,
        offsets: *const u64,
        offsets_len: usize,
        columns: *const u32,
        columns_len: usize,
        row: usize,
    ) -> Row;
    fn pebblelinen_dot(
        rows: usize,
        offsets: *const u64,
        offsets_len: usize,
        columns: *const u32,
        columns_len: usize,
        values: *const f64,
        values_len: usize,
        input: *const f64,
        input_len: usize,
        overwrite: bool,
        output: *mut f64,
        output_len: usize,
        work: *mut f64,
        work_len: usize,
    ) -> Status;
}

pub fn csr_row(csr: &Csr, row: usize) -> Row {
    let Csr {
        offsets, columns, ..
    } = csr;
    // SAFETY: pointers and lengths are those of slices that outlive the call.
    unsafe {
        pebblelinen_csr_row(
            csr.rows,
            offsets.as_ptr(),
            offsets.len(),
            columns.as_ptr(),
            columns.len(),
            row,
        )
    }
}

pub fn dot(csr: &Csr, input: &[f64], overwrite: bool, room: &mut ProductRoom) -> Status {
    // SAFETY: as above, and nobody else has the slices of the room meanwhile.
    unsafe {
        pebblelinen_dot(
            csr.rows,
            csr.offsets.as_ptr(),
            csr.offsets.len(),
            csr.columns.as_ptr(),
            csr.columns.len(),
            csr.values.as_ptr(),
            csr.values.len(),
            input.as_ptr(),
            input.len(),
            overwrite,
            room.output.as_mut_ptr(),
            room.output.len(),
            room.work.as_mut_ptr(),
            room.work.len(),
        )
    }
}
