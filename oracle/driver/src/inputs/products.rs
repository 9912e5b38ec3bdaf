// SPDX-FileCopyrightText: 2026 The PPVM Authors
// SPDX-License-Identifier: Apache-2.0

//! Matrices by rows and vectors: zeros of both signs, numbers that cancel, and extreme ones.

use super::Rng;
use super::actions::{numbers, plain};
use super::bases::{put_not_finite, shorten};
use crate::port::products::{Csr, ProductRoom};
use crate::rules::actions::MAX_WORDS;

/// Numbers of which many products cancel or are 0, and extreme ones.
const FEW: [f64; 8] = [0.0, -0.0, 1.0, -1.0, 0.5, -0.5, 3.0, 1e16];
const EXTREME: [f64; 6] = [f64::MAX, -f64::MAX, 5e-324, -5e-324, 1e154, -1e154];

/// How the numbers of one case are.
#[derive(Clone, Copy)]
pub enum Sort {
    Few,
    Plain,
    Extreme,
}

impl Sort {
    pub fn new(rng: &mut Rng) -> Self {
        match rng.below(6) {
            0 => Self::Extreme,
            1 | 2 => Self::Plain,
            _ => Self::Few,
        }
    }

    fn number(self, rng: &mut Rng) -> f64 {
        match self {
            Self::Few => rng.pick(&FEW),
            Self::Plain => plain(rng),
            Self::Extreme if rng.one_in(3) => rng.pick(&EXTREME),
            Self::Extreme => plain(rng),
        }
    }
}

/// A vector, with zeros of both signs in most.
pub fn vector(rng: &mut Rng, length: usize, sort: Sort) -> Vec<f64> {
    let zeros = rng.pick(&[0, 2, 10]);
    let mut number = || match zeros > 0 && rng.one_in(zeros) {
        true => rng.pick(&[0.0, -0.0]),
        false => sort.number(rng),
    };
    (0..length).map(|_| number()).collect()
}

/// A matrix of so many rows, some of them empty, some full.
pub fn csr(rng: &mut Rng, rows: usize, sort: Sort) -> Csr {
    let mut csr = Csr {
        rows,
        offsets: vec![0],
        ..Csr::default()
    };
    for _ in 0..rows {
        let one_in = rng.pick(&[1, 2, 4, rows + 1]);
        let columns = (0..rows as u32).filter(|_| rng.one_in(one_in));
        csr.columns.extend(columns);
        csr.offsets.push(csr.columns.len() as u64);
    }
    csr.values = vector(rng, csr.columns.len(), sort);
    csr
}

/// An output of just the rows, and a work table that is perhaps longer, with something in it already.
pub fn room(rng: &mut Rng, rows: usize, sort: Sort) -> ProductRoom {
    let mut output = vector(rng, rows, sort);
    if rng.one_in(6) {
        put_not_finite(rng, &mut output);
    }
    let mut work = numbers(rows + rng.pick(&[0, 0, 1, 50]));
    if rng.one_in(2) {
        work.fill(0.0);
    }
    ProductRoom { output, work }
}

/// Something wrong with a matrix, a vector or a table.
pub fn spoil(rng: &mut Rng, csr: &mut Csr, input: &mut Vec<f64>, room: &mut ProductRoom) {
    let rows = csr.rows;
    match rng.below(14) {
        0 => csr.rows = rng.pick(&[MAX_WORDS + 1, usize::MAX, rows + 1, rows.saturating_sub(1)]),
        1 => other_length(rng, &mut csr.offsets),
        2 => other_length(rng, &mut csr.columns),
        3 => other_length(rng, &mut csr.values),
        4 => other_length(rng, input),
        5 => other_length(rng, &mut room.output),
        6 => shorten(rng, &mut room.work, rows),
        7 | 8 => spoil_offsets(rng, &mut csr.offsets),
        9 | 10 if !csr.columns.is_empty() => {
            let place = rng.below(csr.columns.len());
            let near = csr.columns[rng.below(csr.columns.len())];
            csr.columns[place] = rng.pick(&[near, rows as u32, u32::MAX, 0]);
        }
        11 => put_not_finite(rng, &mut csr.values),
        12 => put_not_finite(rng, input),
        _ => put_not_finite(rng, &mut room.output),
    }
}

fn other_length<T: Copy + Default>(rng: &mut Rng, table: &mut Vec<T>) {
    match rng.below(3) {
        0 => drop(table.pop()),
        1 => table.push(table.last().copied().unwrap_or_default()),
        _ => table.truncate(rng.below(table.len() + 1)),
    }
}

fn spoil_offsets(rng: &mut Rng, offsets: &mut [u64]) {
    if !offsets.is_empty() {
        let place = rng.below(offsets.len());
        let offset = offsets[place];
        let near = offsets[rng.below(offsets.len())];
        let others = [offset + 1, offset.wrapping_sub(1), near, 0, u64::MAX];
        offsets[place] = rng.pick(&others);
    }
}
