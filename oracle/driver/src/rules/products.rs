// SPDX-FileCopyrightText: 2026 The PPVM Authors
// SPDX-License-Identifier: Apache-2.0

//! A lent matrix by rows: where a row stands, and its product with a vector.

use super::actions::MAX_WORDS;
use super::bases::finite;
use super::models::{Answer, at_most, equal, lent_places, refuse};
use crate::port::Status;
use crate::port::products::{Csr, ProductRoom, Row};
use std::ops::Range;

/// From its own offset to before the next one, the offsets being right.
fn places(csr: &Csr, row: usize) -> Range<usize> {
    csr.offsets[row] as usize..csr.offsets[row + 1] as usize
}

/// The first place at which an offset is wrong.
fn wrong_offset(csr: &Csr) -> Option<usize> {
    let entries = csr.columns.len() as u64;
    (0..=csr.rows).find(|&place| {
        let offset = csr.offsets[place];
        let starts = place > 0 || offset == 0;
        let rises = place == 0 || csr.offsets[place - 1] <= offset;
        let ends = place < csr.rows || offset == entries;
        !(starts && rises && ends)
    })
}

/// The first place at which a column is wrong, the offsets being right.
fn wrong_column(csr: &Csr) -> Option<usize> {
    (0..csr.rows).find_map(|row| {
        let mut places = places(csr, row);
        let start = places.start;
        places.find(|&place| {
            let column = csr.columns[place];
            let rises = place == start || csr.columns[place - 1] < column;
            !rises || column as usize >= csr.rows
        })
    })
}

/// 7 where something is wrong at a place.
fn right(wrong: Option<usize>) -> Answer<()> {
    match wrong {
        Some(place) => refuse(7, place, 0),
        None => Ok(()),
    }
}

/// The matrix, then the row.
fn row_tested(csr: &Csr, row: usize) -> Answer<()> {
    at_most(MAX_WORDS, csr.rows)?;
    equal(csr.rows + 1, csr.offsets.len())?;
    right(wrong_offset(csr))?;
    right(wrong_column(csr))?;
    right((csr.rows <= row).then_some(row))
}

pub fn csr_row(csr: &Csr, row: usize) -> Row {
    match row_tested(csr, row) {
        Err(status) => Row {
            status,
            ..Row::default()
        },
        Ok(()) => {
            let Range { start, end } = places(csr, row);
            Row {
                status: Status::default(),
                start,
                end,
            }
        }
    }
}

fn product_tested(csr: &Csr, input: &[f64], overwrite: bool, room: &ProductRoom) -> Answer<()> {
    at_most(MAX_WORDS, csr.rows)?;
    equal(csr.rows + 1, csr.offsets.len())?;
    equal(csr.columns.len(), csr.values.len())?;
    equal(csr.rows, input.len())?;
    equal(csr.rows, room.output.len())?;
    lent_places(csr.rows, room.work.len())?;
    right(wrong_offset(csr))?;
    right(wrong_column(csr))?;
    finite(0, &csr.values)?;
    finite(0, input)?;
    if overwrite {
        return Ok(());
    }
    finite(0, &room.output)
}

/// The sum of a row, from 0.
fn row_sum(csr: &Csr, input: &[f64], row: usize) -> f64 {
    let places = places(csr, row);
    let entries = csr.columns[places.clone()].iter().zip(&csr.values[places]);
    let factors = entries.map(|(&column, value)| (value, input[column as usize]));
    let used = factors.filter(|(_, x)| *x != 0.0);
    used.fold(0.0, |sum, (value, x)| sum + value * x)
}

pub fn dot(csr: &Csr, input: &[f64], overwrite: bool, room: &mut ProductRoom) -> Status {
    if let Err(status) = product_tested(csr, input, overwrite, room) {
        return status;
    }
    let stored = |row: usize| match overwrite {
        true => row_sum(csr, input, row),
        false => room.output[row] + row_sum(csr, input, row),
    };
    let product: Vec<f64> = (0..csr.rows).map(stored).collect();
    room.work.fill(0.0);
    match product.iter().position(|x| !x.is_finite()) {
        Some(row) => super::refusal(14, row, 0),
        None => {
            room.output = product;
            Status::default()
        }
    }
}
