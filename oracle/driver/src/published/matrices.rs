// SPDX-FileCopyrightText: 2026 The PPVM Authors
// SPDX-License-Identifier: Apache-2.0

//! Matrices over operators, added to models.

use super::models::{RustItems, RustModel};
use super::{parse_pauli_string, status};
use crate::inputs::matrices::Matrix;
use crate::inputs::models::Items;
use crate::port::Status;
use num::Complex;
use ppvm_lindblad::Error;

/// Operators and K as the Rust takes them.
pub struct RustMatrix {
    operators: Vec<Vec<(String, Complex<f64>)>>,
    k: Vec<Vec<Complex<f64>>>,
}

/// A model of items and matrices. Nothing where it cannot be asked for, or is refused.
pub fn model(items: &Items, matrices: &[Matrix]) -> Option<RustModel> {
    let mut model = RustItems::new(items)?.build().ok()?;
    for matrix in matrices {
        RustMatrix::new(matrix)?.add(&mut model).ok()?;
    }
    Some(model)
}

impl RustMatrix {
    /// Nothing where a text is no UTF-8, as a Rust text must be.
    pub fn new(matrix: &Matrix) -> Option<Self> {
        let complex = |&(re, im): &(f64, f64)| Complex::new(re, im);
        let operator = |terms: &Vec<(Vec<u8>, (f64, f64))>| {
            let term = |(bytes, number): &(Vec<u8>, _)| {
                Some((String::from_utf8(bytes.clone()).ok()?, complex(number)))
            };
            terms.iter().map(term).collect::<Option<_>>()
        };
        let row = |row: &Vec<(f64, f64)>| row.iter().map(complex).collect();
        Some(Self {
            operators: matrix
                .operators
                .iter()
                .map(operator)
                .collect::<Option<_>>()?,
            k: matrix.k.iter().map(row).collect(),
        })
    }

    pub fn add(&self, model: &mut RustModel) -> Result<(), Error> {
        model.add_kossakowski(&self.operators, &self.k)
    }

    /// How adding ended. The Rust tells row lengths where document 01 tells the entries needed and
    /// given, which are taken here. It stops at the first text that it cannot read, so the place of
    /// a refused letter is the place in that text.
    pub fn status(&self, added: &Result<(), Error>, n_qubits: usize) -> Status {
        let error = match added {
            Ok(()) => return Status::default(),
            Err(error) => error,
        };
        let count = self.operators.len();
        match error {
            Error::LengthMismatch { .. } | Error::KMatrixRowLength { .. } => Status {
                refusal: 9,
                first: (count * count) as u64,
                second: self.k.iter().flatten().count() as u64,
            },
            Error::InvalidPauliChar { .. } => {
                let texts = self.operators.iter().flatten().map(|(text, _)| text);
                let place = texts
                    .map(|text| parse_pauli_string(text, n_qubits).status)
                    .find(|status| status.refusal != 0)
                    .expect("a refused letter is in a text");
                Status {
                    second: place.second,
                    ..status(error)
                }
            }
            _ => status(error),
        }
    }
}
