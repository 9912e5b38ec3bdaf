// SPDX-FileCopyrightText: 2026 The PPVM Authors
// SPDX-License-Identifier: Apache-2.0

//! Models.

use super::{parse_pauli_string, status};
use crate::inputs::models::Items;
use crate::port::{LANES, Status};
use num::Complex;
use ppvm_lindblad::{Error, JumpInput, LindbladSpec};

/// The published model, with as many chunks.
pub type RustModel = LindbladSpec<LANES>;

/// Items as the Rust takes them.
pub struct RustItems {
    n_qubits: usize,
    hamiltonian: Vec<(String, f64)>,
    jumps: Vec<JumpInput>,
}

impl RustItems {
    /// Nothing where a text is no UTF-8, as a Rust text must be.
    pub fn new(items: &Items) -> Option<Self> {
        let text = |bytes: &Vec<u8>| String::from_utf8(bytes.clone()).ok();
        let hamiltonian = items
            .hamiltonian
            .iter()
            .map(|(bytes, number)| Some((text(bytes)?, *number)))
            .collect::<Option<_>>()?;
        let jump = |(rate, terms): &(f64, Vec<(Vec<u8>, (f64, f64))>)| {
            let term = |(bytes, (re, im)): &(Vec<u8>, (f64, f64))| {
                Some((text(bytes)?, Complex::new(*re, *im)))
            };
            Some(JumpInput {
                lincomb: terms.iter().map(term).collect::<Option<_>>()?,
                rate: *rate,
            })
        };
        Some(Self {
            n_qubits: items.n_qubits,
            hamiltonian,
            jumps: items.jumps.iter().map(jump).collect::<Option<_>>()?,
        })
    }

    pub fn build(&self) -> Result<RustModel, Error> {
        LindbladSpec::new(self.n_qubits, &self.hamiltonian, &self.jumps)
    }

    /// All texts in the order in which they are read.
    fn texts(&self) -> impl Iterator<Item = &String> {
        let terms = self.jumps.iter().flat_map(|jump| &jump.lincomb);
        let terms = terms.map(|(text, _)| text);
        self.hamiltonian.iter().map(|(text, _)| text).chain(terms)
    }

    /// How building ended. The Rust stops at the first text that it cannot read, so the place of a
    /// refused letter is the place in that text.
    pub fn status(&self) -> Status {
        let error = match self.build() {
            Ok(_) => return Status::default(),
            Err(error) => error,
        };
        let mut status = status(&error);
        if let Error::InvalidPauliChar { .. } = error {
            let refused = self
                .texts()
                .map(|text| parse_pauli_string(text, self.n_qubits).status)
                .find(|status| status.refusal != 0)
                .expect("a refused letter is in a text");
            status.second = refused.second;
        }
        status
    }
}
