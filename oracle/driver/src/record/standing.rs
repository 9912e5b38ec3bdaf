// SPDX-FileCopyrightText: 2026 The PPVM Authors
// SPDX-License-Identifier: Apache-2.0

//! Models that were built, for the calls that are lent one. A case about such a call stands in a line like
//! that of a model or a matrix, without the answer to building.

use super::models::given_line;
use super::{Line, matrices, most};
use crate::inputs::Rng;
use crate::inputs::actions as inputs;
use crate::inputs::matrices::Matrix;
use crate::inputs::models::{self as model_inputs, Items};
use crate::port::WORD_LANES;
use crate::port::models::{Lent, Model, Sizes, model_sizes};
use crate::published::matrices::model as rust_model;
use crate::published::models::RustModel;
use crate::rules::models::build_model;

/// The most bytes of a model's texts, and terms: the recording is to stay small.
const BYTES: usize = 800;
const TERM_PLACES: usize = 256;

/// A model that was built, with what it was built from and the line so far.
pub(super) struct Standing {
    pub items: Items,
    pub matrices: Vec<Matrix>,
    pub line: Line,
    pub model: Model,
    pub lent: Lent,
}

impl Standing {
    /// Nothing where there is no room for it, or where its register has fewer qubits than these.
    pub fn of_items(rng: &mut Rng, kind: u64, from: usize, items: Items) -> Option<Self> {
        if items.n_qubits < from {
            return None;
        }
        let given = items.flat();
        let sizes = model_sizes(items.hamiltonian.len(), items.jumps.len(), items.longest());
        let sizes = Sizes {
            t_words: sizes.t_words.min(WORD_LANES * TERM_PLACES),
            t_numbers: sizes.t_numbers.min(2 * TERM_PLACES),
            ..sizes
        };
        let mut lent = model_inputs::lent(rng, sizes);
        let built = build_model(&given, items.n_qubits, &mut lent);
        (built.status.refusal == 0 && given.texts.len() <= most(BYTES, from)).then(|| Self {
            line: given_line(kind, items.n_qubits, &given, sizes),
            items,
            matrices: Vec::new(),
            model: built.model,
            lent,
        })
    }

    /// A small model, or now and then one of many items.
    pub fn of_model(rng: &mut Rng, kind: u64, from: usize, case: usize) -> Option<Self> {
        let items = match case % 8 {
            0 if from == 0 => inputs::crowded(rng),
            _ => inputs::model(rng).0,
        };
        Self::of_items(rng, kind, from, items)
    }

    /// A matrix that is added to a few Hamiltonian terms I.
    pub fn of_matrix(
        rng: &mut Rng,
        kind: u64,
        from: usize,
        (n_qubits, matrix): (usize, Matrix),
    ) -> Option<Self> {
        if n_qubits < from {
            return None;
        }
        let case = matrices::Case::of(rng, n_qubits, matrix);
        let given = case.matrix.flat();
        let sizes = case.sizes(TERM_PLACES);
        let (built, lent) = case.add(&given, sizes);
        (built.status.refusal == 0 && given.texts.len() <= most(BYTES, from)).then(|| Self {
            line: given_line(kind, n_qubits, &case.given(given), sizes),
            items: case.before,
            matrices: vec![case.matrix],
            model: built.model,
            lent,
        })
    }

    /// The same model in the Rust, where it can be asked.
    pub fn rust(&self) -> Option<RustModel> {
        rust_model(&self.items, &self.matrices)
    }
}
