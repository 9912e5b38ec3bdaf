// SPDX-FileCopyrightText: 2026 The PPVM Authors
// SPDX-License-Identifier: Apache-2.0

//! Models that were built, for the calls that are lent one.

use crate::inputs::Rng;
use crate::inputs::matrices::{self as matrix_inputs, Matrix};
use crate::inputs::models::{self as inputs, Items};
use crate::port::Status;
use crate::port::matrices::add_kossakowski;
use crate::port::models::{Lent, Model, Sizes, build_model, matrix_sizes, model_sizes};
use crate::published::{self, models::RustModel};
use crate::rules;
use crate::rules::models::Magnitudes;

/// A model in lent tables, with what it was made of where that is known.
pub struct Standing {
    pub made_of: Option<(Items, Vec<Matrix>)>,
    pub model: Model,
    pub lent: Lent,
}

impl Standing {
    pub fn built(rng: &mut Rng, items: Items) -> Self {
        let mut lent = inputs::lent(rng, sizes(&items));
        let built = build_model(&items.flat(), items.n_qubits, &mut lent);
        assert_eq!(built.status, Status::default(), "sound items are accepted");
        Self {
            made_of: Some((items, Vec::new())),
            model: built.model,
            lent,
        }
    }

    /// The same with tables for what is added.
    pub fn with_room(&self, rng: &mut Rng, sizes: Sizes) -> Self {
        Self {
            made_of: self.made_of.clone(),
            model: self.model,
            lent: matrix_inputs::relent(rng, &self.lent, sizes),
        }
    }

    /// The same with a sound matrix more.
    pub fn with_matrix(self, rng: &mut Rng, matrix: Matrix) -> Self {
        let added = matrix_sizes(matrix.operators.len(), matrix.longest());
        let mut standing = self.with_room(rng, matrix_inputs::enough(self.model, added));
        let added = add_kossakowski(standing.model, &matrix.flat(), &mut standing.lent);
        assert_eq!(added.status, Status::default(), "it is accepted");
        standing.model = added.model;
        if let Some((_, matrices)) = &mut standing.made_of {
            matrices.push(matrix);
        }
        standing
    }

    /// The same model in the Rust, where it can be asked.
    pub fn rust(&self) -> Option<RustModel> {
        let (items, matrices) = self.made_of.as_ref()?;
        published::matrices::model(items, matrices)
    }

    /// The same by the rules with a hypot for each square, as the Rust has it.
    pub fn by_hypots(&self, rng: &mut Rng) -> Option<Self> {
        let by = Magnitudes::Hypots;
        let (items, matrices) = self.made_of.as_ref()?;
        let mut lent = inputs::lent(rng, sizes(items));
        let (given, n_qubits) = (items.flat(), items.n_qubits);
        let mut model = rules::models::build_model_by(by, &given, n_qubits, &mut lent).model;
        for matrix in matrices {
            let added = matrix_sizes(matrix.operators.len(), matrix.longest());
            lent = matrix_inputs::relent(rng, &lent, matrix_inputs::enough(model, added));
            let given = matrix.flat();
            model = rules::matrices::add_kossakowski_by(by, model, &given, &mut lent).model;
        }
        Some(Self {
            made_of: self.made_of.clone(),
            model,
            lent,
        })
    }

    /// The size of what it was made of, to tell small inputs from large ones.
    pub fn size(&self) -> usize {
        match &self.made_of {
            Some((items, matrices)) => {
                items.size() + matrices.iter().map(Matrix::size).sum::<usize>()
            }
            None => self.model.terms,
        }
    }
}

/// Lengths that are enough for a model of these items.
fn sizes(items: &Items) -> Sizes {
    model_sizes(items.hamiltonian.len(), items.jumps.len(), items.longest())
}
