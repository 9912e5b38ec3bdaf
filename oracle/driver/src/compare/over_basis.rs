// SPDX-FileCopyrightText: 2026 The PPVM Authors
// SPDX-License-Identifier: Apache-2.0

//! Models with a basis of distinct words, for the calls about the generator.

use super::standing::Standing;
use crate::inputs::Rng;
use crate::inputs::actions as action_inputs;
use crate::inputs::generators as inputs;
use crate::inputs::matrices::Matrix;
use crate::inputs::models::{Items, spoil_model};
use crate::port::Word;
use crate::port::models::{Lent, Model};
use crate::published::models::RustModel;
use crate::rules::generators::{Acts, Entries, all_entries};
use crate::rules::norms::terms;

/// A model, with the Rust's where it can be asked, a basis, and the actions that were computed.
pub(super) struct OverBasis {
    pub standing: Standing,
    pub rust: Option<RustModel>,
    pub words: Vec<Word>,
    pub acts: Acts,
}

impl OverBasis {
    pub fn new(rng: &mut Rng, items: Items, matrices: Vec<Matrix>, words: Vec<Word>) -> Self {
        let built = Standing::built(rng, items);
        let standing = matrices
            .into_iter()
            .fold(built, |standing, matrix| standing.with_matrix(rng, matrix));
        Self {
            rust: standing.rust(),
            standing,
            words,
            acts: Acts::default(),
        }
    }

    /// A small model, and words of which many reach each other.
    pub fn random(rng: &mut Rng) -> Self {
        let (items, matrices) = action_inputs::model(rng);
        let mut over = Self::new(rng, items.clone(), matrices.clone(), Vec::new());
        let reached = |words: &[Word]| over.reached(words);
        let words = inputs::words(rng, &items, &matrices, reached);
        over.words = words;
        over
    }

    pub fn model(&self) -> Model {
        self.standing.model
    }

    pub fn lent(&self) -> &Lent {
        &self.standing.lent
    }

    /// The words that actions on these list.
    pub fn reached(&self, words: &[Word]) -> Vec<Word> {
        let acts = terms(self.model(), self.lent(), words, &self.acts);
        let lists = acts.into_iter().flat_map(|(_, terms)| terms);
        lists.map(|(w, _)| w).collect()
    }

    pub fn entries(&self) -> Entries {
        all_entries(self.model(), self.lent(), &self.words, &self.acts)
    }

    /// The same by the rules with a hypot for each square, as the Rust has it.
    pub fn by_hypots(&self, rng: &mut Rng) -> Option<Self> {
        Some(Self {
            standing: self.standing.by_hypots(rng)?,
            rust: None,
            words: self.words.clone(),
            acts: Acts::default(),
        })
    }

    /// Damages the model, which the Rust has no part in from now on.
    pub fn spoil_model(&mut self, rng: &mut Rng) {
        self.rust = None;
        self.acts = Acts::default();
        self.standing.made_of = None;
        let Standing { model, lent, .. } = &mut self.standing;
        spoil_model(rng, model, lent);
    }

    pub fn size(&self) -> usize {
        self.standing.size() + self.words.len()
    }

    pub fn input(&self) -> String {
        format!("{:?}, {:?}", self.standing.made_of, self.words)
    }
}
