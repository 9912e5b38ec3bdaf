// SPDX-FileCopyrightText: 2026 The PPVM Authors
// SPDX-License-Identifier: Apache-2.0

//! The generator, and what the Rust hands to its exponential: the same matrix by rows, which is private and
//! answers nothing but products.

use super::models::RustModel;
use super::{RustWord, bases::rust_words};
use crate::port::Word;
use crate::rules::generators::Entry;
use crate::rules::order;
use ppvm_lindblad::open::{self, Questions, Seen};

/// A model and a basis as the Rust has them.
pub struct RustGenerator<'a> {
    model: &'a RustModel,
    basis: Vec<RustWord>,
    words: Vec<Word>,
}

impl<'a> RustGenerator<'a> {
    pub fn new(model: &'a RustModel, words: &[Word]) -> Self {
        Self {
            model,
            basis: rust_words(model.n_qubits(), words),
            words: words.to_vec(),
        }
    }

    /// What the Rust lists, in its own order.
    #[inline(always)]
    pub fn list(&self) -> Vec<(usize, usize, f64)> {
        self.model.generator(&self.basis)
    }

    /// The same by column, then word.
    pub fn entries(&self) -> Vec<Entry> {
        let entry = |(row, column, value)| Entry { row, column, value };
        let mut list: Vec<Entry> = self.list().into_iter().map(entry).collect();
        let word = |entry: &Entry| self.words[entry.row];
        list.sort_by(|a, b| {
            let columns = a.column.cmp(&b.column);
            columns.then_with(|| order(word(a), word(b)))
        });
        list
    }

    /// What is handed to an exponential. Nothing over an empty basis.
    #[inline(always)]
    pub fn exponential(&self, dt: f64, drop_tol: f64, questions: Questions) -> Option<Seen> {
        open::exponential(self.model, &self.basis, dt, drop_tol, questions)
    }

    /// The entries of the matrix by rows, by row, then column.
    pub fn by_rows(&self) -> Vec<Entry> {
        let questions = Questions {
            entries: true,
            ..Questions::default()
        };
        let seen = self.exponential(1.0, 0.0, questions);
        let entries = seen.map_or(Vec::new(), |seen| seen.entries);
        let entry = |(row, column, value)| Entry { row, column, value };
        let mut list: Vec<Entry> = entries.into_iter().map(entry).collect();
        list.sort_by_key(|entry| (entry.row, entry.column));
        list
    }
}
