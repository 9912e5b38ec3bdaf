// SPDX-FileCopyrightText: 2026 The PPVM Authors
// SPDX-License-Identifier: Apache-2.0

//! Matrices: adding. Each cause has as many cases as every other.
//!
//! A case stands in a line like that of a model: K for the rates, and operators for the jumps. The
//! model before is one of Hamiltonian terms I, whose words are zero as the tables of replaying are.

use super::models::{TERM_PLACES, line, short};
use super::{Line, most};
use crate::inputs::matrices::{self as inputs, Matrix};
use crate::inputs::models::{self as model_inputs, Items};
use crate::inputs::{Rng, register_from};
use crate::port::WORD_LANES;
use crate::port::matrices::Given;
use crate::port::models::{self as port, Built, Lent, Model, Sizes};
use crate::published::matrices::RustMatrix;
use crate::published::models::RustItems;
use crate::rules::MAX_QUBITS;
use crate::rules::matrices as rules;
use crate::rules::models::Complex;

/// What the Rust answers as document 01 does, 0 for acceptance, and what it does not refuse.
const ANSWERED: [u64; 8] = [0, 0, 0, 2, 3, 6, 9, 10];
const REFUSED_BY_DOCUMENT: [u64; 5] = [1, 7, 8, 9, 13];

/// The most bytes, terms and numbers of a case, operators and terms: the recording is to stay small.
const LARGEST: usize = 240;
const OPERATORS: usize = 8;
const TERMS: usize = 40;

pub fn record(seed: u64, cases: usize, from: usize) {
    let rng = &mut Rng::new(seed);
    println!("# 7, as 5: a matrix added to a model of Hamiltonian terms I with these h_numbers; K");
    println!("#   stands for the rates, operators for the jumps");
    for case in tempting().into_iter().filter(|_| from == 0) {
        case.answered().expect("a sound case").print();
    }
    for case in 0..cases {
        answered(rng, from, ANSWERED[case % ANSWERED.len()]).print();
    }
    println!("# 8, as 7: refusals of document 01 that the Rust does not have");
    for case in 0..cases {
        let refusals = short(&REFUSED_BY_DOCUMENT, from);
        refused(rng, from, refusals[case % refusals.len()]).print();
    }
}

/// A matrix and the model that it is added to.
pub(super) struct Case {
    pub before: Items,
    pub matrix: Matrix,
}

impl Case {
    /// A small matrix, with something wrong in most.
    fn new(rng: &mut Rng, from: usize) -> Self {
        loop {
            let n_qubits = match from {
                0 => rng.below(6),
                _ => register_from(rng, 0, from).min(MAX_QUBITS),
            };
            let mut matrix = inputs::sound(rng, n_qubits);
            if !rng.one_in(4) {
                inputs::spoil(rng, n_qubits, &mut matrix);
            }
            let terms = matrix.operators.iter().map(Vec::len).sum::<usize>();
            if matrix.size() <= most(LARGEST, from)
                && matrix.operators.len() <= OPERATORS
                && terms <= TERMS
            {
                return Self::of(rng, n_qubits, matrix);
            }
        }
    }

    /// A matrix that is added to a few Hamiltonian terms I.
    pub fn of(rng: &mut Rng, n_qubits: usize, matrix: Matrix) -> Self {
        let identity = vec![b'I'; n_qubits];
        let count = rng.below(4);
        let number = |_| (identity.clone(), rng.below(5) as f64);
        let before = Items {
            n_qubits,
            hamiltonian: (0..count).map(number).collect(),
            jumps: Vec::new(),
        };
        Self { before, matrix }
    }

    fn h_numbers(&self) -> Vec<f64> {
        self.before.hamiltonian.iter().map(|(_, x)| *x).collect()
    }

    /// Lengths that are enough, with so many places for terms at most.
    pub fn sizes(&self, term_places: usize) -> Sizes {
        let model = Model {
            hamiltonian: self.before.hamiltonian.len(),
            ..Model::default()
        };
        let added = port::matrix_sizes(self.matrix.operators.len(), self.matrix.longest());
        let sizes = inputs::enough(model, added);
        let work = 256 + TERMS;
        Sizes {
            t_words: sizes.t_words.min(WORD_LANES * term_places),
            t_numbers: sizes.t_numbers.min(2 * term_places),
            work_words: WORD_LANES * work,
            work_numbers: 2 * work,
            ..sizes
        }
    }

    /// The answer of the rules in tables that are all zero but for the Hamiltonian's numbers, and the
    /// tables.
    pub fn add(&self, given: &Given, sizes: Sizes) -> (Built, Lent) {
        let h_numbers = self.h_numbers();
        let model = Model {
            qubits: self.before.n_qubits,
            hamiltonian: h_numbers.len(),
            ..Model::default()
        };
        let mut lent = Lent {
            h_words: vec![0; sizes.h_words],
            h_coeffs: h_numbers,
            jumps: vec![0; sizes.jumps],
            rates: vec![0.0; sizes.rates],
            t_words: vec![0; sizes.t_words],
            t_numbers: vec![0.0; sizes.t_numbers],
            work_words: vec![0; sizes.work_words],
            work_numbers: vec![0.0; sizes.work_numbers],
        };
        (rules::add_kossakowski(model, given, &mut lent), lent)
    }

    /// The answer of the Rust: its status, and how many jumps and pairs its model has.
    fn rust(&self) -> Option<Built> {
        let mut model = RustItems::new(&self.before)?.build().ok()?;
        let matrix = RustMatrix::new(&self.matrix)?;
        let added = matrix.add(&mut model);
        let status = matrix.status(&added, self.before.n_qubits);
        let jumps = match added {
            Ok(()) => model.num_jump_terms(),
            Err(_) => 0,
        };
        let model = Model {
            jumps,
            ..Model::default()
        };
        Some(Built { status, model })
    }

    /// What is given as a model's line has it.
    pub fn given(&self, given: Given) -> port::Given {
        port::Given {
            texts: given.texts,
            lengths: given.lengths,
            h_numbers: self.h_numbers(),
            rates: given.k,
            counts: given.counts,
            numbers: given.numbers,
        }
    }

    /// The line, where the Rust gives the answer of the rules too.
    fn answered(&self) -> Option<Line> {
        let given = self.matrix.flat();
        let sizes = self.sizes(TERM_PLACES);
        let (built, _) = self.add(&given, sizes);
        let alike =
            |rust: Built| rust.status == built.status && rust.model.jumps == built.model.jumps;
        let line = || self.line(7, given, sizes, built);
        self.rust().is_some_and(alike).then(line)
    }

    fn line(&self, kind: u64, given: Given, sizes: Sizes, built: Built) -> Line {
        let n_qubits = self.before.n_qubits;
        line(kind, n_qubits, &self.given(given), sizes, built)
    }
}

/// A case with this answer, which the Rust gives too.
fn answered(rng: &mut Rng, from: usize, refusal: u64) -> Line {
    loop {
        let case = Case::new(rng, from);
        let (built, _) = case.add(&case.matrix.flat(), case.sizes(TERM_PLACES));
        if built.status.refusal == refusal
            && let Some(line) = case.answered()
        {
            return line;
        }
    }
}

/// The operators XI, and IX with a number.
pub(super) fn two(number: Complex) -> Vec<Vec<(Vec<u8>, Complex)>> {
    let operator = |text: &[u8], number| vec![(text.to_vec(), number)];
    vec![operator(b"XI", (1.0, 0.0)), operator(b"IX", number)]
}

/// Parts that are together above a tolerance, and whose square is below it: a pair that is skipped, and a K that
/// is Hermitian.
fn tempting() -> Vec<Case> {
    let (zero, one) = ((0.0, 0.0), (1.0, 0.0));
    let rows = [
        [[one, (6e-15, 6e-15)], [(6e-15, -6e-15), zero]],
        [[one, (6e-11, 6e-11)], [zero, one]],
    ];
    let case = |k: [[Complex; 2]; 2]| Case {
        before: Items {
            n_qubits: 2,
            hamiltonian: Vec::new(),
            jumps: Vec::new(),
        },
        matrix: Matrix {
            operators: two(one),
            k: k.map(Vec::from).to_vec(),
        },
    };
    rows.map(case).into()
}

/// A case with this answer, which is that of document 01 alone.
fn refused(rng: &mut Rng, from: usize, refusal: u64) -> Line {
    loop {
        let mut case = Case::new(rng, from);
        if rng.one_in(8) {
            case.before.n_qubits = MAX_QUBITS + 1 + rng.below(3);
        }
        let mut given = case.matrix.flat();
        if rng.one_in(4) {
            inputs::spoil_lengths(rng, &mut given);
        }
        let mut sizes = case.sizes(TERM_PLACES);
        if rng.one_in(4) {
            model_inputs::other_length(rng, &mut sizes);
            sizes.h_coeffs = case.before.hamiltonian.len();
        }
        let (built, _) = case.add(&given, sizes);
        if built.status.refusal == refusal {
            return case.line(8, given, sizes, built);
        }
    }
}
