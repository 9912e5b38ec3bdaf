// SPDX-FileCopyrightText: 2026 The PPVM Authors
// SPDX-License-Identifier: Apache-2.0

//! Matrices: adding one over as many operators as there may be, with no entry of K 0.
//!
//! The Rust's model is built, and its matrix made, before the clock starts; the port's tables hold an
//! empty model in each round. To tell where the port's time goes, it is also timed on a last number
//! of an operator that is refused, and on a terms table without places.

use super::Side;
use crate::inputs::Rng;
use crate::inputs::matrices as inputs;
use crate::inputs::models::{self as model_inputs, Items};
use crate::port::matrices as port;
use crate::port::models::{Built, Model, matrix_sizes};
use crate::published::matrices::RustMatrix;
use crate::published::models::{RustItems, RustModel};
use crate::rules::models::MAX_OPERATORS;

const TERMS: usize = 2;
const ROUNDS: usize = 100;

/// Whether both sides made equally many pairs.
pub fn bench(seed: u64, n_qubits: usize) -> bool {
    let rng = &mut Rng::new(seed);
    let neighbours = add("words on two neighbours", rng, n_qubits, true);
    let any = add("words of any weight", rng, n_qubits, false);
    neighbours && any
}

fn add(what: &str, rng: &mut Rng, n_qubits: usize, neighbours: bool) -> bool {
    let matrix = inputs::full(rng, n_qubits, neighbours, MAX_OPERATORS, TERMS);
    let empty = Items {
        n_qubits,
        hamiltonian: Vec::new(),
        jumps: Vec::new(),
    };
    let rust_model = || -> RustModel {
        let items = RustItems::new(&empty).expect("there are no texts");
        items.build().expect("no items are accepted")
    };
    let rust_matrix = RustMatrix::new(&matrix).expect("texts are ASCII");
    let model = Model {
        qubits: n_qubits,
        ..Model::default()
    };
    let given = matrix.flat();
    let sizes = matrix_sizes(MAX_OPERATORS, TERMS);
    let mut lent = model_inputs::lent(rng, sizes);

    let mut wrong = given.clone();
    *wrong.numbers.last_mut().expect("there are terms") = f64::NAN;
    let mut without_places = lent.clone();
    without_places.t_words.clear();

    let mut rust = Side::new("Rust");
    let mut port = Side::new("port");
    let mut tests = Side::new("port, tests alone");
    let mut counting = Side::new("port, tests and counting");
    for _ in 0..ROUNDS {
        let mut built = rust_model();
        rust.once(
            || {
                rust_matrix.add(&mut built).expect("it is accepted");
                built
            },
            |model| model.num_jump_terms() as u64,
        );
        port.once(
            || port::add_kossakowski(model, &given, &mut lent),
            |added| added.model.jumps as u64,
        );
        let refusal = |added: &Built| added.status.refusal;
        tests.once(|| port::add_kossakowski(model, &wrong, &mut lent), refusal);
        counting.once(
            || port::add_kossakowski(model, &given, &mut without_places),
            refusal,
        );
    }

    println!(
        "adding a matrix, n = {n_qubits}, {MAX_OPERATORS} operators of {TERMS} terms, no entry \
         of K 0, {what}, best of {ROUNDS} rounds:",
    );
    for side in [&rust, &port, &tests, &counting] {
        side.print();
    }
    port.print_ratio(&rust);
    rust.checksum == port.checksum
}
