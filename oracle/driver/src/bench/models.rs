// SPDX-FileCopyrightText: 2026 The PPVM Authors
// SPDX-License-Identifier: Apache-2.0

//! Models: building the largest one of Hamiltonian items and jumps.
//!
//! The Rust's items are made before the clock starts, and so are the port's tables. What the Rust
//! built is dropped after the clock was read. To tell where the port's time goes, it is also timed
//! on a last number that is refused, and on a terms table without places.

use super::Side;
use crate::inputs::Rng;
use crate::inputs::models::{self as inputs, Items};
use crate::port::models::{self as port, Built, Model};
use crate::published::models::{RustItems, RustModel};

const ROUNDS: usize = 100;

/// What both sides tell of a model.
fn digest(hamiltonian: usize, jumps: usize) -> u64 {
    (hamiltonian << 32 | jumps) as u64
}

/// Whether both sides built a model of the same counts.
pub fn bench(seed: u64, n_qubits: usize) -> bool {
    let rng = &mut Rng::new(seed);
    let neighbours = build("words on two neighbours", rng, n_qubits, true);
    let any = build("words of any weight", rng, n_qubits, false);
    neighbours && any
}

fn build(what: &str, rng: &mut Rng, n_qubits: usize, neighbours: bool) -> bool {
    let items = inputs::largest(rng, n_qubits, neighbours);
    let Items {
        n_qubits,
        hamiltonian,
        jumps,
    } = &items;
    let rust_items = RustItems::new(&items).expect("texts are ASCII");
    let given = items.flat();
    let sizes = port::model_sizes(hamiltonian.len(), jumps.len(), items.longest());
    let mut lent = inputs::lent(rng, sizes);

    let mut wrong = given.clone();
    *wrong.numbers.last_mut().expect("there are terms") = f64::NAN;
    let mut without_places = lent.clone();
    without_places.t_words.clear();

    let mut rust = Side::new("Rust");
    let mut port = Side::new("port");
    let mut tests = Side::new("port, tests alone");
    let mut counting = Side::new("port, tests and counting");
    for _ in 0..ROUNDS {
        let rust_digest = |model: &Result<RustModel, _>| match model {
            Ok(model) => digest(model.num_h_terms(), model.num_jump_terms()),
            Err(_) => 0,
        };
        rust.once(|| rust_items.build(), rust_digest);
        port.once(
            || port::build_model(&given, *n_qubits, &mut lent),
            |built| {
                let Model {
                    hamiltonian, jumps, ..
                } = built.model;
                digest(hamiltonian, jumps)
            },
        );
        let refusal = |built: &Built| built.status.refusal;
        tests.once(|| port::build_model(&wrong, *n_qubits, &mut lent), refusal);
        counting.once(
            || port::build_model(&given, *n_qubits, &mut without_places),
            refusal,
        );
    }

    println!(
        "building a model, n = {n_qubits}, {} Hamiltonian items, {} jumps of {} terms, {what}, \
         best of {ROUNDS} rounds:",
        hamiltonian.len(),
        jumps.len(),
        items.longest(),
    );
    for side in [&rust, &port, &tests, &counting] {
        side.print();
    }
    port.print_ratio(&rust);
    rust.checksum == port.checksum
}
