// SPDX-FileCopyrightText: 2026 The PPVM Authors
// SPDX-License-Identifier: Apache-2.0

//! Prune and cap of the largest basis: words of at most four letters, each on six neighbouring qubits,
//! and random coefficients, of which half are kept.
//!
//! Each round takes a fresh copy of the basis, made before the clock is read.

use super::Side;
use crate::inputs::Rng;
use crate::inputs::actions as action_inputs;
use crate::inputs::bases as inputs;
use crate::port::Word;
use crate::port::bases::{self as port, Basis, Kept};
use crate::published::bases::{RustBasis, rust_words};
use crate::rules::actions::MAX_WORDS;

const ROUNDS: usize = 100;

const PROTECTED: usize = 16;

/// The coefficients are from -1 to 1, all as likely: half of them are as large as this.
const HALF: f64 = 0.5;

/// Depends on the words, the coefficients and their order.
fn digest(entries: &[(Word, f64)]) -> u64 {
    let number = |&(w, x): &(Word, f64)| {
        let lanes = w.lanes().into_iter().fold(x.to_bits(), |sum, lane| {
            sum.wrapping_mul(0x100_0000_01b3) ^ lane
        });
        lanes.wrapping_mul(0x9e37_79b9_7f4a_7c15)
    };
    let add = |sum: u64, n: u64| sum.rotate_left(5).wrapping_add(n);
    entries.iter().map(number).fold(entries.len() as u64, add)
}

/// Whether both sides kept the same entries.
pub fn bench(seed: u64, n_qubits: usize) -> bool {
    let rng = &mut Rng::new(seed);
    let words = action_inputs::local_words(rng, n_qubits, MAX_WORDS);
    let protected: Vec<Word> = (0..PROTECTED).map(|_| rng.pick(&words)).collect();
    let lent = inputs::plain_basis(rng, &words, PROTECTED);
    let rust = RustBasis::new(n_qubits, &lent.entries(MAX_WORDS));
    let rust_protected = rust_words(n_qubits, &protected);
    let lanes: Vec<u64> = protected.iter().flat_map(|w| w.lanes()).collect();
    let limit = MAX_WORDS / 2;
    let prunes = time(
        &format!("prune, n = {n_qubits}"),
        (&rust, &lent),
        |basis| basis.prune(HALF, &rust_protected),
        |basis| port::prune_basis(n_qubits, MAX_WORDS, &lanes, HALF, basis),
    );
    let caps = time(
        &format!("cap, n = {n_qubits}"),
        (&rust, &lent),
        |basis| basis.cap(limit, &rust_protected),
        |basis| port::cap_basis(n_qubits, MAX_WORDS, &lanes, limit, basis),
    );
    prunes & caps
}

fn time(
    name: &str,
    (rust_basis, lent): (&RustBasis, &Basis),
    rust_call: impl Fn(&mut RustBasis),
    port_call: impl Fn(&mut Basis) -> Kept,
) -> bool {
    let mut rust = Side::new("Rust");
    let mut port = Side::new("port");
    for _ in 0..ROUNDS {
        let mut basis = rust_basis.clone();
        let answer = || {
            rust_call(&mut basis);
            basis
        };
        rust.once(answer, |basis| digest(&basis.entries()));
        let mut basis = lent.clone();
        let answer = || (port_call(&mut basis), basis);
        port.once(answer, |(kept, basis)| digest(&basis.entries(kept.entries)));
    }
    println!(
        "{name}, {MAX_WORDS} words, {PROTECTED} protected, half kept, best of {ROUNDS} rounds:"
    );
    rust.print();
    port.print();
    port.print_ratio(&rust);
    rust.checksum == port.checksum
}
