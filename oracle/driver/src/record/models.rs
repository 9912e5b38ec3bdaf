// SPDX-FileCopyrightText: 2026 The PPVM Authors
// SPDX-License-Identifier: Apache-2.0

//! Models: building. Each cause has as many cases as every other.

use super::{Line, most};
use crate::inputs::Rng;
use crate::inputs::models::{self as inputs, Items};
use crate::port::WORD_LANES;
use crate::port::models::{self as port, Built, Given, Lent, Sizes};
use crate::published::models::RustItems;
use crate::rules::models as rules;

/// What the Rust answers as document 01 does, 0 for acceptance, and what it does not refuse.
const ANSWERED: [u64; 8] = [0, 0, 0, 1, 2, 3, 5, 6];
const REFUSED_BY_DOCUMENT: [u64; 4] = [7, 8, 9, 13];

/// The most bytes and items of a case, and places for terms: the recording is to stay small.
const LARGEST: usize = 240;
pub(super) const TERM_PLACES: usize = 64;

pub fn record(seed: u64, cases: usize, from: usize) {
    let rng = &mut Rng::new(seed);
    println!("# 5 n_qubits texts_len byte.. lengths_len length.. h_numbers_len number..");
    println!("#   rates_len rate.. counts_len count.. numbers_len number..");
    println!("#   the lengths of h_words h_coeffs jumps rates t_words t_numbers work_words");
    println!("#   work_numbers, then refusal first second hamiltonian jumps terms; the count of");
    println!("#   terms is that of document 01");
    for case in 0..cases {
        answered(rng, from, ANSWERED[case % ANSWERED.len()]).print();
    }
    println!("# 6, as 5: refusals of document 01 that the Rust does not have");
    for case in 0..cases {
        let refusals = short(&REFUSED_BY_DOCUMENT, from);
        refused(rng, from, refusals[case % refusals.len()]).print();
    }
}

/// These refusals, but where registers have many qubits not those by too many terms, whose texts would be long.
pub(super) fn short(refusals: &[u64], from: usize) -> Vec<u64> {
    let is_short = |refusal: &u64| from == 0 || ![8, 13].contains(refusal);
    refusals.iter().copied().filter(is_short).collect()
}

/// The answer of the rules, and how long the lent tables were.
fn build(given: &Given, n_qubits: usize, lent: Lent) -> (Built, Sizes) {
    let sizes = lent.sizes();
    (rules::build_model(given, n_qubits, &mut { lent }), sizes)
}

/// Small items, with something wrong in most.
fn items(rng: &mut Rng, from: usize) -> Items {
    loop {
        let mut items = inputs::sound(rng);
        if !rng.one_in(4) {
            inputs::spoil(rng, &mut items);
        }
        if items.n_qubits >= from && items.size() <= most(LARGEST, from) {
            return items;
        }
    }
}

fn enough(given: &Given, items: &Items) -> Sizes {
    let sizes = port::model_sizes(given.h_numbers.len(), given.rates.len(), items.longest());
    Sizes {
        t_words: sizes.t_words.min(WORD_LANES * TERM_PLACES),
        t_numbers: sizes.t_numbers.min(2 * TERM_PLACES),
        ..sizes
    }
}

/// A case with this answer, which the Rust gives too.
fn answered(rng: &mut Rng, from: usize, refusal: u64) -> Line {
    loop {
        let items = items(rng, from);
        let given = items.flat();
        let sizes = enough(&given, &items);
        let (built, sizes) = build(&given, items.n_qubits, inputs::lent(rng, sizes));
        let rust = RustItems::new(&items).map(|items| items.status());
        if built.status.refusal == refusal && rust == Some(built.status) {
            return line(5, items.n_qubits, &given, sizes, built);
        }
    }
}

/// A case with this answer, which is that of document 01 alone.
fn refused(rng: &mut Rng, from: usize, refusal: u64) -> Line {
    loop {
        let items = items(rng, from);
        let mut given = items.flat();
        if rng.one_in(4) {
            inputs::spoil_lengths(rng, &mut given);
        }
        let mut sizes = enough(&given, &items);
        if rng.one_in(4) {
            inputs::other_length(rng, &mut sizes);
        }
        let (built, sizes) = build(&given, items.n_qubits, inputs::lent(rng, sizes));
        if built.status.refusal == refusal {
            return line(6, items.n_qubits, &given, sizes, built);
        }
    }
}

pub(super) fn line(kind: u64, n_qubits: usize, given: &Given, sizes: Sizes, built: Built) -> Line {
    let counts = [
        built.model.hamiltonian,
        built.model.jumps,
        built.model.terms,
    ];
    given_line(kind, n_qubits, given, sizes)
        .status(built.status)
        .numbers(&counts.map(|count| count as u64))
}

/// The same without the answer.
pub(super) fn given_line(kind: u64, n_qubits: usize, given: &Given, sizes: Sizes) -> Line {
    let lengths = [
        sizes.h_words,
        sizes.h_coeffs,
        sizes.jumps,
        sizes.rates,
        sizes.t_words,
        sizes.t_numbers,
        sizes.work_words,
        sizes.work_numbers,
    ];
    Line::new(kind)
        .number(n_qubits as u64)
        .number(given.texts.len() as u64)
        .bytes(&given.texts)
        .number(given.lengths.len() as u64)
        .numbers(&given.lengths)
        .number(given.h_numbers.len() as u64)
        .floats(&given.h_numbers)
        .number(given.rates.len() as u64)
        .floats(&given.rates)
        .number(given.counts.len() as u64)
        .numbers(&given.counts)
        .number(given.numbers.len() as u64)
        .floats(&given.numbers)
        .numbers(&lengths.map(|length| length as u64))
}
