// SPDX-FileCopyrightText: 2026 The PPVM Authors
// SPDX-License-Identifier: Apache-2.0

//! Words: texts, codes, products, order.
//!
//! `Eq` and `Ord` of the Rust's word are stand-ins, so equality and order are checked against the
//! rules alone.

use super::{Answers, Tally};
use crate::inputs::{self, Rng};
use crate::port::{self, Fitting, Status, Word};
use crate::published::{self, RustWord, rust_word};
use crate::rules::{self, MAX_QUBITS};
use ppvm_lindblad::open;
use std::fmt::Debug;

pub fn compare(seed: u64, cases: usize) -> Vec<Tally> {
    let rng = &mut Rng::new(seed);
    vec![
        texts(rng, cases),
        codes_read(rng, cases),
        codes_written(rng, cases),
        pairs("product", rng, cases, |p, q, rust_p, rust_q| Answers {
            rust: Some(published::pauli_mul(rust_p, rust_q)),
            port: port::pauli_mul(p, q),
            rules: rules::pauli_mul(p, q),
            listed: false,
        }),
        pairs("anticommutation", rng, cases, |p, q, rust_p, rust_q| {
            Answers {
                rust: Some(open::anti_commutes(rust_p, rust_q)),
                port: port::anti_commutes(p, q),
                rules: rules::anti_commutes(p, q),
                listed: false,
            }
        }),
        pairs("commutator", rng, cases, |p, q, rust_p, rust_q| Answers {
            rust: Some(published::comm_product(rust_p, rust_q)),
            port: port::comm_product(p, q),
            rules: rules::comm_product(p, q),
            listed: false,
        }),
        pairs("shared qubit", rng, cases, |p, q, rust_p, rust_q| Answers {
            rust: Some(published::shares_qubit(rust_p, rust_q)),
            port: port::shares_qubit(p, q),
            rules: rules::shares_qubit(p, q),
            listed: false,
        }),
        pairs("equality", rng, cases, |p, q, _, _| Answers {
            rust: None,
            port: port::same_word(p, q),
            rules: rules::letters_of(p) == rules::letters_of(q),
            listed: false,
        }),
        pairs("order", rng, cases, |p, q, _, _| Answers {
            rust: None,
            port: port::compare_words(p, q),
            rules: rules::order(p, q) as i32,
            listed: false,
        }),
        registers(rng, cases),
    ]
}

/// A word's letters, each with its qubit.
fn show(word: Word) -> String {
    let letters = rules::letters_of(word);
    let named: Vec<String> = (0..MAX_QUBITS)
        .filter(|&qubit| letters[qubit] != b'I')
        .map(|qubit| format!("{}{qubit}", letters[qubit] as char))
        .collect();
    if named.is_empty() {
        "I".into()
    } else {
        named.join(" ")
    }
}

/// The number of letters other than I.
fn weight(word: Word) -> usize {
    let letters = |lane: usize| (word.x[lane] | word.z[lane]).count_ones();
    (letters(0) + letters(1)) as usize
}

fn texts(rng: &mut Rng, cases: usize) -> Tally {
    let mut tally = Tally::new("text");
    for n_qubits in 0..=MAX_QUBITS + 2 {
        for count in n_qubits.saturating_sub(1)..=n_qubits + 1 {
            let letters: Vec<u8> = b"XYZI".iter().copied().cycle().take(count).collect();
            text(&mut tally, &letters, n_qubits);
        }
    }
    for case in 0..cases {
        let n_qubits = inputs::register(rng, case);
        text(&mut tally, &inputs::text(rng, n_qubits), n_qubits);
    }
    tally
}

/// A text that is no UTF-8 is for the port alone. One that is, but not ASCII, is a listed
/// difference: the Rust counts characters, and counts them before it reads them.
fn text(tally: &mut Tally, text: &[u8], n_qubits: usize) {
    let ask_rust = |text| published::parse_pauli_string(text, n_qubits);
    let answers = Answers {
        rust: std::str::from_utf8(text).ok().map(ask_rust),
        port: port::parse_pauli_string(text, n_qubits),
        rules: rules::parse_pauli_string(text, n_qubits),
        listed: !text.is_ascii(),
    };
    let input = || format!("\"{}\" at n = {n_qubits}", text.escape_ascii());
    tally.count(text.len(), input, answers);
}

fn codes_read(rng: &mut Rng, cases: usize) -> Tally {
    let mut tally = Tally::new("codes read");
    for case in 0..cases {
        let n_qubits = inputs::register(rng, case);
        let codes = inputs::codes(rng, n_qubits);
        let answers = Answers {
            rust: Some(published::word_from_codes(&codes)),
            port: port::word_from_codes(&codes),
            rules: rules::word_from_codes(&codes),
            listed: false,
        };
        tally.count(codes.len(), || format!("codes {codes:?}"), answers);
    }
    tally
}

fn codes_written(rng: &mut Rng, cases: usize) -> Tally {
    let mut tally = Tally::new("codes written");
    for case in 0..cases {
        let n_qubits = inputs::register(rng, case);
        let letters_below = if rng.one_in(4) {
            MAX_QUBITS
        } else {
            n_qubits.min(MAX_QUBITS)
        };
        let word = inputs::word(rng, letters_below);
        let places = inputs::places(rng, n_qubits);
        code_writing(&mut tally, word, n_qubits, &places);
    }
    tally
}

/// The Rust has no refusals here, so those are for the port alone. Where it writes, it writes all
/// the places that it is lent, so it is lent as many as there are qubits.
fn code_writing(tally: &mut Tally, word: Word, n_qubits: usize, places: &[u8]) {
    let mut port_out = places.to_vec();
    let mut rules_out = places.to_vec();
    let port = port::codes_from_word(word, n_qubits, &mut port_out);
    let rules = rules::codes_from_word(word, n_qubits, &mut rules_out);
    let rust = (rules.refusal == 0).then(|| {
        let mut out = published::codes_from_word(word, n_qubits);
        out.extend_from_slice(&places[n_qubits..]);
        (Status::default(), out)
    });
    let answers = Answers {
        rust,
        port: (port, port_out),
        rules: (rules, rules_out),
        listed: false,
    };
    let lent = places.len();
    let input = || format!("{} at n = {n_qubits}, {lent} places", show(word));
    tally.count(lent + weight(word), input, answers);
}

/// Every pair of letters on every qubit, then random pairs of words.
fn pairs<A: PartialEq + Debug>(
    operation: &'static str,
    rng: &mut Rng,
    cases: usize,
    ask: impl Fn(Word, Word, &RustWord, &RustWord) -> Answers<A>,
) -> Tally {
    let mut tally = Tally::new(operation);
    let mut one = |n_qubits, p, q| {
        let answers = ask(p, q, &rust_word(n_qubits, p), &rust_word(n_qubits, q));
        let input = || format!("{} and {}", show(p), show(q));
        tally.count(weight(p) + weight(q), input, answers);
    };
    for (p, q) in inputs::letter_pairs() {
        one(MAX_QUBITS, p, q);
    }
    for case in 0..cases {
        let n_qubits = inputs::register(rng, case).min(MAX_QUBITS);
        let (p, q) = inputs::pair(rng, n_qubits);
        one(n_qubits, p, q);
    }
    tally
}

/// Whether a word fits a register: whether the Rust, which refuses no register here, finds all its
/// qubits below it. Words have the register of the next case, so that many miss by one qubit.
fn registers(rng: &mut Rng, cases: usize) -> Tally {
    let mut tally = Tally::new("register");
    for case in 0..cases {
        let n_qubits = inputs::register(rng, case);
        let letters_below = inputs::register(rng, case + 1).min(MAX_QUBITS);
        let word = inputs::word(rng, letters_below);
        let support = open::word_support(&rust_word(MAX_QUBITS, word));
        let fits = support.iter().all(|&qubit| (qubit as usize) < n_qubits);
        let answers = Answers {
            rust: (n_qubits <= MAX_QUBITS).then_some(Fitting {
                status: Status::default(),
                fits,
            }),
            port: port::fits_register(word, n_qubits),
            rules: rules::fitting(word, n_qubits),
            listed: false,
        };
        let input = || format!("{} at n = {n_qubits}", show(word));
        tally.count(weight(word), input, answers);
    }
    tally
}
