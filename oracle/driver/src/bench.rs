// SPDX-FileCopyrightText: 2026 The PPVM Authors
// SPDX-License-Identifier: Apache-2.0

//! Times the published Rust and the port on the same inputs.
//!
//! The sides take turns, so that a busy machine slows them alike, and the best round counts.

mod actions;
mod bases;
mod generators;
mod leakages;
mod matrices;
mod models;
mod words;

use std::hint::black_box;
use std::process::ExitCode;
use std::time::Instant;

/// A side, with the best time for one input and a sum over the answers.
struct Side {
    name: &'static str,
    nanoseconds: f64,
    checksum: u64,
}

impl Side {
    fn new(name: &'static str) -> Self {
        Self {
            name,
            nanoseconds: f64::INFINITY,
            checksum: 0,
        }
    }

    /// Answers every input once. `answer` gives a number that depends on the answer.
    fn round<I>(&mut self, inputs: &[I], answer: impl Fn(&I) -> u64) {
        let add = |sum: u64, input| sum.wrapping_add(answer(black_box(input)));
        let start = Instant::now();
        self.checksum = inputs.iter().fold(0, add);
        let each = start.elapsed().as_secs_f64() * 1e9 / inputs.len() as f64;
        self.nanoseconds = self.nanoseconds.min(each);
    }

    /// Answers so many inputs at once, or one after another. The time is that for each of them.
    fn all(&mut self, inputs: usize, answer: impl FnOnce() -> u64) {
        let start = Instant::now();
        self.checksum = black_box(answer());
        let each = start.elapsed().as_secs_f64() * 1e9 / inputs as f64;
        self.nanoseconds = self.nanoseconds.min(each);
    }

    /// Answers one input. The answer is dropped when the clock has been read.
    fn once<A>(&mut self, answer: impl FnOnce() -> A, digest: impl FnOnce(&A) -> u64) {
        let start = Instant::now();
        let answer = black_box(answer());
        let nanoseconds = start.elapsed().as_secs_f64() * 1e9;
        self.checksum = digest(&answer);
        self.nanoseconds = self.nanoseconds.min(nanoseconds);
    }

    fn print(&self) {
        let Self {
            name,
            nanoseconds,
            checksum,
        } = self;
        println!("{name:<26} {nanoseconds:>11.2} ns   checksum {checksum:016x}");
    }

    fn print_ratio(&self, to: &Side) {
        println!(
            "{} / {} {:.2}",
            self.name,
            to.name,
            self.nanoseconds / to.nanoseconds
        );
    }
}

/// The parts of the port, each with what is timed of it.
const PARTS: [(&str, fn(u64, usize) -> bool); 7] = [
    ("words", words::bench),
    ("models", models::bench),
    ("matrices", matrices::bench),
    ("actions", actions::bench),
    ("bases", bases::bench),
    ("leakages", leakages::bench),
    ("generators", generators::bench),
];

/// The fewest qubits that the words of all parts fit on.
const FEWEST: usize = 12;

/// Times everything, or one part, on registers of so many qubits. Fails where the sides do not answer alike.
pub fn run(seed: u64, only: Option<&str>, n_qubits: usize) -> ExitCode {
    let asked = |part: &&(&str, _)| only.is_none_or(|only| only == part.0);
    let parts: Vec<_> = PARTS.iter().filter(asked).collect();
    if parts.is_empty() {
        eprintln!("the parts are {}", PARTS.map(|(part, _)| part).join(", "));
        return ExitCode::from(2);
    }
    if n_qubits < FEWEST {
        eprintln!("at least {FEWEST} qubits are needed");
        return ExitCode::from(2);
    }
    let alike: Vec<bool> = parts
        .iter()
        .map(|(_, bench)| bench(seed, n_qubits))
        .collect();
    if alike.iter().all(|&alike| alike) {
        ExitCode::SUCCESS
    } else {
        ExitCode::FAILURE
    }
}
