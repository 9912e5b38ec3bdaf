// SPDX-FileCopyrightText: 2026 The PPVM Authors
// SPDX-License-Identifier: Apache-2.0

//! Prints answers of the published Rust, for a test that replays them against the port.
//!
//! A case is a line of hexadecimal numbers, the first of which is its kind; `#` starts a comment.
//! Only cases are recorded to which document 01 and the Rust have one answer, but for kinds that say
//! otherwise. Where only registers of many qubits are asked for, the cases that were thought of, which have
//! few, are left out.

mod actions;
mod bases;
mod generators;
mod leakages;
mod matrices;
mod models;
mod products;
mod standing;
mod words;

use crate::port::{LANES, Status, Word};
use std::process::ExitCode;

/// The numbers of one case.
struct Line(Vec<u64>);

impl Line {
    fn new(kind: u64) -> Self {
        Self(vec![kind])
    }

    fn number(mut self, number: u64) -> Self {
        self.0.push(number);
        self
    }

    fn numbers(mut self, numbers: &[u64]) -> Self {
        self.0.extend(numbers);
        self
    }

    fn floats(mut self, floats: &[f64]) -> Self {
        self.0.extend(floats.iter().map(|x| x.to_bits()));
        self
    }

    fn bytes(mut self, bytes: &[u8]) -> Self {
        self.0.extend(bytes.iter().map(|&byte| u64::from(byte)));
        self
    }

    fn word(mut self, word: Word) -> Self {
        self.0.extend(word.x);
        self.0.extend(word.z);
        self
    }

    fn status(self, status: Status) -> Self {
        self.numbers(&[status.refusal, status.first, status.second])
    }

    fn print(&self) {
        let numbers: Vec<String> = self.0.iter().map(|number| format!("{number:x}")).collect();
        println!("{}", numbers.join(" "));
    }
}

/// A line of the head of a recording: how many x lanes its words have, and how many z lanes.
fn print_lanes() {
    println!("# lanes {LANES}");
}

/// How many numbers or bytes there may be where there are so many at most for registers of few qubits.
fn most(usual: usize, from: usize) -> usize {
    usual + 12 * from
}

/// So many cases, and fewer of some kinds, for registers of `from` qubits or more.
pub fn run(seed: u64, cases: usize, from: usize) -> ExitCode {
    println!("# SPDX-FileCopyrightText: 2026 The PPVM Authors");
    println!("# SPDX-License-Identifier: Apache-2.0");
    println!("#");
    println!("# Answers of the published Rust, seed {seed}, registers of {from} qubits or more.");
    print_lanes();
    words::record(seed, cases, from);
    models::record(seed, cases / 4, from);
    matrices::record(seed, cases * 3 / 40, from);
    actions::record(seed, cases / 8, from);
    bases::record(seed, cases / 16, from);
    leakages::record(seed, cases / 16, from);
    generators::record(seed, cases / 25, from);
    if from == 0 {
        products::record(seed, cases / 16);
    }
    println!(
        "# 18 and 13, 14, 15, 16 or 17, then as these: answers of the documents that the Rust does"
    );
    println!("#   not give");
    generators::record_not_of_the_rust(seed, cases / 40, from);
    if from == 0 {
        products::record_not_of_the_rust(seed, cases / 10);
    }
    ExitCode::SUCCESS
}
