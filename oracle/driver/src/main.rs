// SPDX-FileCopyrightText: 2026 The PPVM Authors
// SPDX-License-Identifier: Apache-2.0

//! Runs the published Rust and the port on the same inputs.
//!
//!     driver compare [--seed S] [--cases N] [--only PART]   both answer N random cases of each
//!                                                           operation
//!     driver record  [--seed S] [--cases N] [--from Q]      prints answers of the Rust, for replay,
//!                                                           for registers of Q qubits or more
//!     driver bench   [--seed S] [--only PART] [--qubits Q]  times both, on registers of Q qubits
//!     driver differences                                    both answer the inputs that are listed
//!                                                           as differences
//!
//! Each part of the port has a module in `compare`, one in `record` and one in `bench`.

mod bench;
mod compare;
mod differences;
mod inputs;
mod port;
mod published;
mod record;
mod rules;

use std::process::ExitCode;

const USAGE: &str = "usage: driver compare|record|bench|differences [--seed S] [--cases N] [--only PART] [--from Q] [--qubits Q]";

struct Options {
    seed: u64,
    cases: Option<usize>,
    only: Option<String>,
    from: usize,
    qubits: usize,
}

fn options(mut words: impl Iterator<Item = String>) -> Option<Options> {
    let mut options = Options {
        seed: 1,
        cases: None,
        only: None,
        from: 0,
        qubits: rules::MAX_QUBITS,
    };
    while let Some(word) = words.next() {
        let value = words.next()?;
        match word.as_str() {
            "--seed" => options.seed = value.parse().ok()?,
            "--cases" => options.cases = Some(value.parse().ok()?),
            "--only" => options.only = Some(value),
            "--from" => options.from = at_most(&value, rules::MAX_QUBITS)?,
            "--qubits" => options.qubits = at_most(&value, rules::MAX_QUBITS)?,
            _ => return None,
        }
    }
    Some(options)
}

fn at_most(value: &str, limit: usize) -> Option<usize> {
    value.parse().ok().filter(|&number| number <= limit)
}

fn main() -> ExitCode {
    let mut words = std::env::args().skip(1);
    let command = words.next().unwrap_or_default();
    match (command.as_str(), options(words)) {
        ("compare", Some(o)) => compare::run(o.seed, o.cases.unwrap_or(100_000), o.only.as_deref()),
        ("record", Some(o)) => record::run(o.seed, o.cases.unwrap_or(400), o.from),
        ("bench", Some(o)) => bench::run(o.seed, o.only.as_deref(), o.qubits),
        ("differences", Some(_)) => differences::run(),
        _ => {
            eprintln!("{USAGE}");
            ExitCode::from(2)
        }
    }
}
