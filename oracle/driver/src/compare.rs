// SPDX-FileCopyrightText: 2026 The PPVM Authors
// SPDX-License-Identifier: Apache-2.0

//! Compares the answers of the published Rust and of the port, with document 01 as the judge.
//!
//! The port must give document 01's answer to every case. The Rust must give it too, but where the
//! document lists a difference.

mod actions;
mod bases;
mod generators;
mod leakages;
mod matrices;
mod models;
mod norms;
mod over_basis;
mod products;
pub mod standing;
mod words;

use std::fmt::Debug;
use std::process::ExitCode;

/// How many disagreements of an operation are shown, the smallest first.
const SHOWN: usize = 3;

/// What was answered to one case.
struct Answers<A> {
    /// Nothing where the Rust cannot be asked.
    rust: Option<A>,
    port: A,
    rules: A,
    /// Whether document 01 lists a difference of the Rust for inputs of this sort.
    listed: bool,
}

enum Verdict {
    Same,
    PortAlone,
    Expected,
    Disagreement,
}

impl<A: PartialEq> Answers<A> {
    fn verdict(&self) -> Verdict {
        match &self.rust {
            _ if self.port != self.rules => Verdict::Disagreement,
            None => Verdict::PortAlone,
            Some(rust) if *rust == self.rules => Verdict::Same,
            Some(_) if self.listed => Verdict::Expected,
            Some(_) => Verdict::Disagreement,
        }
    }
}

/// The count of an operation's cases.
struct Tally {
    operation: &'static str,
    cases: usize,
    port_alone: usize,
    expected: usize,
    disagreements: usize,
    /// The smallest disagreements, each with its size.
    smallest: Vec<(usize, String)>,
}

impl Tally {
    fn new(operation: &'static str) -> Self {
        Self {
            operation,
            cases: 0,
            port_alone: 0,
            expected: 0,
            disagreements: 0,
            smallest: Vec::new(),
        }
    }

    /// Counts a case. `input` shows it, and is asked only where it has to be shown.
    fn count<A: PartialEq + Debug>(
        &mut self,
        size: usize,
        input: impl FnOnce() -> String,
        answers: Answers<A>,
    ) {
        self.cases += 1;
        match answers.verdict() {
            Verdict::Same => {}
            Verdict::PortAlone => self.port_alone += 1,
            Verdict::Expected => self.expected += 1,
            Verdict::Disagreement => {
                self.disagreements += 1;
                self.keep_if_small(size, || {
                    let Answers {
                        rust, port, rules, ..
                    } = &answers;
                    let input = input();
                    format!("{input}\n    Rust  {rust:?}\n    port  {port:?}\n    rules {rules:?}")
                });
            }
        }
    }

    fn keep_if_small(&mut self, size: usize, show: impl FnOnce() -> String) {
        let place = self.smallest.partition_point(|(kept, _)| *kept <= size);
        if place < SHOWN {
            self.smallest.insert(place, (size, show()));
            self.smallest.truncate(SHOWN);
        }
    }

    fn print(&self) {
        let Self {
            operation,
            cases,
            port_alone,
            expected,
            disagreements,
            ..
        } = self;
        println!("{operation:<18} {cases:>9} {disagreements:>13} {expected:>9} {port_alone:>10}");
        for (_, shown) in &self.smallest {
            println!("  {shown}");
        }
    }
}

/// The parts of the port, each with its comparison.
const PARTS: [(&str, fn(u64, usize) -> Vec<Tally>); 9] = [
    ("words", words::compare),
    ("models", models::compare),
    ("matrices", matrices::compare),
    ("actions", actions::compare),
    ("bases", bases::compare),
    ("leakages", leakages::compare),
    ("generators", generators::compare),
    ("products", products::compare),
    ("norms", norms::compare),
];

/// Compares all operations, or those of one part, and prints what was found. Fails on a
/// disagreement.
pub fn run(seed: u64, cases: usize, only: Option<&str>) -> ExitCode {
    let asked = |part: &&(&str, _)| only.is_none_or(|only| only == part.0);
    let parts: Vec<_> = PARTS.iter().filter(asked).collect();
    if parts.is_empty() {
        eprintln!("the parts are {}", PARTS.map(|(part, _)| part).join(", "));
        return ExitCode::from(2);
    }
    let compare = |(_, compare): &&(&str, fn(u64, usize) -> Vec<Tally>)| compare(seed, cases);
    let tallies: Vec<Tally> = parts.iter().flat_map(compare).collect();

    println!("operation              cases disagreements  expected port alone");
    tallies.iter().for_each(Tally::print);
    println!("`expected` differ as document 01 lists; `port alone` were checked against it only.");

    let total = |of: fn(&Tally) -> usize| tallies.iter().map(of).sum::<usize>();
    let disagreements = total(|tally| tally.disagreements);
    println!(
        "compared {} cases: {disagreements} disagreements, {} expected differences",
        total(|tally| tally.cases),
        total(|tally| tally.expected),
    );
    if disagreements == 0 {
        ExitCode::SUCCESS
    } else {
        ExitCode::FAILURE
    }
}
