// SPDX-FileCopyrightText: 2026 The PPVM Authors
// SPDX-License-Identifier: Apache-2.0

//! The inputs of the table "Found by runs" in docs/DIFFERENCES.md, asked of both sides.
//!
//! Every answer is put in the words of the table. Each side must give the one that is expected of it here,
//! the two must not be the same, and the table must state them; and what it states must all be asked here.

mod actions;
mod bases;
mod generators;
mod leakages;
mod matrices;
mod models;
mod words;

use crate::compare::standing::Standing;
use crate::inputs::Rng;
use crate::inputs::matrices::Matrix;
use crate::inputs::models::Items;
use crate::port::{Status, Word};
use crate::rules::letters_of;
use crate::rules::models::Complex;
use std::process::ExitCode;

const DOCUMENT: &str = include_str!("../../../docs/DIFFERENCES.md");

/// The answer of a side that has no way to be given the input.
const CANNOT: &str = "cannot be asked";

/// An input in the words of the table, with the answers of the port and of the Rust.
struct Case {
    place: &'static str,
    input: &'static str,
    expected: [&'static str; 2],
    found: [String; 2],
}

impl Case {
    /// As the table states it.
    fn stated(&self) -> Stated {
        let [port, rust] = self.expected;
        [self.place, self.input, port, rust]
    }

    /// What is wrong with it.
    fn complaints(&self, table: &[Stated]) -> Vec<String> {
        let mut complaints = Vec::new();
        for (side, i) in [("port", 0), ("Rust", 1)] {
            if self.found[i] != self.expected[i] {
                complaints.push(format!("the {side} should answer {}", self.expected[i]));
            }
        }
        if self.found[0] == self.found[1] {
            complaints.push("both sides agree".into());
        }
        if !table.contains(&self.stated()) {
            complaints.push("the table does not state what should be answered".into());
        }
        complaints
    }

    fn print(&self) {
        let [port, rust] = &self.found;
        println!("{}: {}", self.place, self.input);
        println!("    port  {port}");
        println!("    Rust  {rust}");
    }
}

/// What the table states of one input: the place, the input, the answers of the port and of the Rust.
type Stated = [&'static str; 4];

/// All that the table states, below the two lines of its head.
fn table() -> Vec<Stated> {
    let (_, table) = DOCUMENT
        .split_once("## Found by runs")
        .expect("the document has the table");
    let lines = table.lines().skip_while(|line| !line.starts_with('|'));
    let lines = lines.take_while(|line| line.starts_with('|')).skip(2);
    lines.flat_map(row).collect()
}

/// A row, whose inputs stand with `; ` between them, and so do their answers; an answer that stands alone
/// is that of all.
fn row(line: &'static str) -> Vec<Stated> {
    let cells = line.split('|').skip(1).take(4);
    let cells: Vec<Vec<&str>> = cells
        .map(|cell| cell.trim().split("; ").collect())
        .collect();
    let inputs = cells[1].len();
    let stated = |input: usize| {
        std::array::from_fn(|i| match &cells[i][..] {
            [alone] => *alone,
            cell => {
                assert_eq!(cell.len(), inputs, "one for each input: {cell:?}");
                cell[input]
            }
        })
    };
    (0..inputs).map(stated).collect()
}

/// Asks every case and prints what was found. Fails where something is wrong with one, or where one that the
/// table states is missing.
pub fn run() -> ExitCode {
    let parts = [
        words::cases(),
        models::cases(),
        matrices::cases(),
        actions::cases(),
        bases::cases(),
        leakages::cases(),
        generators::cases(),
    ];
    let cases: Vec<Case> = parts.into_iter().flatten().collect();
    let table = table();
    let mut wrong = 0;
    for case in &cases {
        case.print();
        for complaint in case.complaints(&table) {
            println!("    WRONG {complaint}");
            wrong += 1;
        }
    }
    for stated in &table {
        if !cases.iter().any(|case| case.stated() == *stated) {
            println!("WRONG stated, but not asked: {}", stated.join(" | "));
            wrong += 1;
        }
    }
    let alone = cases.iter().filter(|case| case.found[1] == CANNOT).count();
    let cases = cases.len();
    println!("asked {cases} inputs, {alone} of them of the port alone: {wrong} wrong");
    if wrong == 0 {
        ExitCode::SUCCESS
    } else {
        ExitCode::FAILURE
    }
}

// ---- inputs

const ZERO: Complex = (0.0, 0.0);
const ONE: Complex = (1.0, 0.0);

/// The numbers of operators are 1.
fn items(n_qubits: usize, hamiltonian: &[(&str, f64)], jumps: &[(f64, &[&str])]) -> Items {
    let bytes = |text: &str| text.as_bytes().to_vec();
    let operator = |texts: &[&str]| texts.iter().map(|text| (bytes(text), ONE)).collect();
    Items {
        n_qubits,
        hamiltonian: hamiltonian.iter().map(|&(t, x)| (bytes(t), x)).collect(),
        jumps: jumps.iter().map(|&(g, t)| (g, operator(t))).collect(),
    }
}

/// Operators of one term each.
fn matrix(operators: &[(&str, Complex)], k: &[&[Complex]]) -> Matrix {
    let operator = |&(text, number): &(&str, Complex)| vec![(text.as_bytes().to_vec(), number)];
    Matrix {
        operators: operators.iter().map(operator).collect(),
        k: k.iter().map(|row| row.to_vec()).collect(),
    }
}

/// K of two rows, the second of which starts with the conjugate of `off` and ends with 0.
fn two_rows(operators: [(&str, Complex); 2], first: f64, off: Complex) -> Matrix {
    let (re, im) = off;
    matrix(&operators, &[&[(first, 0.0), off], &[(re, -im), ZERO]])
}

const PLAIN: [(&str, Complex); 2] = [("XI", ONE), ("IX", ONE)];

/// A word of the product that only the Rust thins out.
fn thinned() -> Matrix {
    let operators = [("XI", ONE), ("IX", (6e-15, 8e-15))];
    two_rows(operators, 0.0, (2.0, 0.0))
}

/// A pair that only the Rust skips.
fn skipped() -> Matrix {
    two_rows(PLAIN, 7.0, (7e-14, 0.0))
}

/// A pair that only the port skips.
fn not_skipped() -> Matrix {
    two_rows(PLAIN, 9.0, (5.400000000000001e-14, 7.2e-14))
}

/// A model that the port has in lent tables, and that can be asked for in the Rust. What the tables held
/// before makes no difference.
fn standing(items: Items) -> Standing {
    Standing::built(&mut Rng::new(1), items)
}

/// One of a matrix alone, on two qubits.
fn standing_of(matrix: Matrix) -> Standing {
    standing(items(2, &[], &[])).with_matrix(&mut Rng::new(1), matrix)
}

// ---- answers

/// A refusal of the port, by its number and as many values as its cause has.
fn refused(status: Status) -> String {
    let Status {
        refusal,
        first,
        second,
    } = status;
    match refusal {
        0 => "accepted".into(),
        1..=3 | 9 | 10 | 13 | 16 => format!("{refusal} ({first}, {second})"),
        _ => format!("{refusal} ({first})"),
    }
}

/// The port's refusal, or else what it answers.
fn answer(status: Status, accepted: impl FnOnce() -> String) -> String {
    match status.refusal {
        0 => accepted(),
        _ => refused(status),
    }
}

/// An error of the Rust.
fn error(status: Status) -> String {
    let Status { first, second, .. } = status;
    match status.refusal {
        0 => "accepted".into(),
        2 => format!("wrong length ({first}, {second})"),
        3 => format!("refused character {first}"),
        9 => "refused: rows of wrong lengths".into(),
        10 => format!("refused at ({first}, {second})"),
        _ => format!("refused: {status:?}"),
    }
}

/// The shortest text that is read as this number, so that it stands for all its bits.
fn number(x: f64) -> String {
    let sign = if x.is_sign_negative() { "−" } else { "" };
    let size = match x.is_infinite() {
        true => "∞".into(),
        false => format!("{:?}", x.abs()),
    };
    format!("{sign}{}", size.trim_end_matches(".0"))
}

/// Numbers in one bracket.
fn numbers(list: &[f64]) -> String {
    let list: Vec<String> = list.iter().map(|&x| number(x)).collect();
    format!("({})", list.join(", "))
}

/// The letters of a few qubits one after another, or those of many that are not I, with their qubits.
fn word(n_qubits: usize, w: Word) -> String {
    let letters = &letters_of(w)[..n_qubits];
    if n_qubits < 4 {
        return String::from_utf8_lossy(letters).into();
    }
    let named = (0..n_qubits).filter(|&qubit| letters[qubit] != b'I');
    let named: Vec<String> = named
        .map(|qubit| format!("{}{qubit}", letters[qubit] as char))
        .collect();
    named.join("·")
}

/// Words with their numbers.
fn list(n_qubits: usize, entries: &[(Word, f64)]) -> String {
    let entry = |&(w, x): &(Word, f64)| format!("{} {}", word(n_qubits, w), number(x));
    match entries {
        [] => "nothing".into(),
        _ => entries.iter().map(entry).collect::<Vec<_>>().join(", "),
    }
}
