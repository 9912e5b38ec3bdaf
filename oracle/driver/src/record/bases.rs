// SPDX-FileCopyrightText: 2026 The PPVM Authors
// SPDX-License-Identifier: Apache-2.0

//! Prune, cap and admission on small bases: tempting cases first, then random ones.

use super::Line;
use crate::inputs::Rng;
use crate::inputs::bases::{self as inputs, Admission, Keeping};
use crate::port::bases::{Basis, Kept};
use crate::port::{WORD_LANES, Word};
use crate::published::bases::{RustBasis, rust_words};
use crate::rules::actions::MAX_WORDS;
use crate::rules::bases as rules;
use crate::rules::{MAX_QUBITS, word_of};

/// The kinds of the calls, and that of answers which the Rust does not give.
const PRUNE: u64 = 12;
const CAP: u64 = 13;
const ADMIT: u64 = 14;
const NOT_RUST: u64 = 15;

/// The most lanes and places of a table, since the recording is to stay small, and what is in the work
/// tables before.
const PLACES: usize = 24;
const LANES: usize = WORD_LANES * PLACES;
const FILLER: u64 = 9;

pub fn record(seed: u64, cases: usize, from: usize) {
    let rng = &mut Rng::new(seed);
    println!("# c n_qubits len drop_tol words_len coeffs_len protected_len 0 order_len work_len");
    println!("#   fixed_len kept_len, the words, the coefficients, the protected words, refusal");
    println!("#   first second entries, the words and the coefficients afterwards, what the work");
    println!("#   tables hold afterwards");
    kind(rng, PRUNE, cases, from, tempting_prunes(), |rng| {
        let keeping = inputs::small_keeping(rng);
        let drop_tol = inputs::threshold(rng, &keeping);
        Case::prune(keeping, drop_tol)
    });
    println!("# d, as c: cap, with a limit for drop_tol");
    kind(rng, CAP, cases, from, tempting_caps(), |rng| {
        let keeping = inputs::small_keeping(rng);
        let limit = inputs::limit(rng, &keeping);
        Case::cap(keeping, limit)
    });
    println!(
        "# e, as d: admission, with the listed words for the protected ones, then their values;"
    );
    println!("#   values_len stands where 0 does, and fixed is not lent");
    kind(rng, ADMIT, cases, from, tempting_admissions(), |rng| {
        Case::admit(inputs::small_admission(rng))
    });
    println!(
        "# f and c, d or e, then as these: answers of document 01 that the Rust does not give"
    );
    not_of_the_rust(rng, cases, from);
}

/// A call with what it is given and lent.
struct Case {
    call: u64,
    n_qubits: usize,
    len: usize,
    parameter: u64,
    given: Vec<u64>,
    values: Vec<f64>,
    basis: Basis,
}

impl Case {
    fn prune(keeping: Keeping, drop_tol: f64) -> Self {
        Self {
            parameter: drop_tol.to_bits(),
            ..Self::cap(keeping, 0).called(PRUNE)
        }
    }

    fn cap(keeping: Keeping, limit: usize) -> Self {
        Self {
            call: CAP,
            n_qubits: keeping.n_qubits,
            len: keeping.len,
            parameter: limit as u64,
            given: keeping.protected,
            values: Vec::new(),
            basis: filled(keeping.basis),
        }
    }

    fn admit(admission: Admission) -> Self {
        let mut basis = filled(admission.basis);
        basis.fixed.clear();
        Self {
            call: ADMIT,
            n_qubits: admission.n_qubits,
            len: admission.len,
            parameter: admission.limit as u64,
            given: admission.list,
            values: admission.values,
            basis,
        }
    }

    fn called(mut self, call: u64) -> Self {
        self.call = call;
        self
    }

    /// Whether it is small enough to be recorded.
    fn fits(&self) -> bool {
        let Basis {
            words,
            coeffs,
            order,
            work,
            fixed,
            kept,
        } = &self.basis;
        let tables = [order.len(), work.len(), fixed.len(), kept.len()];
        [words.len(), self.given.len()].iter().all(|&n| n <= LANES)
            && [coeffs.len(), self.values.len()]
                .iter()
                .all(|&n| n <= PLACES)
            && tables.iter().all(|&n| n <= PLACES)
    }

    /// What the rules answer, and leave in the tables.
    fn answer(&self) -> (Kept, Basis) {
        let Self {
            call,
            n_qubits: n,
            len,
            parameter,
            given,
            values,
            basis,
        } = self;
        let mut basis = basis.clone();
        let limit = *parameter as usize;
        let kept = match *call {
            PRUNE => {
                let drop_tol = f64::from_bits(*parameter);
                rules::prune_basis(*n, *len, given, drop_tol, &mut basis)
            }
            CAP => rules::cap_basis(*n, *len, given, limit, &mut basis),
            _ => rules::add_leakage_capped(*n, *len, given, values, limit, &mut basis),
        };
        (kept, basis)
    }

    /// Whether the rules accept, and the Rust has the same entries afterwards.
    fn is_of_the_rust(&self) -> bool {
        let (kept, after) = self.answer();
        if kept.status.refusal != 0 {
            return false;
        }
        let given: Vec<Word> = self.given.chunks_exact(WORD_LANES).map(Word::of).collect();
        let mut rust = RustBasis::new(self.n_qubits, &self.basis.entries(self.len));
        let limit = self.parameter as usize;
        match self.call {
            ADMIT => {
                let listed: Vec<(Word, f64)> = given.into_iter().zip(self.values.clone()).collect();
                rust.admit(self.n_qubits, &listed, limit);
            }
            PRUNE => {
                let protected = rust_words(self.n_qubits, &given);
                rust.prune(f64::from_bits(self.parameter), &protected);
            }
            _ => rust.cap(limit, &rust_words(self.n_qubits, &given)),
        }
        let bits = |entries: Vec<(Word, f64)>| -> Vec<(Word, u64)> {
            let bits = |(w, x): (Word, f64)| (w, x.to_bits());
            entries.into_iter().map(bits).collect()
        };
        bits(rust.entries()) == bits(after.entries(kept.entries))
    }

    fn line(&self, line: Line) -> Line {
        let Self {
            n_qubits,
            len,
            parameter,
            given,
            values,
            basis,
            ..
        } = self;
        let (kept, after) = self.answer();
        let lengths = [
            basis.words.len(),
            basis.coeffs.len(),
            given.len(),
            values.len(),
            basis.order.len(),
            basis.work.len(),
            basis.fixed.len(),
            basis.kept.len(),
        ];
        let tables = [&after.order, &after.work, &after.fixed, &after.kept];
        let left = tables.into_iter().flatten().next().copied().unwrap_or(0);
        line.numbers(&[*n_qubits as u64, *len as u64, *parameter])
            .numbers(&lengths.map(|length| length as u64))
            .numbers(&basis.words)
            .floats(&basis.coeffs)
            .numbers(given)
            .floats(values)
            .status(kept.status)
            .number(kept.entries as u64)
            .numbers(&after.words)
            .floats(&after.coeffs)
            .number(left)
    }
}

/// The same with what the work tables of replaying hold.
fn filled(mut basis: Basis) -> Basis {
    basis.order.fill(FILLER);
    basis.work.fill(FILLER);
    basis.fixed.fill(FILLER);
    basis.kept.fill(FILLER);
    basis
}

/// So many cases to which the Rust gives the rules' answer, these first.
fn kind(
    rng: &mut Rng,
    call: u64,
    cases: usize,
    from: usize,
    tempting: Vec<Case>,
    mut random: impl FnMut(&mut Rng) -> Case,
) {
    let mut recorded = 0;
    for case in tempting.into_iter().filter(|_| from == 0) {
        assert!(case.fits() && case.is_of_the_rust(), "a sound case");
        case.line(Line::new(call)).print();
        recorded += 1;
    }
    while recorded < cases {
        let case = random(rng);
        if case.n_qubits >= from && case.fits() && case.is_of_the_rust() {
            case.line(Line::new(call)).print();
            recorded += 1;
        }
    }
}

// ---- tempting cases

fn lanes(texts: &[&str]) -> Vec<u64> {
    let word = |text: &&str| word_of(text.as_bytes()).lanes();
    texts.iter().flat_map(word).collect()
}

/// A basis of two qubits with two places more.
fn basis(texts: &[&str], coeffs: &[f64]) -> Basis {
    let mut words = lanes(texts);
    words.extend([u64::MAX; 2 * WORD_LANES]);
    let mut coeffs = coeffs.to_vec();
    coeffs.extend([f64::NAN, -1.0]);
    let work = || vec![FILLER; 8];
    Basis {
        words,
        coeffs,
        order: work(),
        work: work(),
        fixed: work(),
        kept: work(),
    }
}

fn keeping(texts: &[&str], coeffs: &[f64], protected: &[&str]) -> Keeping {
    Keeping {
        n_qubits: 2,
        len: texts.len(),
        protected: lanes(protected),
        basis: basis(texts, coeffs),
    }
}

const FOUR: [&str; 4] = ["XI", "YI", "ZI", "IX"];
const COEFFS: [f64; 4] = [3.0, -1.0, 1.0, 0.5];

fn tempting_prunes() -> Vec<Case> {
    let prune = |coeffs: &[f64; 4], protected: &[&str], drop_tol: f64| {
        Case::prune(keeping(&FOUR, coeffs, protected), drop_tol)
    };
    vec![
        // At the magnitude of two entries, and just above it.
        prune(&COEFFS, &[], 1.0),
        prune(&COEFFS, &[], 1.0f64.next_up()),
        prune(&COEFFS, &["IX", "IX"], 1.0),
        prune(&COEFFS, &["YY"], 4.0),
        // Nothing at 0 and below, whatever the sign of 0.
        prune(&[0.0, -0.0, 5e-324, 1.0], &[], 0.0),
        prune(&[0.0, -0.0, 5e-324, 1.0], &[], -0.0),
        prune(&[0.0, -0.0, 5e-324, 1.0], &[], -1.0),
        prune(&[0.0, -0.0, 5e-324, 1.0], &[], 5e-324),
        prune(&[0.0, -0.0, 5e-324, 1.0], &["YI"], 5e-324),
    ]
}

fn tempting_caps() -> Vec<Case> {
    let cap = |coeffs: &[f64; 4], protected: &[&str], limit: usize| {
        Case::cap(keeping(&FOUR, coeffs, protected), limit)
    };
    vec![
        // P10 to P12.
        cap(&COEFFS, &[], 2),
        cap(&COEFFS, &["IX"], 2),
        cap(&COEFFS, &["IX"], 0),
        // Ties at the cut.
        cap(&[1.0, -1.0, 1.0, -1.0], &[], 2),
        cap(&[0.0, -0.0, 0.0, -0.0], &["ZI"], 2),
        // A protected list that is longer than what it protects.
        cap(&COEFFS, &["IX", "IX", "YY", "ZZ"], 2),
        // More protected entries than the limit.
        cap(&COEFFS, &["IX", "ZI", "YI"], 2),
        cap(&COEFFS, &FOUR, 0),
        // About the length.
        cap(&COEFFS, &[], 3),
        cap(&COEFFS, &[], 4),
        cap(&COEFFS, &[], 5),
        cap(&COEFFS, &[], 0),
        // A protected word at two positions.
        Case::cap(keeping(&["IX", "XI", "IX"], &[0.1, 3.0, 0.2], &["IX"]), 1),
    ]
}

/// A list for the basis XI 3 of one entry.
fn admission(list: &[&str], values: &[f64], limit: usize) -> Admission {
    Admission {
        n_qubits: 2,
        len: 1,
        list: lanes(list),
        values: values.to_vec(),
        limit,
        basis: basis(&["XI"], &[3.0]),
    }
}

fn tempting_admissions() -> Vec<Case> {
    let admit = |list: &[&str], values: &[f64], limit| Case::admit(admission(list, values, limit));
    vec![
        // Room for none, for all, and for more.
        admit(&["XX", "YY"], &[1.0, 2.0], 0),
        admit(&["XX", "YY"], &[1.0, 2.0], 1),
        admit(&["XX", "YY"], &[1.0, 2.0], 3),
        admit(&["XX", "YY"], &[0.0, -0.0], MAX_WORDS),
        admit(&[], &[], 4),
        // A word twice, and one that stands in the basis.
        admit(&["XX", "XX"], &[1.0, 1.0], 3),
        admit(&["XI"], &[1.0], 2),
    ]
}

/// Refusals, and admission of more words than there is room for.
fn not_of_the_rust(rng: &mut Rng, cases: usize, from: usize) {
    let plain = || keeping(&FOUR, &COEFFS, &["IX"]);
    let three = |limit| admission(&["XX", "YY", "ZZ"], &[1.0, -2.0, 2.0], limit);
    let mut list = vec![
        Case::prune(plain(), f64::NAN),
        Case::prune(plain(), f64::NEG_INFINITY),
        Case::cap(plain(), MAX_WORDS + 1),
        // Y, Z in the order listed, and of the two as large the earlier.
        Case::admit(admission(&["XX", "YY", "ZZ"], &[1.0, 2.0, 3.0], 3)),
        Case::admit(three(2)),
        Case::admit(three(MAX_WORDS + 1)),
        // Three places for four entries.
        Case::admit(three(4)),
    ];
    let mut spoilt = |spoil: &dyn Fn(&mut Case)| {
        for mut case in [
            Case::prune(plain(), 1.0),
            Case::cap(plain(), 2),
            Case::admit(three(3)),
        ] {
            spoil(&mut case);
            list.push(case);
        }
    };
    spoilt(&|case| case.n_qubits = MAX_QUBITS + 1);
    spoilt(&|case| case.len = MAX_WORDS + 1);
    spoilt(&|case| case.basis.coeffs[0] = f64::INFINITY);
    spoilt(&|case| case.given[1] = 1);
    spoilt(&|case| case.basis.kept.truncate(2));
    if from > 0 {
        list.clear();
    }
    for case in &list {
        assert!(case.fits());
        case.line(Line::new(NOT_RUST).number(case.call)).print();
    }
    let mut recorded = list.len();
    while recorded < cases {
        let mut keeping = inputs::small_keeping(rng);
        inputs::spoil_keeping(rng, &mut keeping);
        let limit = inputs::limit(rng, &keeping);
        let case = Case::cap(keeping, limit);
        if case.n_qubits >= from && case.fits() && case.answer().0.status.refusal != 0 {
            case.line(Line::new(NOT_RUST).number(case.call)).print();
            recorded += 1;
        }
    }
}
