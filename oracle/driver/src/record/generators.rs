// SPDX-FileCopyrightText: 2026 The PPVM Authors
// SPDX-License-Identifier: Apache-2.0

//! Generators over small bases, the same matrices by rows, and norms with degrees: tempting cases first, then
//! random ones.

use super::standing::Standing;
use super::{Line, most};
use crate::inputs::Rng;
use crate::inputs::actions as action_inputs;
use crate::inputs::bases::lanes_of;
use crate::inputs::generators as inputs;
use crate::inputs::models::Items;
use crate::inputs::norms as norm_inputs;
use crate::port::Word;
use crate::port::generators::GeneratorRoom;
use crate::port::norms::NormRoom;
use crate::published::generators::RustGenerator;
use crate::published::norms::{has_norm, partition};
use crate::rules::generators::{
    Acts, Entry, all_entries, build_csr, by_rows, generator, generator_sizes,
};
use crate::rules::models::Complex;
use crate::rules::norms::{Pair, expm_degree, is_closed, most_touched, terms};
use crate::rules::{MAX_QUBITS, word_of};

/// The kinds: of a generator, of a matrix by rows, of a norm and degree, and answers which the Rust does not
/// give.
const GENERATOR: u64 = 19;
const BY_ROWS: u64 = 20;
const NORM: u64 = 21;
pub(super) const NOT_RUST: u64 = 24;

/// What replaying has room for: words, places of table 1, and entries. The numbers of a line are fewer than there
/// might be, to keep the recording small.
const WORDS: usize = 64;
const TOUCHED: usize = 256;
const ENTRIES: usize = 512;
const LONGEST: usize = 500;

pub fn record(seed: u64, cases: usize, from: usize) {
    let rng = &mut Rng::new(seed);
    println!(
        "# 13, as 5 to the lengths of the lent slices, then how many words, the places of tables"
    );
    println!(
        "#   1 and 3, the words, refusal first second count, how many rows, the rows, columns"
    );
    println!("#   and values");
    kind(rng, GENERATOR, cases, from);
    println!("# 14, as 13: a matrix by rows, with offsets for the rows");
    kind(rng, BY_ROWS, cases, from);
    println!(
        "# 15, as 13 to the words, with dt and drop_tol for the places of table 3, then refusal"
    );
    println!("#   first second mu norm m s");
    kind(rng, NORM, cases, from);
}

/// Answers which the Rust does not give; the kind that they are of stands second.
pub fn record_not_of_the_rust(seed: u64, cases: usize, from: usize) {
    let rng = &mut Rng::new(seed);
    for kind in [GENERATOR, BY_ROWS, NORM] {
        let mut list = refused_tempting(rng, kind);
        list.extend(
            tempting(rng, kind)
                .into_iter()
                .filter(|case| !case.is_comparable()),
        );
        if from > 0 {
            list.clear();
        }
        let count = list.len().max(cases) + cases / 2;
        while list.len() < count {
            let case = random(rng, kind, from);
            list.extend(case.and_then(|case| spoilt(rng, from, case)));
        }
        for case in list {
            let mut line = case.line();
            line.0.insert(0, NOT_RUST);
            line.print();
        }
    }
}

/// Tempting cases, then so many random ones, all as the Rust has them.
fn kind(rng: &mut Rng, kind: u64, cases: usize, from: usize) {
    let comparable = |case: &Case| from == 0 && case.is_comparable();
    for case in tempting(rng, kind).into_iter().filter(comparable) {
        assert!(case.fits(from) && case.is_of_the_rust(), "a sound case");
        case.line().print();
    }
    let mut recorded = 0;
    while recorded < cases {
        let Some(case) = random(rng, kind, from) else {
            continue;
        };
        let some = case.needs().1 > 0 || rng.one_in(8);
        if some && case.fits(from) && case.is_of_the_rust() {
            case.line().print();
            recorded += 1;
        }
    }
}

/// A call over a basis, with the places of tables 1 and 3, and a step where it has one.
struct Case {
    kind: u64,
    standing: Standing,
    words: Vec<Word>,
    touched: usize,
    entries: usize,
    step: (f64, f64),
    acts: Acts,
}

impl Case {
    /// With just enough places.
    fn new(kind: u64, standing: Standing, words: Vec<Word>, step: (f64, f64)) -> Self {
        let mut case = Self {
            kind,
            standing,
            words,
            touched: 0,
            entries: 0,
            step,
            acts: Acts::default(),
        };
        (case.touched, case.entries) = case.needs();
        case
    }

    /// The places of tables 1 and 3 that are just enough.
    fn needs(&self) -> (usize, usize) {
        let Standing { model, lent, .. } = &self.standing;
        let touched = most_touched(*model, lent, &self.words, &self.acts);
        let entries = all_entries(*model, lent, &self.words, &self.acts);
        (touched, entries.list.len())
    }

    /// Whether replaying has room for it.
    fn fits(&self, from: usize) -> bool {
        let room = self.words.len() <= WORDS && self.touched <= TOUCHED;
        room && self.entries <= ENTRIES && self.line().0.len() <= most(LONGEST, from)
    }

    fn room(&self) -> GeneratorRoom {
        let Standing { model, .. } = &self.standing;
        let sizes = generator_sizes(model.qubits, self.words.len(), self.touched, self.entries);
        GeneratorRoom::of(&sizes, self.words.len(), self.entries)
    }

    fn line(&self) -> Line {
        let Standing { model, lent, .. } = &self.standing;
        let lanes = lanes_of(&self.words);
        let (len, touched) = (self.words.len(), self.touched as u64);
        let line = Line(self.standing.line.0.clone());
        let line = line.numbers(&[len as u64, touched]);
        if self.kind == NORM {
            let (dt, drop_tol) = self.step;
            let line = line.floats(&[dt, drop_tol]).numbers(&lanes);
            let sizes = generator_sizes(model.qubits, len, self.touched, 0);
            let mut room = NormRoom::of(&sizes, len);
            let found = expm_degree(*model, lent, &lanes, len, self.step, &mut room, &self.acts);
            let line = line.status(found.status).floats(&[found.mu, found.norm]);
            return line.numbers(&[found.m, found.s].map(u64::from));
        }
        let line = line.number(self.entries as u64).numbers(&lanes);
        let mut room = self.room();
        let call = match self.kind {
            GENERATOR => generator,
            _ => build_csr,
        };
        let listed = call(*model, lent, &lanes, len, &mut room, &self.acts);
        let accepted = listed.status.refusal == 0;
        let rows: Vec<u64> = match self.kind {
            GENERATOR => room.rows.iter().map(|&row| row.into()).collect(),
            _ if accepted => room.offsets,
            _ => Vec::new(),
        };
        let (count, heads) = match self.kind {
            GENERATOR => (listed.count, listed.count),
            _ => (listed.count, rows.len()),
        };
        let columns: Vec<u64> = room.columns.iter().map(|&column| column.into()).collect();
        line.status(listed.status)
            .numbers(&[count as u64, heads as u64])
            .numbers(&rows[..heads])
            .numbers(&columns[..count])
            .floats(&room.values[..count])
    }

    /// Whether the Rust is to give the same: of norms, only where every word that an action lists is in the basis.
    fn is_comparable(&self) -> bool {
        let Standing { model, lent, .. } = &self.standing;
        let terms = || terms(*model, lent, &self.words, &self.acts);
        self.kind != NORM || is_closed(&terms(), &self.words)
    }

    /// Whether the Rust has the same entries, or the same mu, norm and degree.
    fn is_of_the_rust(&self) -> bool {
        let Standing { model, lent, .. } = &self.standing;
        if !self.is_comparable() {
            return false;
        }
        let Some(rust_model) = self.standing.rust() else {
            return false;
        };
        let rust = RustGenerator::new(&rust_model, &self.words);
        let bits = |list: Vec<Entry>| -> Vec<(usize, usize, u64)> {
            let bits = |entry: Entry| (entry.row, entry.column, entry.value.to_bits());
            list.into_iter().map(bits).collect()
        };
        let entries = || all_entries(*model, lent, &self.words, &self.acts).list;
        match self.kind {
            GENERATOR => bits(rust.entries()) == bits(entries()),
            BY_ROWS => bits(rust.by_rows()) == bits(by_rows(entries())),
            _ => {
                let acts = &self.acts;
                let (lanes, len) = (lanes_of(&self.words), self.words.len());
                let mut room =
                    NormRoom::of(&generator_sizes(model.qubits, len, self.touched, 0), len);
                let found = expm_degree(*model, lent, &lanes, len, self.step, &mut room, acts);
                let Some((mu, pair)) = partition(&rust, self.step.0, self.step.1) else {
                    return false;
                };
                let Pair { m, s } = pair;
                found.status.refusal == 0
                    && (mu.to_bits(), m, s) == (found.mu.to_bits(), found.m, found.s)
                    && has_norm(&rust, found.norm) == Some(true)
            }
        }
    }
}

/// A basis near a small model, most with words that they reach.
fn random(rng: &mut Rng, kind: u64, from: usize) -> Option<Case> {
    let standing = Standing::of_model(rng, kind, from, 1)?;
    let acts = Acts::default();
    let Standing {
        items,
        matrices,
        model,
        lent,
        ..
    } = &standing;
    let reached = |words: &[Word]| {
        let acts = terms(*model, lent, words, &acts).into_iter();
        let lists = acts.flat_map(|(_, terms)| terms);
        lists.map(|(w, _)| w).collect()
    };
    let mut words = inputs::words(rng, items, matrices, reached);
    let most = 1 + rng.below(16);
    words.truncate(most);
    if kind == NORM && !rng.one_in(4) {
        words.truncate(1 + rng.below(3));
        words = inputs::closed(words, WORDS / 2, reached)?;
    }
    let step = (norm_inputs::dt(rng), norm_inputs::drop_tol(rng));
    Some(Case::new(kind, standing, words, step))
}

/// The same with something that document 01 refuses, where it then does.
fn spoilt(rng: &mut Rng, from: usize, mut case: Case) -> Option<Case> {
    let (n_qubits, len) = (case.standing.model.qubits, case.words.len());
    match rng.below(5) {
        0 if case.touched > 0 => case.touched -= 1,
        1 if case.entries > 0 && case.kind != NORM => case.entries -= 1,
        2 if n_qubits < MAX_QUBITS && len > 0 => {
            let position = rng.below(len);
            case.words[position] = action_inputs::outside(rng, n_qubits);
        }
        3 if len > 1 && case.kind != NORM => {
            let (from, to) = (rng.below(len), rng.below(len));
            case.words[to] = case.words[from];
            if from == to {
                return None;
            }
        }
        3 if case.is_comparable() => return None,
        3 => {} // accepted, and no answer of the Rust
        4 if case.kind == NORM => match rng.below(3) {
            0 => case.step.0 = f64::NAN,
            1 => case.step.1 = f64::INFINITY,
            _ => case.step.0 = -f64::MAX,
        },
        _ => return None,
    }
    case.fits(from).then_some(case)
}

// ---- tempting cases

/// Items of a register of one qubit.
fn one(hamiltonian: &[(&str, f64)], jumps: &[(f64, &[(&str, Complex)])]) -> Items {
    let text = |text: &str| text.as_bytes().to_vec();
    let term = |(word, x): &(&str, Complex)| (text(word), *x);
    Items {
        n_qubits: 1,
        hamiltonian: hamiltonian.iter().map(|(w, x)| (text(w), *x)).collect(),
        jumps: jumps
            .iter()
            .map(|(rate, terms)| (*rate, terms.iter().map(term).collect()))
            .collect(),
    }
}

fn tempting(rng: &mut Rng, kind: u64) -> Vec<Case> {
    let mut list = Vec::new();
    let mut over = |items: Items, texts: &[&str], dt: f64, drop_tol: f64| {
        let standing = Standing::of_items(rng, kind, 0, items).expect("there is room for it");
        let words = texts.iter().map(|text| word_of(text.as_bytes())).collect();
        list.push(Case::new(kind, standing, words, (dt, drop_tol)));
    };
    // Rows and columns exchanged; words in another order than positions; a word outside of the basis, which the
    // norm does not count; a row without entries.
    let turning = one(&[("Z", 0.5)], &[]);
    over(turning.clone(), &["X", "Y"], 1.0, 0.0);
    over(turning.clone(), &["Y", "Z", "X"], 0.3, 0.0);
    over(turning.clone(), &["X"], 4.0, 0.0);
    over(turning, &["X"], -4.0, 1e-4);
    // A diagonal, and a mean of it that no entry has.
    let damped = one(
        &[("Z", 0.5)],
        &[
            (0.25, &[("Z", (1.0, 0.0))]),
            (1.0, &[("X", (0.5, 0.0)), ("Y", (0.0, 0.5))]),
        ],
    );
    over(damped.clone(), &["X", "Y", "Z"], 1.0, 0.0);
    over(damped.clone(), &["I", "X", "Y", "Z"], 1.0, 1e-4);
    over(damped, &["Z", "I"], 1e4, 1e-4f64.next_down());
    list
}

fn refused_tempting(rng: &mut Rng, kind: u64) -> Vec<Case> {
    let mut over = |texts: &[&str]| {
        let items = one(&[("Z", 0.5)], &[(0.25, &[("Z", (1.0, 0.0))])]);
        let standing = Standing::of_items(rng, kind, 0, items).expect("there is room for it");
        let words = texts.iter().map(|text| word_of(text.as_bytes())).collect();
        Case::new(kind, standing, words, (1.0, 0.0))
    };
    let again = over(&["X", "Y", "Y", "X"]);
    let empty = over(&[]);
    let mut short = over(&["X", "Y"]);
    short.touched -= 1;
    short.entries = 0;
    let mut few = over(&["X", "Y"]);
    few.entries -= 1;
    let mut long = over(&["X", "Y"]);
    long.step.0 = 1e300;
    let mut long_and_short = over(&["X", "Y"]);
    long_and_short.step.0 = 1e300;
    long_and_short.touched -= 1;
    vec![again, empty, short, few, long, long_and_short]
}
