// SPDX-FileCopyrightText: 2026 The PPVM Authors
// SPDX-License-Identifier: Apache-2.0

//! The generator over lent bases, and the same matrix by rows, every lent table bit for bit.
//!
//! Cases are counted by what document 01 answers to them. The Rust is asked where the document accepts: its
//! generator is put in the order of the document; its matrix by rows is private, and is read entry by
//! entry through products with unit vectors. A difference is expected where a number of the model is near a
//! tolerance, which the Rust compares with a hypot, and only if the Rust has the entries of the rules with
//! hypots.

use super::models::by_answer;
use super::over_basis::OverBasis;
use super::{Answers, Tally};
use crate::inputs::Rng;
use crate::inputs::actions as action_inputs;
use crate::inputs::generators as inputs;
use crate::inputs::leakages::LARGE;
use crate::inputs::models::Items;
use crate::port::actions::Listed;
use crate::port::generators::{self as port, GeneratorRoom};
use crate::port::models::{Lent, Model};
use crate::published::generators::RustGenerator;
use crate::rules::actions::MAX_WORDS;
use crate::rules::generators::{self as rules, Acts, Entries, Entry, by_rows, offsets};
use crate::rules::{MAX_QUBITS, refusal, word_of};

/// One in so many cases has something wrong.
const SPOILT: usize = 3;

/// Each basis is asked about several times, so there are fewer bases than cases.
const CASES_A_BASIS: usize = 4;

pub fn compare(seed: u64, cases: usize) -> Vec<Tally> {
    let rng = &mut Rng::new(seed);
    let mut tallies = Tallies {
        generators: by_answer("generator"),
        by_rows: by_answer("matrix by rows"),
        untouched: Tally::new("given after it"),
        sizes: Tally::new("lengths of work"),
    };
    known(rng, &mut tallies);
    large(rng, &mut tallies);
    for _ in 0..cases.div_ceil(CASES_A_BASIS) {
        random(rng, &mut tallies);
        sizes(rng, &mut tallies.sizes);
    }
    let Tallies {
        generators,
        by_rows,
        untouched,
        sizes,
    } = tallies;
    let all = generators.into_iter().chain(by_rows);
    let all = all.chain([untouched, sizes]);
    all.filter(|tally| tally.cases > 0).collect()
}

struct Tallies {
    generators: Vec<Tally>,
    by_rows: Vec<Tally>,
    /// Whether what is only read is as it was.
    untouched: Tally,
    sizes: Tally,
}

/// What a call answers, and what it leaves in the lent tables.
#[derive(Clone, Debug, PartialEq)]
struct Outcome {
    listed: Listed,
    room: GeneratorRoom,
}

impl Outcome {
    /// The same with these entries, as far as there are places: in columns, or in rows of so many.
    fn with(&self, list: &[Entry], rows: Option<usize>) -> Self {
        let mut outcome = self.clone();
        outcome.listed.count = list.len();
        let room = &mut outcome.room;
        for (place, entry) in room.columns.iter_mut().zip(list) {
            *place = entry.column as u32;
        }
        for (place, entry) in room.values.iter_mut().zip(list) {
            *place = entry.value;
        }
        match rows {
            Some(rows) => {
                for (place, offset) in room.offsets.iter_mut().zip(offsets(rows, list)) {
                    *place = offset;
                }
            }
            None => {
                for (place, entry) in room.rows.iter_mut().zip(list) {
                    *place = entry.row as u32;
                }
            }
        }
        outcome
    }
}

/// The entries with their values' bits.
fn bits_of(list: &[Entry]) -> Vec<(usize, usize, u64)> {
    let bits = |entry: &Entry| (entry.row, entry.column, entry.value.to_bits());
    list.iter().map(bits).collect()
}

type PortCall = fn(Model, &Lent, &[u64], usize, &mut GeneratorRoom) -> Listed;
type RulesCall = fn(Model, &Lent, &[u64], usize, &mut GeneratorRoom, &Acts) -> Listed;

/// All sides are asked for both forms. `lanes` and `len` are the basis of `over` or a spoilt one, and the Rust is
/// asked where they are not.
fn ask(
    rng: &mut Rng,
    tallies: &mut Tallies,
    over: &OverBasis,
    (lanes, len): (&[u64], usize),
    room: &GeneratorRoom,
) {
    let generator: (PortCall, RulesCall) = (port::generator, rules::generator);
    let csr: (PortCall, RulesCall) = (port::build_csr, rules::build_csr);
    for (calls, is_by_rows) in [(generator, false), (csr, true)] {
        let mut lent = room.clone();
        let listed = calls.0(over.model(), over.lent(), lanes, len, &mut lent);
        let port = Outcome { listed, room: lent };
        let mut lent = room.clone();
        let listed = calls.1(over.model(), over.lent(), lanes, len, &mut lent, &over.acts);
        let rules = Outcome { listed, room: lent };
        let refusal = rules.listed.status.refusal;
        let list = match &over.rust {
            Some(model) if refusal == 0 => {
                let generator = RustGenerator::new(model, &over.words);
                Some(match is_by_rows {
                    true => generator.by_rows(),
                    false => generator.entries(),
                })
            }
            _ => None,
        };
        let rows = is_by_rows.then_some(len);
        let rust = list.as_ref().map(|list| rules.with(list, rows));
        let differs = list.filter(|_| rust.as_ref() != Some(&rules));
        let answers = Answers {
            listed: differs.is_some_and(|list| by_hypots(rng, over, is_by_rows, &list)),
            rust,
            port,
            rules,
        };
        let input = || {
            format!(
                "{}, {len} of {lanes:x?}, {:?}",
                over.input(),
                room.lengths()
            )
        };
        let tally = match is_by_rows {
            true => &mut tallies.by_rows,
            false => &mut tallies.generators,
        };
        tally[refusal as usize].count(over.size(), input, answers);
    }
}

/// Whether the entries are those of the rules with a hypot for each square.
fn by_hypots(rng: &mut Rng, over: &OverBasis, is_by_rows: bool, list: &[Entry]) -> bool {
    let Some(other) = over.by_hypots(rng) else {
        return false;
    };
    let Entries { list: by_rules, .. } = other.entries();
    let by_rules = match is_by_rows {
        true => by_rows(by_rules),
        false => by_rules,
    };
    bits_of(&by_rules) == bits_of(list)
}

/// A call in tables of just enough places, and one in tables of which one has too few.
fn in_places(rng: &mut Rng, tallies: &mut Tallies, over: &OverBasis) {
    let Entries { touched, list } = over.entries();
    let (n_qubits, len) = (over.model().qubits, over.words.len());
    let lanes = inputs::lent_words(rng, &over.words);
    let room = inputs::room(rng, n_qubits, len, touched, list.len());
    ask(rng, tallies, over, (&lanes, len), &room);
    let (mut touched, mut entries) = (touched, list.len());
    let table = match rng.below(2) {
        0 => &mut touched,
        _ => &mut entries,
    };
    *table = match rng.below(3) {
        0 => rng.below(*table + 1),
        _ => table.saturating_sub(1),
    };
    let room = inputs::room(rng, n_qubits, len, touched, entries);
    ask(rng, tallies, over, (&lanes, len), &room);
}

/// A basis of up to some hundreds of words; then, in one of a few, with something wrong.
fn random(rng: &mut Rng, tallies: &mut Tallies) {
    let mut over = OverBasis::random(rng);
    let before = over.lent().clone();
    in_places(rng, tallies, &over);
    untouched(tallies, &over, before);
    if !rng.one_in(SPOILT) {
        return;
    }
    let Entries { touched, list } = over.entries();
    let (n_qubits, mut len) = (over.model().qubits, over.words.len());
    let mut lanes = inputs::lent_words(rng, &over.words);
    let mut room = inputs::room(rng, n_qubits, len, touched, list.len());
    for _ in 0..=rng.below(3) {
        inputs::spoil(rng, n_qubits, &mut lanes, &mut len, &mut room);
    }
    over.rust = None;
    if rng.one_in(6) {
        over.spoil_model(rng);
    }
    ask(rng, tallies, &over, (&lanes, len), &room);
}

/// The tables of the model afterwards.
fn untouched(tallies: &mut Tallies, over: &OverBasis, before: Lent) {
    let answers = Answers {
        rust: None,
        port: over.lent().clone(),
        rules: before,
        listed: false,
    };
    tallies
        .untouched
        .count(over.size(), || over.input(), answers);
}

/// Large bases of a chain, and of many items on a few qubits.
fn large(rng: &mut Rng, tallies: &mut Tallies) {
    for len in LARGE {
        let items = action_inputs::chain(rng, 24, None);
        let words = action_inputs::local_words(rng, 24, len);
        let chain = OverBasis::new(rng, items, Vec::new(), words);
        let items = action_inputs::crowded(rng);
        let words = action_inputs::words(rng, &items, &[], len);
        let crowded = OverBasis::new(rng, items, Vec::new(), inputs::distinct(words));
        for over in [chain, crowded] {
            in_places(rng, tallies, &over);
        }
    }
}

/// The lengths of work tables.
fn sizes(rng: &mut Rng, tally: &mut Tally) {
    let ends = [
        0,
        1,
        MAX_QUBITS,
        MAX_QUBITS + 1,
        MAX_WORDS,
        1 << 32,
        (1 << 32) + 1,
        usize::MAX,
    ];
    let [q, w, t, e] = [0; 4].map(|_| match rng.below(4) {
        0 => rng.pick(&ends),
        _ => rng.below(MAX_WORDS + 2),
    });
    let answers = Answers {
        rust: None,
        port: port::generator_sizes(q, w, t, e),
        rules: rules::generator_sizes(q, w, t, e),
        listed: false,
    };
    tally.count(0, || format!("{q}, {w}, {t}, {e}"), answers);
}

/// Small generators with their entries, and a basis word that comes again.
fn known(rng: &mut Rng, tallies: &mut Tallies) {
    let one = |hamiltonian: &[(&str, f64)], jumps: &[(f64, &str)]| Items {
        n_qubits: 1,
        hamiltonian: hamiltonian
            .iter()
            .map(|(text, x)| (text.as_bytes().to_vec(), *x))
            .collect(),
        jumps: jumps
            .iter()
            .map(|(rate, text)| (*rate, vec![(text.as_bytes().to_vec(), (1.0, 0.0))]))
            .collect(),
    };
    let mut entries = |items, texts: &[&str], expected: &[(usize, usize, f64)]| {
        let words = texts.iter().map(|text| word_of(text.as_bytes())).collect();
        let over = OverBasis::new(rng, items, Vec::new(), words);
        in_places(rng, tallies, &over);
        let entry = |&(row, column, value)| Entry { row, column, value };
        let expected: Vec<Entry> = expected.iter().map(entry).collect();
        assert_eq!(over.entries().list, expected);
        let model = over.rust.as_ref().expect("texts are ASCII");
        let rust = RustGenerator::new(model, &over.words);
        assert_eq!(rust.entries(), expected);
        assert_eq!(rust.by_rows(), by_rows(expected));
    };
    // H Z turns X into -2 Y and Y into 2 X; a jump Z damps both.
    let turn = one(&[("Z", 1.0)], &[]);
    entries(turn.clone(), &["X", "Y"], &[(1, 0, -2.0), (0, 1, 2.0)]);
    entries(turn, &["X", "Z"], &[]);
    let both = one(&[("Z", 1.0)], &[(0.25, "Z")]);
    let list = [(1, 0, 2.0), (0, 0, -0.5), (1, 1, -0.5), (0, 1, -2.0)];
    entries(both, &["Y", "X"], &list);
    entries(one(&[], &[]), &[], &[]);

    // The Rust puts both entries in the row of the later position.
    let damped = one(&[], &[(0.25, "Z")]);
    let over = OverBasis::new(rng, damped, Vec::new(), vec![word_of(b"X"); 2]);
    let lanes = inputs::lent_words(rng, &over.words);
    let mut room = inputs::room(rng, 1, 2, 4, 4);
    let listed = rules::generator(
        over.model(),
        over.lent(),
        &lanes,
        2,
        &mut room.clone(),
        &over.acts,
    );
    assert_eq!(listed.status, refusal(12, 1, 0));
    assert_eq!(
        port::generator(over.model(), over.lent(), &lanes, 2, &mut room),
        listed
    );
    let model = over.rust.as_ref().expect("texts are ASCII");
    let list = RustGenerator::new(model, &over.words).list();
    assert_eq!(list, [(1, 0, -0.5), (1, 1, -0.5)]);
}
