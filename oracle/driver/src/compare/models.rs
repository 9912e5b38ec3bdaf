// SPDX-FileCopyrightText: 2026 The PPVM Authors
// SPDX-License-Identifier: Apache-2.0

//! Models: building, testing, lengths of tables.
//!
//! Cases of building and testing are counted by what document 01 answers to them. The Rust has no number
//! ranges, no limits of counts and no lent tables, and it reads characters where the port reads
//! bytes. So a difference is expected where document 01 refuses for one of these, and only if the
//! Rust answers as the rest of the rules do.

use super::{Answers, Tally};
use crate::inputs::Rng;
use crate::inputs::models::{self as inputs, Items};
use crate::port::models::{self as port, Built, Given, Lent, Model, Sizes};
use crate::port::{Status, WORD_LANES};
use crate::published::models::RustItems;
use crate::rules::MAX_QUBITS;
use crate::rules::matrices::work_places;
use crate::rules::models as rules;
use crate::rules::refusal;

/// How often each large model is built.
const LARGE_CASES: usize = 4;

pub fn compare(seed: u64, cases: usize) -> Vec<Tally> {
    let rng = &mut Rng::new(seed);
    let mut tallies = Tallies::new();
    for _ in 0..cases {
        build_small(rng, &mut tallies);
    }
    for _ in 0..LARGE_CASES {
        build_large(rng, &mut tallies);
    }
    let Tallies { built, tested } = tallies;
    let all = built.into_iter().chain(tested);
    let mut all: Vec<Tally> = all.filter(|tally| tally.cases > 0).collect();
    all.push(sizes(rng, cases));
    all
}

/// The operations: the first where document 01 accepts, then by the number of its refusal.
const OPERATIONS: [&str; 17] = [
    "",
    "  refusal 1",
    "  refusal 2",
    "  refusal 3",
    "  refusal 4",
    "  refusal 5",
    "  refusal 6",
    "  refusal 7",
    "  refusal 8",
    "  refusal 9",
    "  refusal 10",
    "  refusal 11",
    "  refusal 12",
    "  refusal 13",
    "  refusal 14",
    "  refusal 15",
    "  refusal 16",
];

struct Tallies {
    built: Vec<Tally>,
    tested: Vec<Tally>,
}

/// A tally for each answer.
pub(super) fn by_answer(accepted: &'static str) -> Vec<Tally> {
    let mut tallies: Vec<Tally> = OPERATIONS.map(Tally::new).into();
    tallies[0] = Tally::new(accepted);
    tallies
}

impl Tallies {
    fn new() -> Self {
        Self {
            built: by_answer("model built"),
            tested: by_answer("model tested"),
        }
    }
}

/// What building answers and what it leaves in the lent tables.
#[derive(Debug, PartialEq)]
pub(super) struct Outcome {
    pub built: Built,
    pub lent: Lent,
}

/// How the Rust refuses a text, which it reads by characters.
pub(super) fn refused_text(bytes: &[u8], n_qubits: usize) -> Option<Status> {
    let text = std::str::from_utf8(bytes).expect("the Rust was asked");
    let kept: Vec<char> = text.chars().filter(|&c| c != '_').collect();
    if kept.len() != n_qubits {
        return Some(refusal(2, n_qubits, kept.len()));
    }
    let place = kept.iter().position(|c| !"IXYZ".contains(*c))?;
    Some(refusal(3, kept[place] as usize, place))
}

/// What the Rust is known to answer: the rules without ranges, limits and tables, with characters
/// for bytes.
fn unlimited(items: &Items) -> Status {
    let text = |bytes: &[u8]| refused_text(bytes, items.n_qubits);
    if items.n_qubits > MAX_QUBITS {
        return refusal(1, items.n_qubits, MAX_QUBITS);
    }
    let reals = items.hamiltonian.iter().find_map(|(bytes, _)| text(bytes));
    let jump = |(k, (rate, terms)): (usize, &(f64, Vec<_>))| {
        if *rate < 0.0 {
            return Some(refusal(5, k, 0));
        }
        if terms.is_empty() {
            return Some(refusal(6, k, 0));
        }
        terms
            .iter()
            .find_map(|(bytes, _): &(Vec<u8>, _)| text(bytes))
    };
    let jumps = || items.jumps.iter().enumerate().find_map(jump);
    reals.or_else(jumps).unwrap_or_default()
}

/// The Rust's answer, with what it does not tell taken from the rules: the tables, and how many
/// terms were compiled.
fn ask_rust(items: &Items, rules: &Outcome) -> Option<Outcome> {
    let asked = RustItems::new(items)?;
    let status = asked.status();
    let model = match asked.build() {
        Ok(model) => Model {
            qubits: model.n_qubits(),
            hamiltonian: model.num_h_terms(),
            jumps: model.num_jump_terms(),
            terms: rules.built.model.terms,
        },
        Err(_) => Model::default(),
    };
    Some(Outcome {
        built: Built { status, model },
        lent: rules.lent.clone(),
    })
}

fn listed(items: &Items, rules: &Outcome, rust: Option<&Outcome>) -> bool {
    let is_ascii = |bytes: &Vec<u8>| bytes.is_ascii();
    let reals = items.hamiltonian.iter().map(|(bytes, _)| bytes);
    let terms = items.jumps.iter().flat_map(|(_, terms)| terms);
    let ascii = reals.chain(terms.map(|(bytes, _)| bytes)).all(is_ascii);
    let refused = [7, 8, 9, 13].contains(&rules.built.status.refusal);
    (refused || !ascii) && rust.is_some_and(|rust| rust.built.status == unlimited(items))
}

/// Both sides build a model. `given` are the items in flat slices, or no items where `sound` is
/// false, so that the Rust cannot be asked.
fn build(tallies: &mut Tallies, items: &Items, given: &Given, sound: bool, lent: &Lent) -> Built {
    let n_qubits = items.n_qubits;
    let answer = |build: fn(&Given, usize, &mut Lent) -> Built| {
        let mut lent = lent.clone();
        Outcome {
            built: build(given, n_qubits, &mut lent),
            lent,
        }
    };
    let rules = answer(rules::build_model);
    let port = answer(port::build_model);
    let rust = if sound { ask_rust(items, &rules) } else { None };
    let built = rules.built;
    if built.status.refusal == 0 {
        // What was built passes the test.
        test(&mut tallies.tested, built.model, &port.lent, items.size());
    }
    let answers = Answers {
        listed: listed(items, &rules, rust.as_ref()),
        rust,
        port,
        rules,
    };
    let input = || {
        let lent = [
            lent.h_words.len() / WORD_LANES,
            lent.jumps.len() / 8,
            lent.t_words.len() / WORD_LANES,
        ];
        format!("{items:?}, places {lent:?}, given {given:?}")
    };
    tallies.built[built.status.refusal as usize].count(items.size(), input, answers);
    built
}

pub(super) fn test(tested: &mut [Tally], model: Model, lent: &Lent, size: usize) {
    let answers = Answers {
        rust: None,
        port: port::test_model(model, lent),
        rules: rules::test_model(model, lent),
        listed: false,
    };
    let input = || format!("{model:?} in {lent:?}");
    tested[answers.rules.refusal as usize].count(size, input, answers);
}

/// A small model, sound or not, in tables that are long enough or not; then, where it was built, the
/// same in a terms table with just enough places and with one too few, and what was built is damaged
/// and tested.
fn build_small(rng: &mut Rng, tallies: &mut Tallies) {
    let mut items = inputs::sound(rng);
    if rng.one_in(2) {
        for _ in 0..=rng.below(2) {
            inputs::spoil(rng, &mut items);
        }
    }
    let mut given = items.flat();
    let sound = !rng.one_in(8);
    if !sound {
        inputs::spoil_lengths(rng, &mut given);
    }
    let enough = port::model_sizes(given.h_numbers.len(), given.rates.len(), items.longest());
    let mut sizes = enough;
    if rng.one_in(4) {
        inputs::other_length(rng, &mut sizes);
    }
    let lent = inputs::lent(rng, sizes);
    let built = build(tallies, &items, &given, sound, &lent);
    if built.status.refusal != 0 {
        return;
    }

    let terms = built.model.terms;
    let places = |terms: usize| Sizes {
        t_words: WORD_LANES * terms,
        t_numbers: 2 * terms,
        ..enough
    };
    let mut exact = inputs::lent(rng, places(terms));
    build(tallies, &items, &given, sound, &exact);
    if terms > 0 {
        let short = inputs::lent(rng, places(terms - 1));
        build(tallies, &items, &given, sound, &short);
    }

    let mut model = port::build_model(&given, items.n_qubits, &mut exact).model;
    for _ in 0..=rng.below(2) {
        inputs::spoil_model(rng, &mut model, &mut exact);
    }
    test(&mut tallies.tested, model, &exact, items.size());
}

/// Models at the limits of counts: one item more is refused.
fn build_large(rng: &mut Rng, tallies: &mut Tallies) {
    for count in [rules::MAX_HAMILTONIAN, rules::MAX_HAMILTONIAN + 1] {
        for jumps in [false, true] {
            let mut items = inputs::sound(rng);
            let n_qubits = items.n_qubits;
            let text = vec![b'Y'; n_qubits];
            if jumps {
                let term = (text, (1.0, 0.5));
                items.jumps = vec![(0.25, vec![term.clone(), term]); count];
            } else {
                items.hamiltonian = vec![(text, 1.0); count];
            }
            let given = items.flat();
            let sizes = port::model_sizes(count, count, items.longest());
            let lent = inputs::lent(rng, sizes);
            build(tallies, &items, &given, true, &lent);
        }
    }
}

/// The lengths that are enough, as document 01's limits and the layout give them.
fn sizes(rng: &mut Rng, cases: usize) -> Tally {
    let mut tally = Tally::new("model sizes");
    let lengths = |hamiltonian, entries, terms, work| Sizes {
        h_words: WORD_LANES * hamiltonian,
        h_coeffs: hamiltonian,
        jumps: 8 * entries,
        rates: entries,
        t_words: WORD_LANES * terms,
        t_numbers: 2 * terms,
        work_words: WORD_LANES * work,
        work_numbers: 2 * work,
    };
    let count = |rng: &mut Rng, limit: usize| match rng.below(3) {
        0 => limit - 1 + rng.below(3),
        1 => rng.below(limit),
        _ => (rng.next() >> rng.below(64)) as usize,
    };
    for _ in 0..cases {
        let h = count(rng, rules::MAX_HAMILTONIAN);
        let j = count(rng, rules::MAX_JUMPS);
        let k = count(rng, rules::MAX_OPERATORS);
        let c = count(rng, rules::MAX_TERMS);
        let (h1, j1) = (h.min(rules::MAX_HAMILTONIAN), j.min(rules::MAX_JUMPS));
        let (k1, c1) = (k.min(rules::MAX_OPERATORS), c.min(rules::MAX_TERMS));
        let pairs = (1..=k1).sum::<usize>();
        let jump_work = rules::where_any(j1, rules::WORK_PLACES);
        let pair_work = work_places(k1, k1 * c1);
        let answers = Answers {
            rust: None,
            port: (port::model_sizes(h, j, c), port::matrix_sizes(k, c)),
            rules: (
                lengths(h1, j1, j1 * (c1 + c1 * c1), jump_work),
                lengths(0, pairs, k1 * c1 + pairs * 2 * c1 * c1, pair_work),
            ),
            listed: false,
        };
        let input = || format!("{h} items, {j} jumps, {k} operators, {c} terms");
        tally.count(0, input, answers);
    }
    tally
}
