// SPDX-FileCopyrightText: 2026 The PPVM Authors
// SPDX-License-Identifier: Apache-2.0

//! The degree for any norm, and norm and degree over lent bases, every lent table bit for bit.
//!
//! Cases are counted by what the documents answer to them. The Rust is asked where they accept, and where every word that
//! an action lists is in the basis: it sums what leaves the basis too. Its mu
//! and its degree are those that it hands to the exponential; its norm is held to the rules' by two steps at
//! which the degree tells that norm from its neighbours. A difference is expected where the magnitudes of an
//! action's terms have another sum in the Rust's order, by hash, and where a number of the model is near a
//! tolerance; and only if the Rust has what the rules give in that order, and perhaps with hypots.

use super::models::by_answer;
use super::over_basis::OverBasis;
use super::{Answers, Tally};
use crate::inputs::Rng;
use crate::inputs::models::Items;
use crate::inputs::{generators, norms as inputs};
use crate::port::norms::{self as port, Degree, NormRoom, Normed, Partition};
use crate::port::{Status, Word};
use crate::published::generators::RustGenerator;
use crate::published::models::RustModel;
use crate::published::norms::{self as published, has_norm, in_hash_order, partition};
use crate::rules::norms::{
    self as rules, Pair, basis_norm, is_closed, least_pair, most_touched, norm_of, select_ms, terms,
};
use crate::rules::word_of;

/// One in so many cases has something wrong.
const SPOILT: usize = 3;

/// Each basis is asked about several times, so there are fewer bases than cases.
const CASES_A_BASIS: usize = 3;

/// The most words of a basis that is to have all that its words reach.
const CLOSED: usize = 256;

pub fn compare(seed: u64, cases: usize) -> Vec<Tally> {
    let rng = &mut Rng::new(seed);
    let mut tallies = Tallies {
        degrees: Tally::new("degree"),
        norms: by_answer("norm"),
        partitions: by_answer("norm and degree"),
        no_probe: 0,
    };
    for t in inputs::thresholds() {
        for drop_tol in [0.0, 1e-4, 1e-4f64.next_down(), 1.0, f64::NAN, -1.0] {
            degree(&mut tallies.degrees, t, drop_tol);
        }
    }
    known(rng, &mut tallies);
    for _ in 0..cases.div_ceil(CASES_A_BASIS) {
        for _ in 0..CASES_A_BASIS {
            let (t, drop_tol) = (inputs::norm(rng), inputs::drop_tol(rng));
            degree(&mut tallies.degrees, t, drop_tol);
        }
        random(rng, &mut tallies);
    }
    let Tallies {
        degrees,
        norms,
        partitions,
        no_probe,
    } = tallies;
    println!("norm: {no_probe} of the Rust's had no step that tells them from their neighbours");
    let all = norms.into_iter().chain(partitions);
    let all = std::iter::once(degrees).chain(all);
    all.filter(|tally| tally.cases > 0).collect()
}

struct Tallies {
    degrees: Tally,
    norms: Vec<Tally>,
    partitions: Vec<Tally>,
    /// Norms of the Rust that nothing could be said of.
    no_probe: usize,
}

/// The degree for a norm. The Rust has no ceiling on products, and is asked below it.
fn degree(tally: &mut Tally, t: f64, drop_tol: f64) {
    let rules = select_ms(t, drop_tol);
    let rust = (rules.status.refusal == 0).then(|| {
        let Pair { m, s } = published::select_ms(t, drop_tol);
        Degree { m, s, ..rules }
    });
    let answers: Answers<Degree> = Answers {
        rust,
        port: port::select_ms(t, drop_tol),
        rules,
        listed: false,
    };
    tally.count(0, || format!("{t:?} at {drop_tol:?}"), answers);
}

/// A call with its basis, its step and its tables.
struct Case<'a> {
    over: &'a OverBasis,
    lanes: &'a [u64],
    len: usize,
    step: (f64, f64),
    room: &'a NormRoom,
}

/// mu and the norm as the Rust may have them: by the rules with terms by hash, or with hypots too.
fn others(rng: &mut Rng, over: &OverBasis) -> Vec<(f64, f64)> {
    let n_qubits = over.model().qubits;
    let by_hash = |terms: Vec<(Word, f64)>| in_hash_order(n_qubits, terms);
    let of = |over: &OverBasis| {
        let terms = terms(over.model(), over.lent(), &over.words, &over.acts);
        norm_of(&terms, &by_hash)
    };
    let mut others = vec![of(over)];
    others.extend(over.by_hypots(rng).map(|other| of(&other)));
    others
}

impl Case<'_> {
    fn input(&self) -> String {
        let Self {
            over,
            lanes,
            len,
            step,
            room,
        } = self;
        format!("{}, {len} of {lanes:x?}, {step:?}, {room:?}", over.input())
    }

    /// The Rust's model, where it is to be asked about a call that ends so.
    fn rust(&self, refusal: u64) -> Option<&RustModel> {
        let over = self.over;
        let asked = refusal == 0 && self.len > 0 && {
            let terms = terms(over.model(), over.lent(), &over.words, &over.acts);
            is_closed(&terms, &over.words)
        };
        over.rust.as_ref().filter(|_| asked)
    }

    fn norm(&self, rng: &mut Rng, tallies: &mut Tallies) {
        let Self {
            over, lanes, len, ..
        } = self;
        let (model, lent) = (over.model(), over.lent());
        let mut port_room = self.room.clone();
        let port = port::norm(model, lent, lanes, *len, &mut port_room);
        let mut rules_room = self.room.clone();
        let rules = rules::norm(model, lent, lanes, *len, &mut rules_room, &over.acts);
        let refusal = rules.status.refusal;
        let rust = self.rust(refusal);
        let rust = rust.map(|model| RustGenerator::new(model, &over.words));
        if refusal == 0 {
            // With what leaves the basis it is never smaller.
            let terms = terms(model, lent, &over.words, &over.acts);
            assert!(rules.norm <= norm_of(&terms, &|terms| terms).1);
        }
        // The Rust's answer is taken for the rules' where it has their mu and their norm.
        let mut listed = false;
        let mut unknown = false;
        let rust = rust.and_then(|generator| {
            let (mu, _) = partition(&generator, 1.0, 0.0)?;
            let has = |(other, norm): (f64, f64)| match other.to_bits() == mu.to_bits() {
                true => has_norm(&generator, norm),
                false => Some(false),
            };
            let same = has((rules.mu, rules.norm));
            if same == Some(true) {
                return Some((rules, rules_room.clone()));
            }
            let others: Vec<_> = others(rng, over).into_iter().map(has).collect();
            listed = others.contains(&Some(true));
            unknown = !listed && (same.is_none() || others.contains(&None));
            let other = Normed {
                mu,
                norm: f64::NAN,
                ..rules
            };
            (!unknown).then(|| (other, rules_room.clone()))
        });
        tallies.no_probe += usize::from(unknown);
        let answers = Answers {
            rust,
            port: (port, port_room),
            rules: (rules, rules_room),
            listed,
        };
        tallies.norms[refusal as usize].count(over.size(), || self.input(), answers);
    }

    fn partition(&self, rng: &mut Rng, tallies: &mut Tallies) {
        let Self {
            over,
            lanes,
            len,
            step,
            ..
        } = self;
        let (model, lent) = (over.model(), over.lent());
        let mut port_room = self.room.clone();
        let port = port::expm_degree(model, lent, lanes, *len, *step, &mut port_room);
        let mut rules_room = self.room.clone();
        let acts = &over.acts;
        let rules = rules::expm_degree(model, lent, lanes, *len, *step, &mut rules_room, acts);
        let refusal = rules.status.refusal;
        // The norm itself is compared above.
        let rust = self.rust(refusal);
        let rust = rust.and_then(|model| {
            let generator = RustGenerator::new(model, &over.words);
            let (mu, Pair { m, s }) = partition(&generator, step.0, step.1)?;
            Some(Partition { mu, m, s, ..rules })
        });
        let differs = rust.filter(|rust| *rust != rules);
        let listed = differs.is_some_and(|rust| {
            let has = |(mu, norm): (f64, f64)| {
                let Pair { m, s } = least_pair(step.0.abs() * norm, step.1);
                mu.to_bits() == rust.mu.to_bits() && (m, s) == (rust.m, rust.s)
            };
            others(rng, over).into_iter().any(has)
        });
        let answers = Answers {
            rust: rust.map(|rust| (rust, rules_room.clone())),
            port: (port, port_room),
            rules: (rules, rules_room),
            listed,
        };
        tallies.partitions[refusal as usize].count(over.size(), || self.input(), answers);
    }
}

/// Both calls in tables of just enough places, and in some with a place too few; then, in one of a few, with something
/// wrong.
fn random(rng: &mut Rng, tallies: &mut Tallies) {
    let mut over = OverBasis::random(rng);
    if rng.one_in(2) {
        let mut few = over.words.clone();
        few.truncate(1 + rng.below(4));
        let closed = generators::closed(few, CLOSED, |words| over.reached(words));
        over.words = closed.unwrap_or(over.words);
    }
    // Words may come again here.
    if over.words.len() > 1 && rng.one_in(6) {
        let w = over.words[rng.below(over.words.len())];
        over.words.push(w);
    }
    let (n_qubits, mut len) = (over.model().qubits, over.words.len());
    let touched = most_touched(over.model(), over.lent(), &over.words, &over.acts);
    let mut lanes = generators::lent_words(rng, &over.words);
    let mut step = (inputs::dt(rng), inputs::drop_tol(rng));
    let mut room = inputs::room(rng, n_qubits, len, touched);
    let ask = |rng: &mut Rng, tallies: &mut Tallies, case: Case| {
        case.norm(rng, tallies);
        case.partition(rng, tallies);
    };
    let case = Case {
        over: &over,
        lanes: &lanes,
        len,
        step,
        room: &room,
    };
    ask(rng, tallies, case);
    if touched > 0 && rng.one_in(3) {
        let room = inputs::room(rng, n_qubits, len, touched - 1);
        let case = Case {
            over: &over,
            lanes: &lanes,
            len,
            step,
            room: &room,
        };
        ask(rng, tallies, case);
    }
    if !rng.one_in(SPOILT) {
        return;
    }
    for _ in 0..=rng.below(3) {
        inputs::spoil(rng, n_qubits, &mut lanes, &mut len, &mut step, &mut room);
    }
    over.rust = None;
    if rng.one_in(6) {
        over.spoil_model(rng);
    }
    let case = Case {
        over: &over,
        lanes: &lanes,
        len,
        step,
        room: &room,
    };
    ask(rng, tallies, case);
}

/// The degrees of the documents, an empty basis, words outside of the basis, and words that come again.
fn known(rng: &mut Rng, tallies: &mut Tallies) {
    for (t, drop_tol, m, s) in [
        (0.3, 0.0, 12, 1),
        (1.0, 0.0, 18, 1),
        (4.0, 0.0, 23, 2),
        (1.0, 1e-4, 9, 1),
        (123730.08, 0.0, 30, 34_952),
        (238722.16, 1e-4, 30, 34_952),
        (f64::NAN, 0.0, 1, 1),
    ] {
        let status = Status::default();
        assert_eq!(select_ms(t, drop_tol), Degree { status, m, s });
        assert_eq!(published::select_ms(t, drop_tol), Pair { m, s });
    }
    for (t, drop_tol, m, s) in [
        (123730.08f64.next_up(), 0.0, 30, 34_953),
        (238722.16f64.next_up(), 1e-4, 30, 34_953),
        (f64::INFINITY, 0.0, 1, u32::MAX),
    ] {
        let status = Status {
            refusal: 16,
            first: u64::from(m),
            second: u64::from(s),
        };
        assert_eq!(select_ms(t, drop_tol).status, status);
        assert_eq!(published::select_ms(t, drop_tol), Pair { m, s });
    }
    let mut ask = |h: &[(&str, f64)], texts: &[&str], norm: f64, rust: Option<f64>| {
        let n_qubits = h[0].0.len();
        let item = |(text, x): &(&str, f64)| (text.as_bytes().to_vec(), *x);
        let items = Items {
            n_qubits,
            hamiltonian: h.iter().map(item).collect(),
            jumps: Vec::new(),
        };
        let words = texts.iter().map(|text| word_of(text.as_bytes())).collect();
        let over = OverBasis::new(rng, items, Vec::new(), words);
        let lanes = generators::lent_words(rng, &over.words);
        let room = inputs::room(rng, n_qubits, texts.len(), 8);
        let case = Case {
            over: &over,
            lanes: &lanes,
            len: texts.len(),
            step: (1.0, 0.0),
            room: &room,
        };
        case.norm(rng, tallies);
        case.partition(rng, tallies);
        let found = basis_norm(over.model(), over.lent(), &over.words, &over.acts);
        assert_eq!(found, (0.0, norm));
        if let Some(rust) = rust {
            let model = over.rust.as_ref().expect("texts are ASCII");
            let generator = RustGenerator::new(model, &over.words);
            assert_eq!(has_norm(&generator, rust), Some(true));
        }
    };
    ask(&[("Z", 0.5)], &[], 0.0, None);
    ask(&[("Z", 0.5)], &["Z"], 0.0, Some(0.0));
    ask(&[("Z", 0.5)], &["X"], 0.0, Some(1.0));
    ask(&[("Z", 0.5)], &["X", "Y"], 1.0, Some(1.0));
    ask(&[("Z", 0.5)], &["X", "Y", "X", "X"], 1.0, None);
    let three = [("ZII", 0.3), ("IZI", 0.2), ("IIZ", 0.1)];
    ask(&three, &["XXX"], 0.0, Some(1.2000000000000002));
    ask(&three, &["XXX", "XXY", "YXX"], 0.8, None);
    let empty = Partition {
        status: Status::default(),
        mu: 0.0,
        norm: 0.0,
        m: 1,
        s: 1,
    };
    let items = Items {
        n_qubits: 1,
        hamiltonian: Vec::new(),
        jumps: Vec::new(),
    };
    let over = OverBasis::new(rng, items, Vec::new(), Vec::new());
    let mut room = inputs::room(rng, 1, 0, 0);
    let step = (1.0, 0.0);
    let found = rules::expm_degree(
        over.model(),
        over.lent(),
        &[],
        0,
        step,
        &mut room,
        &over.acts,
    );
    assert_eq!(found, empty);
}
