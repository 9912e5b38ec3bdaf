// SPDX-FileCopyrightText: 2026 The PPVM Authors
// SPDX-License-Identifier: Apache-2.0

//! Leakage out of lent bases, every lent table bit for bit.
//!
//! Cases are counted by what document 01 answers to them. The Rust is asked where the document accepts
//! and the room rule had to choose between no equals; its list is put in word order and laid over that
//! of the rules. A difference is expected where two words have one hash, which is all that the Rust
//! looks at, and where a number of the model is near a tolerance, which the Rust compares with a hypot;
//! and only if the Rust answers as the rules with hashes or with hypots do. Where these in turn have to
//! choose between equals, the Rust is held to numbers as large, not to the words. Words of one hash, and
//! cases that are held to sizes alone, are counted by themselves.

use super::models::by_answer;
use super::standing::Standing;
use super::{Answers, Tally};
use crate::inputs::Rng;
use crate::inputs::actions as action_inputs;
use crate::inputs::leakages::{self as inputs, Entries};
use crate::inputs::matrices::Matrix;
use crate::inputs::models::{Items, spoil_model};
use crate::port::actions::Listed;
use crate::port::leakages::{self as port, Given, LeakRoom, Limits};
use crate::port::models::{Lent, Model};
use crate::port::{Status, Word};
use crate::published::bases::{RustBasis, rust_words};
use crate::published::leakages as published;
use crate::published::models::RustModel;
use crate::rules::actions::MAX_WORDS;
use crate::rules::leakages::{
    self as rules, Acting, Course, Places, outside, threshold, word_limit,
};
use crate::rules::models::Complex;
use crate::rules::{MAX_QUBITS, refusal, word_of};

/// One in so many small cases has something wrong.
const SPOILT: usize = 3;

/// Each basis is asked about several times, so there are fewer bases than cases.
const CASES_A_BASIS: usize = 4;

pub fn compare(seed: u64, cases: usize) -> Vec<Tally> {
    let rng = &mut Rng::new(seed);
    let mut tallies = Tallies {
        leaked: by_answer("leakage"),
        one_hash: Tally::new("leakage, one hash"),
        by_sizes: Tally::new("leakage, sizes"),
        tied: Tally::new("leakage, tied"),
        untouched: Tally::new("given after it"),
        sizes: Tally::new("lengths of work"),
    };
    known(rng, &mut tallies);
    large(rng, &mut tallies);
    for _ in 0..cases.div_ceil(CASES_A_BASIS) {
        small(rng, &mut tallies);
        sizes(rng, &mut tallies.sizes);
    }
    let Tallies {
        leaked,
        one_hash,
        by_sizes,
        tied,
        untouched,
        sizes,
    } = tallies;
    println!(
        "leakage: {} listed differences of the Rust are held to the sizes of its numbers alone, {} of \
         one hash bit for bit",
        by_sizes.cases, one_hash.cases
    );
    let others = [one_hash, by_sizes, tied, untouched, sizes];
    let all = leaked.into_iter().chain(others);
    all.filter(|tally| tally.cases > 0).collect()
}

struct Tallies {
    leaked: Vec<Tally>,
    /// Cases in which the Rust takes a word for another one.
    one_hash: Tally,
    /// Cases in which the rules by hashes or by hypots chose between equals, so that only the sizes of the
    /// Rust's numbers could be compared.
    by_sizes: Tally,
    /// Cases in which the room rule chose between equals.
    tied: Tally,
    /// Whether what is only read is as it was.
    untouched: Tally,
    sizes: Tally,
}

/// What leakage answers, and what it leaves in the lent tables.
#[derive(Clone, Debug, PartialEq)]
struct Outcome {
    listed: Listed,
    room: LeakRoom,
}

impl Outcome {
    /// The same with another list, as far as there are places.
    fn with(&self, list: &[(Word, f64)]) -> Self {
        let mut outcome = self.clone();
        outcome.listed.count = list.len();
        let lanes = list.iter().flat_map(|(w, _)| w.lanes());
        for (place, lane) in outcome.room.out_words.iter_mut().zip(lanes) {
            *place = lane;
        }
        for (place, (_, sum)) in outcome.room.out_values.iter_mut().zip(list) {
            *place = *sum;
        }
        outcome
    }
}

/// How a list of the Rust's is that of the rules by hashes or by hypots.
#[derive(Clone, Copy, PartialEq)]
enum Likeness {
    BitForBit,
    InSizes,
}

/// A model and a basis, with the Rust's where they can be asked, and the action on each of its words.
struct Asked {
    standing: Standing,
    rust: Option<RustModel>,
    entries: Entries,
    acting: Acting,
}

impl Asked {
    fn new(rng: &mut Rng, items: Items, matrices: Vec<Matrix>, entries: Entries) -> Self {
        let built = Standing::built(rng, items);
        let standing = matrices
            .into_iter()
            .fold(built, |standing, matrix| standing.with_matrix(rng, matrix));
        let Standing { model, lent, .. } = &standing;
        Self {
            rust: standing.rust(),
            acting: Acting::new(*model, lent, &entries.words, &entries.coeffs),
            standing,
            entries,
        }
    }

    fn n_qubits(&self) -> usize {
        self.standing.model.qubits
    }

    /// All words that the basis leaks to.
    fn reached(&self) -> Vec<(Word, f64)> {
        let course = rules::course(&self.acting, &outside(&self.entries.words, &[]), MAX_WORDS);
        course.map_or(Vec::new(), |course| course.list(-1.0))
    }

    /// Whether, and how, a list is that of the rules by hashes, and perhaps by hypots: where these tie at the
    /// cut, one of numbers as large.
    fn by_hashes(
        &self,
        rng: &mut Rng,
        case: &Case,
        hypots: bool,
        list: &[(Word, f64)],
    ) -> Option<Likeness> {
        let Entries { words, coeffs } = &self.entries;
        let is_outside = published::outside_by_hash(self.n_qubits(), words, &case.protected);
        let other;
        let acting = match hypots {
            false => &self.acting,
            true => {
                let Standing { model, lent, .. } = self.standing.by_hypots(rng)?;
                other = Acting::new(model, &lent, words, coeffs);
                &other
            }
        };
        let course = rules::course(acting, &is_outside, case.free())?;
        let by_rules = course.list(threshold(case.given.limits));
        if bits_of(&by_rules) == bits_of(list) {
            return Some(Likeness::BitForBit);
        }
        let as_large = course.tied && sizes_of(&by_rules) == sizes_of(list);
        as_large.then_some(Likeness::InSizes)
    }
}

/// The words of a list with their numbers' bits.
fn bits_of(list: &[(Word, f64)]) -> Vec<(Word, u64)> {
    list.iter().map(|&(w, x)| (w, x.to_bits())).collect()
}

/// The magnitudes in a list, in order.
fn sizes_of(list: &[(Word, f64)]) -> Vec<u64> {
    let mut sizes: Vec<u64> = list.iter().map(|(_, x)| x.abs().to_bits()).collect();
    sizes.sort_unstable();
    sizes
}

/// What leakage of a basis is asked with.
struct Case {
    protected: Vec<Word>,
    given: Given,
    /// Nothing where a sum is not finite.
    course: Option<Course>,
}

impl Case {
    fn new(rng: &mut Rng, asked: &Asked, protected: Vec<Word>, limits: Limits) -> Self {
        let given = inputs::given(rng, &asked.entries, &protected, limits);
        let is_outside = outside(&asked.entries.words, &protected);
        let free = word_limit(limits).saturating_sub(given.len);
        Self {
            course: rules::course(&asked.acting, &is_outside, free),
            protected,
            given,
        }
    }

    fn free(&self) -> usize {
        word_limit(self.given.limits).saturating_sub(self.given.len)
    }

    /// Places that are just enough, or where a sum is not finite, enough.
    fn places(&self, asked: &Asked) -> Places {
        match &self.course {
            Some(course) => Places {
                touched: course.touched,
                held: course.held,
                listed: course.list(threshold(self.given.limits)).len(),
            },
            None => asked.acting.enough(),
        }
    }

    fn is_tied(&self) -> bool {
        self.course.as_ref().is_some_and(|course| course.tied)
    }
}

/// All sides are asked.
fn leak(rng: &mut Rng, tallies: &mut Tallies, asked: &Asked, case: &Case, room: &LeakRoom) {
    let Standing { model, lent, .. } = &asked.standing;
    let given = &case.given;
    let answer = |leak: fn(Model, &Lent, &Given, &mut LeakRoom) -> Listed| {
        let mut room = room.clone();
        Outcome {
            listed: leak(*model, lent, given, &mut room),
            room,
        }
    };
    let rules = answer(rules::leakage_with_prune);
    let port = answer(port::leakage_with_prune);
    let accepted = rules.listed.status.refusal == 0;
    let tied = accepted && case.is_tied();
    let list = match &asked.rust {
        Some(model) if accepted && !tied => Some(rust_list(model, asked, case)),
        _ => None,
    };
    let rust = list.as_ref().map(|list| rules.with(list));
    let differs = list.filter(|_| rust.as_ref() != Some(&rules));
    let by_hash = differs
        .as_ref()
        .and_then(|list| asked.by_hashes(rng, case, false, list));
    let likeness = by_hash.or_else(|| {
        let list = differs.as_ref()?;
        asked.by_hashes(rng, case, true, list)
    });
    let listed = likeness.is_some();
    let tally = match rules.listed.status.refusal {
        _ if likeness == Some(Likeness::InSizes) => &mut tallies.by_sizes,
        _ if by_hash.is_some() => &mut tallies.one_hash,
        _ if tied => &mut tallies.tied,
        refusal => &mut tallies.leaked[refusal as usize],
    };
    let answers = Answers {
        rust,
        port,
        rules,
        listed,
    };
    let input = || {
        let Standing { made_of, .. } = &asked.standing;
        let out = [room.out_words.len(), room.out_values.len()];
        format!("{made_of:?}, {given:x?}, {:?}, out {out:?}", room.lengths())
    };
    tally.count(asked.standing.size() + given.words.len(), input, answers);
}

/// What the Rust lists.
fn rust_list(model: &RustModel, asked: &Asked, case: &Case) -> Vec<(Word, f64)> {
    let n_qubits = asked.n_qubits();
    let Entries { words, coeffs } = &asked.entries;
    let entries: Vec<(Word, f64)> = words.iter().copied().zip(coeffs.clone()).collect();
    let basis = RustBasis::new(n_qubits, &entries);
    let protected = rust_words(n_qubits, &case.protected);
    let (limit, tau_add) = (word_limit(case.given.limits), threshold(case.given.limits));
    published::in_order(&published::listed(
        model, &basis, &protected, limit, tau_add,
    ))
}

/// The tables that are only read, afterwards.
fn untouched(tallies: &mut Tallies, asked: &Asked, case: &Case, before: &(Lent, Given)) {
    let bits = |given: &Given| {
        let coeffs: Vec<u64> = given.coeffs.iter().map(|x| x.to_bits()).collect();
        (given.words.clone(), coeffs, given.protected.clone())
    };
    let answers = Answers {
        rust: None,
        port: (asked.standing.lent.clone(), bits(&case.given)),
        rules: (before.0.clone(), bits(&before.1)),
        listed: false,
    };
    let input = || format!("{:?}", asked.standing.model);
    tallies
        .untouched
        .count(asked.standing.size(), input, answers);
}

/// A call in tables of just enough places, and one in tables of which one has a place too few.
fn in_places(rng: &mut Rng, tallies: &mut Tallies, asked: &Asked, case: &Case) {
    let places = case.places(asked);
    let room = inputs::room(rng, asked.n_qubits(), &case.given, places);
    leak(rng, tallies, asked, case, &room);
    let mut short = places;
    let table = match rng.below(3) {
        0 => &mut short.touched,
        1 => &mut short.held,
        _ => &mut short.listed,
    };
    *table = match rng.below(4) {
        0 => rng.below(*table + 1),
        _ => table.saturating_sub(1),
    };
    let room = inputs::room(rng, asked.n_qubits(), &case.given, short);
    leak(rng, tallies, asked, case, &room);
}

/// A basis of up to some hundreds of words; then, in one of a few, with something wrong.
fn small(rng: &mut Rng, tallies: &mut Tallies) {
    let (items, matrices) = action_inputs::model(rng);
    let entries = inputs::entries(rng, &items, &matrices);
    let mut asked = Asked::new(rng, items, matrices, entries);
    let n_qubits = asked.n_qubits();
    let reached = asked.reached();
    let protected = inputs::protected(rng, n_qubits, &asked.entries.words, &reached);
    let limits = inputs::limits(rng, asked.entries.words.len(), &reached);
    let mut case = Case::new(rng, &asked, protected, limits);
    let before = (asked.standing.lent.clone(), case.given.clone());
    in_places(rng, tallies, &asked, &case);
    untouched(tallies, &asked, &case, &before);
    if !rng.one_in(SPOILT) {
        return;
    }
    let places = case.places(&asked);
    let mut room = inputs::room(rng, n_qubits, &case.given, places);
    for _ in 0..=rng.below(3) {
        inputs::spoil(rng, n_qubits, &mut case.given, &mut room);
    }
    asked.rust = None;
    if rng.one_in(6) {
        asked.standing.made_of = None;
        let Standing { model, lent, .. } = &mut asked.standing;
        spoil_model(rng, model, lent);
    }
    leak(rng, tallies, &asked, &case, &room);
}

/// Bases about a pass and of three, with room for none, for one, for some and for all.
fn large(rng: &mut Rng, tallies: &mut Tallies) {
    for len in inputs::LARGE {
        let items = action_inputs::chain(rng, 24, None);
        let words = action_inputs::local_words(rng, 24, len);
        let entries = Entries::new(rng, words);
        let chain = Asked::new(rng, items, Vec::new(), entries);
        let items = action_inputs::crowded(rng);
        let words = action_inputs::words(rng, &items, &[], len);
        let entries = Entries::new(rng, words);
        let crowded = Asked::new(rng, items, Vec::new(), entries);
        for asked in [chain, crowded] {
            let reached = asked.reached();
            let n_qubits = asked.n_qubits();
            for room in [0, 1, reached.len() / 10, reached.len() / 2, reached.len()] {
                let protected = inputs::protected(rng, n_qubits, &asked.entries.words, &reached);
                let limits = Limits {
                    max_basis: (len + room).min(MAX_WORDS),
                    admit_given: 0,
                    ..inputs::limits(rng, len, &reached)
                };
                let case = Case::new(rng, &asked, protected, limits);
                in_places(rng, tallies, &asked, &case);
            }
        }
    }
}

/// The lengths of work tables.
fn sizes(rng: &mut Rng, tally: &mut Tally) {
    let [q, e, p, t, c] = [0; 5].map(|_| match rng.below(4) {
        0 => rng.pick(&[
            0,
            1,
            MAX_QUBITS,
            MAX_QUBITS + 1,
            MAX_WORDS,
            1 << 32,
            (1 << 32) - 1,
            usize::MAX,
        ]),
        _ => rng.below(MAX_WORDS + 2),
    });
    let answers = Answers {
        rust: None,
        port: port::leakage_sizes(q, e, p, t, c),
        rules: rules::leakage_sizes(q, e, p, t, c),
        listed: false,
    };
    tally.count(0, || format!("{q}, {e}, {p}, {t}, {c}"), answers);
}

type Texts<'a> = &'a [(&'a str, f64)];

fn entries_of(texts: Texts) -> Vec<(Word, f64)> {
    let word = |text: &str| word_of(text.as_bytes());
    texts.iter().map(|&(text, x)| (word(text), x)).collect()
}

/// A leakage with the list or the refusal of the document, and with the Rust's list; or nothing where that
/// has as many words, but not these.
#[derive(Clone)]
struct Known<'a> {
    hamiltonian: Texts<'a>,
    matrices: Vec<Matrix>,
    basis: Texts<'a>,
    max_basis: usize,
    tau_add: f64,
    document: Result<Texts<'a>, Status>,
    rust: Option<Texts<'a>>,
}

impl Known<'_> {
    fn ask(self, rng: &mut Rng, tallies: &mut Tallies) {
        let item = |(text, x): &(&str, f64)| (text.as_bytes().to_vec(), *x);
        let items = Items {
            n_qubits: self.basis[0].0.len(),
            hamiltonian: self.hamiltonian.iter().map(item).collect(),
            jumps: Vec::new(),
        };
        let (words, coeffs) = entries_of(self.basis).into_iter().unzip();
        let asked = Asked::new(rng, items, self.matrices, Entries { words, coeffs });
        let limits = Limits {
            max_basis: self.max_basis,
            tau_given: 1,
            tau_add: self.tau_add,
            ..Limits::default()
        };
        let case = Case::new(rng, &asked, Vec::new(), limits);
        let places = case.places(&asked);
        let mut room = inputs::room(rng, asked.n_qubits(), &case.given, places);
        leak(rng, tallies, &asked, &case, &room);
        let Standing { model, lent, .. } = &asked.standing;
        let listed = rules::leakage_with_prune(*model, lent, &case.given, &mut room);
        let answer = room.list(listed.count);
        match self.document {
            Ok(document) => assert_eq!(answer, entries_of(document)),
            Err(status) => assert_eq!(listed.status, status),
        }
        let model = asked.rust.as_ref().expect("texts are ASCII");
        let others = rust_list(model, &asked, &case);
        match self.rust {
            Some(rust) => assert_eq!(others, entries_of(rust)),
            None => assert!(others.len() == answer.len() && others != answer),
        }
    }
}

/// The smallest inputs to which the document and the Rust answer differently, and the readings that
/// tempt, with the answers.
fn known(rng: &mut Rng, tallies: &mut Tallies) {
    let one_word = Known {
        hamiltonian: &[],
        matrices: Vec::new(),
        basis: &[],
        max_basis: 2,
        tau_add: 0.0,
        document: Ok(&[]),
        rust: Some(&[]),
    };

    // A tie at the cut, where the Rust takes the first of its map: which one, its hash decides.
    Known {
        hamiltonian: &[("ZI", 0.5), ("IZ", 0.5)],
        basis: &[("XX", 1.0)],
        document: Ok(&[("YX", -1.0)]),
        rust: None,
        ..one_word.clone()
    }
    .ask(rng, tallies);

    // A sum that is not finite.
    Known {
        hamiltonian: &[("Z", 1.0)],
        basis: &[("X", 1.5e308)],
        document: Err(refusal(14, 0, 0)),
        rust: Some(&[("Y", f64::NEG_INFINITY)]),
        ..one_word.clone()
    }
    .ask(rng, tallies);

    // Sums of 0 are candidates: below 0 the threshold lists them.
    let two: Texts = &[("ZI", 0.5), ("IZ", 0.5)];
    let both: Texts = &[("XX", 1.0), ("YY", 1.0)];
    let zeros: Texts = &[("YX", 0.0), ("XY", 0.0)];
    for (tau_add, list) in [(0.0, &[] as Texts), (-1.0, zeros)] {
        Known {
            hamiltonian: two,
            basis: both,
            max_basis: 4,
            tau_add,
            document: Ok(list),
            rust: Some(list),
            ..one_word.clone()
        }
        .ask(rng, tallies);
    }

    // The word that is lost in the Rust has the hash of the basis word.
    let text = |at: &[(usize, u8)]| {
        let mut letters = [b'I'; 69];
        at.iter()
            .for_each(|&(qubit, letter)| letters[qubit] = letter);
        String::from_utf8(letters.to_vec()).expect("letters")
    };
    let h = text(&[(63, b'X'), (68, b'X')]);
    let (from, to) = (text(&[(63, b'Z')]), text(&[(63, b'Y'), (68, b'X')]));
    Known {
        hamiltonian: &[(&h, 0.5)],
        basis: &[(&from, 1.0)],
        document: Ok(&[(&to, 1.0)]),
        ..one_word.clone()
    }
    .ask(rng, tallies);

    // Numbers at a tolerance, which decide otherwise by a hypot: a word of the product that the Rust
    // thins out, then a pair that it skips and one that it does not skip.
    let operator = |text: &str, number: Complex| vec![(text.as_bytes().to_vec(), number)];
    let matrix = |operators, k: [[Complex; 2]; 2]| {
        let k = k.map(Vec::from).to_vec();
        vec![Matrix { operators, k }]
    };
    let (zero, two) = ((0.0, 0.0), (2.0, 0.0));
    let thin = vec![operator("X", (1.0, 0.0)), operator("Y", (6e-15, 8e-15))];
    Known {
        matrices: matrix(thin, [[zero, two], [two, zero]]),
        basis: &[("Z", 1.0)],
        document: Ok(&[("I", 6.4e-14)]),
        rust: Some(&[("I", 3.2e-14)]),
        ..one_word.clone()
    }
    .ask(rng, tallies);
    let plain = || vec![operator("XI", (1.0, 0.0)), operator("IX", (1.0, 0.0))];
    let edge = (7e-14, 0.0);
    Known {
        matrices: matrix(plain(), [[(7.0, 0.0), edge], [edge, zero]]),
        basis: &[("ZZ", 1.0)],
        document: Ok(&[("YY", 2.8e-13)]),
        ..one_word.clone()
    }
    .ask(rng, tallies);
    let edge = (5.400000000000001e-14, 7.2e-14);
    let mirror = (edge.0, -edge.1);
    Known {
        matrices: matrix(plain(), [[(9.0, 0.0), edge], [mirror, zero]]),
        basis: &[("ZZ", 1.0)],
        rust: Some(&[("YY", 2.1600000000000003e-13)]),
        ..one_word
    }
    .ask(rng, tallies);
}
