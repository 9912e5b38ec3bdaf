// SPDX-FileCopyrightText: 2026 The PPVM Authors
// SPDX-License-Identifier: Apache-2.0

//! Prune, cap and admission on lent bases, every lent table bit for bit.
//!
//! Cases are counted by what document 01 answers to them. The Rust is asked where the document
//! accepts; it has no lent tables, so its entries are laid over those of the rules. A difference is
//! expected of admission with more words than room, where the Rust's selection is unstable, and only
//! if the Rust admitted words that are as large as those of the rules.

use super::models::by_answer;
use super::{Answers, Tally};
use crate::inputs::Rng;
use crate::inputs::bases::{self as inputs, Admission, Keeping};
use crate::port::bases::{self as port, Basis, Kept};
use crate::port::{WORD_LANES, Word};
use crate::published::bases::{RustBasis, rust_words};
use crate::rules::actions::MAX_WORDS;
use crate::rules::{bases as rules, refusal, word_of};
use std::collections::BTreeMap;

/// One in so many small cases has something wrong.
const SPOILT: usize = 3;

/// How often large bases of each length are made.
const LARGE_CASES: usize = 3;

pub fn compare(seed: u64, cases: usize) -> Vec<Tally> {
    let rng = &mut Rng::new(seed);
    let mut tallies = Tallies {
        pruned: by_answer("prune"),
        capped: by_answer("cap"),
        admitted: by_answer("admission"),
        sizes: Tally::new("lengths of work"),
    };
    known(&mut tallies);
    for _ in 0..LARGE_CASES {
        large(rng, &mut tallies);
    }
    for _ in 0..cases {
        small(rng, &mut tallies);
    }
    let Tallies {
        pruned,
        capped,
        admitted,
        sizes,
    } = tallies;
    let all = pruned.into_iter().chain(capped).chain(admitted);
    all.chain([sizes]).filter(|tally| tally.cases > 0).collect()
}

struct Tallies {
    pruned: Vec<Tally>,
    capped: Vec<Tally>,
    admitted: Vec<Tally>,
    sizes: Tally,
}

/// What a call answers, and what it leaves in the lent tables.
#[derive(Clone, PartialEq, Debug)]
struct Outcome {
    kept: Kept,
    basis: Basis,
}

impl Outcome {
    fn of(basis: &Basis, call: impl FnOnce(&mut Basis) -> Kept) -> Self {
        let mut basis = basis.clone();
        Self {
            kept: call(&mut basis),
            basis,
        }
    }

    /// The same with other entries, as far as there are places.
    fn with(&self, entries: &[(Word, f64)]) -> Self {
        let mut outcome = self.clone();
        outcome.kept.entries = entries.len();
        let lanes = entries.iter().flat_map(|(w, _)| w.lanes());
        for (place, lane) in outcome.basis.words.iter_mut().zip(lanes) {
            *place = lane;
        }
        for (place, (_, x)) in outcome.basis.coeffs.iter_mut().zip(entries) {
            *place = *x;
        }
        outcome
    }
}

fn words_of(lanes: &[u64]) -> Vec<Word> {
    lanes.chunks_exact(WORD_LANES).map(Word::of).collect()
}

/// A call on a basis, shown where the sides disagree on it.
fn shown(keeping: &Keeping, asked: String) -> String {
    let Keeping {
        n_qubits,
        len,
        protected,
        basis,
    } = keeping;
    let work = [&basis.order, &basis.work, &basis.fixed, &basis.kept].map(Vec::len);
    format!(
        "n {n_qubits}, {asked}, len {len} of {basis:?}, protected {protected:x?}, work {work:?}"
    )
}

/// A side's answer to prune or cap.
type Call<'a> = &'a dyn Fn(&Keeping, &mut Basis) -> Kept;

/// Prune or cap of all sides.
fn keep(
    tallies: &mut [Tally],
    keeping: &Keeping,
    asked: impl FnOnce() -> String,
    [port, rules]: [Call; 2],
    rust: impl FnOnce(&mut RustBasis, &[crate::published::RustWord]),
) {
    let rules = Outcome::of(&keeping.basis, |basis| rules(keeping, basis));
    let port = Outcome::of(&keeping.basis, |basis| port(keeping, basis));
    let refusal = rules.kept.status.refusal;
    let rust = (refusal == 0).then(|| {
        let mut basis = RustBasis::new(keeping.n_qubits, &keeping.basis.entries(keeping.len));
        let protected = rust_words(keeping.n_qubits, &words_of(&keeping.protected));
        rust(&mut basis, &protected);
        rules.with(&basis.entries())
    });
    let answers = Answers {
        rust,
        port,
        rules,
        listed: false,
    };
    let size = keeping.basis.words.len() + keeping.protected.len();
    tallies[refusal as usize].count(size, || shown(keeping, asked()), answers);
}

fn prune(tallies: &mut Tallies, keeping: &Keeping, drop_tol: f64) {
    keep(
        &mut tallies.pruned,
        keeping,
        || format!("drop_tol {drop_tol:e}"),
        [
            &|k, basis| port::prune_basis(k.n_qubits, k.len, &k.protected, drop_tol, basis),
            &|k, basis| rules::prune_basis(k.n_qubits, k.len, &k.protected, drop_tol, basis),
        ],
        |basis, protected| basis.prune(drop_tol, protected),
    );
}

fn cap(tallies: &mut Tallies, keeping: &Keeping, limit: usize) {
    keep(
        &mut tallies.capped,
        keeping,
        || format!("limit {limit}"),
        [
            &|k, basis| port::cap_basis(k.n_qubits, k.len, &k.protected, limit, basis),
            &|k, basis| rules::cap_basis(k.n_qubits, k.len, &k.protected, limit, basis),
        ],
        |basis, protected| basis.cap(limit, protected),
    );
}

/// How often each word is there.
fn counted(words: impl Iterator<Item = Word>) -> BTreeMap<[u64; WORD_LANES], usize> {
    let mut counts = BTreeMap::new();
    words.for_each(|w| *counts.entry(w.lanes()).or_default() += 1);
    counts
}

/// Whether there were more words than room, and what the Rust admitted are as many words, all that are
/// larger than the smallest that had to be taken, and others as large as it.
fn as_large(admission: &Admission, rust: &[(Word, f64)]) -> bool {
    let Admission {
        len,
        list,
        values,
        limit,
        ..
    } = admission;
    let taken = rules::admitted(values, *len, *limit);
    let Some(cut) = taken.iter().map(|&i| values[i].abs()).reduce(f64::min) else {
        return false;
    };
    let listed = words_of(list);
    let at_least = |least: fn(f64, f64) -> bool| {
        let places = (0..values.len()).filter(|&i| least(values[i].abs(), cut));
        counted(places.map(|i| listed[i]))
    };
    let (larger, allowed) = (at_least(|x, cut| x > cut), at_least(|x, cut| x >= cut));
    let within = |few: &BTreeMap<[u64; WORD_LANES], usize>,
                  many: &BTreeMap<[u64; WORD_LANES], usize>| {
        few.iter()
            .all(|(w, count)| many.get(w).is_some_and(|more| more >= count))
    };
    let appended = counted(rust[*len..].iter().map(|(w, _)| *w));
    let zeros = rust[*len..].iter().all(|(_, x)| x.to_bits() == 0);
    taken.len() < values.len()
        && rust.len() == len + taken.len()
        && zeros
        && within(&larger, &appended)
        && within(&appended, &allowed)
}

fn admit(tallies: &mut Tallies, admission: &Admission) {
    let Admission {
        n_qubits,
        len,
        list,
        values,
        limit,
        basis,
    } = admission;
    let (n, len, limit) = (*n_qubits, *len, *limit);
    let rules = Outcome::of(basis, |basis| {
        rules::add_leakage_capped(n, len, list, values, limit, basis)
    });
    let port = Outcome::of(basis, |basis| {
        port::add_leakage_capped(n, len, list, values, limit, basis)
    });
    let refusal = rules.kept.status.refusal;
    let rust = (refusal == 0).then(|| {
        let mut rust = RustBasis::new(n, &basis.entries(len));
        let listed: Vec<(Word, f64)> = words_of(list).into_iter().zip(values.clone()).collect();
        rust.admit(n, &listed, limit);
        rust.entries()
    });
    let answers = Answers {
        listed: rust.as_ref().is_some_and(|rust| as_large(admission, rust)),
        rust: rust.map(|entries| rules.with(&entries)),
        port,
        rules,
    };
    let input = || {
        let work = [&basis.order, &basis.work, &basis.kept].map(Vec::len);
        format!(
            "n {n}, limit {limit}, len {len} of {basis:?}, listed {list:x?} {values:?}, work {work:?}"
        )
    };
    let size = basis.words.len() + list.len();
    tallies.admitted[refusal as usize].count(size, input, answers);
}

/// The lengths of work tables, and that the rules' calls take tables of these lengths.
fn sizes(rng: &mut Rng, tally: &mut Tally) {
    let [entries, protected, listed] = [0; 3].map(|_| match rng.below(4) {
        0 => rng.pick(&[0, 1, MAX_WORDS, usize::MAX]),
        _ => rng.below(MAX_WORDS + 2),
    });
    let answers = Answers {
        rust: None,
        port: port::basis_sizes(entries, protected, listed),
        rules: rules::basis_sizes(entries, protected, listed),
        listed: false,
    };
    tally.count(0, || format!("{entries}, {protected}, {listed}"), answers);
}

/// A basis of up to some hundreds of entries in all three calls, one in a few of them spoilt.
fn small(rng: &mut Rng, tallies: &mut Tallies) {
    let mut keeping = inputs::small_keeping(rng);
    if rng.one_in(SPOILT) {
        for _ in 0..=rng.below(3) {
            inputs::spoil_keeping(rng, &mut keeping);
        }
    }
    let drop_tol = inputs::threshold(rng, &keeping);
    prune(tallies, &keeping, drop_tol);
    let limit = inputs::limit(rng, &keeping);
    cap(tallies, &keeping, limit);
    let mut admission = inputs::small_admission(rng);
    if rng.one_in(SPOILT) {
        for _ in 0..=rng.below(3) {
            inputs::spoil_admission(rng, &mut admission);
        }
    }
    admit(tallies, &admission);
    sizes(rng, &mut tallies.sizes);
}

/// Bases about a pass of leakage and as large as there may be, and one word more of each list.
fn large(rng: &mut Rng, tallies: &mut Tallies) {
    for len in inputs::LARGE {
        let keeping = inputs::keeping(rng, len);
        for _ in 0..4 {
            let drop_tol = inputs::threshold(rng, &keeping);
            prune(tallies, &keeping, drop_tol);
        }
        for limit in [
            0,
            1,
            len / 2,
            len - 1,
            len,
            len + 1,
            MAX_WORDS,
            MAX_WORDS + 1,
        ] {
            cap(tallies, &keeping, limit);
        }
        for room in [0, 1, len / 2, len - 1, len] {
            let room = room.min(MAX_WORDS - 5);
            admit(tallies, &inputs::admission(rng, 5, len, room));
            admit(
                tallies,
                &inputs::admission(rng, len, 5, room.min(MAX_WORDS - len)),
            );
        }
    }
    let more = inputs::keeping(rng, MAX_WORDS + 1);
    let few = inputs::keeping(rng, 3);
    let crowded = Keeping {
        protected: more.basis.words[..WORD_LANES * (MAX_WORDS + 1)].to_vec(),
        ..few
    };
    for keeping in [&more, &crowded] {
        prune(tallies, keeping, 1.0);
        cap(tallies, keeping, 2);
    }
    admit(tallies, &inputs::admission(rng, 3, MAX_WORDS + 1, 2));
    admit(tallies, &inputs::admission(rng, MAX_WORDS + 1, 3, 0));
}

/// Examples of document 01, and the smallest inputs to which the document and the Rust answer
/// differently, with the answers of both.
fn known(tallies: &mut Tallies) {
    let word = |text: &str| word_of(text.as_bytes());
    let lanes =
        |texts: &[&str]| -> Vec<u64> { texts.iter().flat_map(|text| word(text).lanes()).collect() };
    let basis = |texts: &[&str], coeffs: &[f64], places: usize| {
        let mut words = lanes(texts);
        words.resize(WORD_LANES * places, 7);
        let mut coeffs = coeffs.to_vec();
        coeffs.resize(places, f64::NAN);
        let work = || vec![9; 8];
        Basis {
            words,
            coeffs,
            order: work(),
            work: work(),
            fixed: work(),
            kept: work(),
        }
    };
    let keeping = |texts: &[&str], coeffs: &[f64], protected: &[&str]| Keeping {
        n_qubits: texts.first().map_or(0, |text| text.len()),
        len: texts.len(),
        protected: lanes(protected),
        basis: basis(texts, coeffs, texts.len() + 1),
    };
    let after = |kept: Kept, basis: &Basis| basis.entries(kept.entries);
    let entries = |list: &[(&str, f64)]| -> Vec<(Word, f64)> {
        list.iter().map(|&(text, x)| (word(text), x)).collect()
    };
    let rust_basis = |k: &Keeping| RustBasis::new(k.n_qubits, &k.basis.entries(k.len));

    // P10 to P12, and prune at 1.
    let four = ["XI", "YI", "ZI", "IX"];
    let coeffs = [3.0, -1.0, 1.0, 0.5];
    for (protected, limit, stay) in [
        (&[][..], 2, &[("XI", 3.0), ("YI", -1.0)][..]),
        (&["IX"], 2, &[("XI", 3.0), ("IX", 0.5)]),
        (&["IX"], 0, &[("IX", 0.5)]),
    ] {
        let keeping = keeping(&four, &coeffs, protected);
        cap(tallies, &keeping, limit);
        let mut left = keeping.basis.clone();
        let kept = rules::cap_basis(2, 4, &keeping.protected, limit, &mut left);
        assert_eq!(after(kept, &left), entries(stay));
    }
    let plain = keeping(&four, &coeffs, &[]);
    prune(tallies, &plain, 1.0);
    let mut left = plain.basis.clone();
    let kept = rules::prune_basis(2, 4, &[], 1.0, &mut left);
    assert_eq!(
        after(kept, &left),
        entries(&[("XI", 3.0), ("YI", -1.0), ("ZI", 1.0)])
    );

    // A threshold that is no number: 7, where the Rust drops everything.
    let one = keeping(&["X"], &[1.0], &[]);
    prune(tallies, &one, f64::NAN);
    let kept = rules::prune_basis(1, 1, &[], f64::NAN, &mut one.basis.clone());
    assert_eq!(kept.status, refusal(7, 1, 0));
    let mut rust = rust_basis(&one);
    rust.prune(f64::NAN, &[]);
    assert_eq!(rust.len(), 0);

    // A coefficient that is no number: 7, where the Rust prunes it.
    let nan = keeping(&["X"], &[f64::NAN], &[]);
    prune(tallies, &nan, 1.0);
    cap(tallies, &nan, 0);
    let kept = rules::prune_basis(1, 1, &[], 1.0, &mut nan.basis.clone());
    assert_eq!(kept.status, refusal(7, 0, 0));
    let mut rust = rust_basis(&nan);
    rust.prune(1.0, &[]);
    assert_eq!(rust.len(), 0);

    // A limit above those that are accepted: 8, where the Rust does nothing.
    cap(tallies, &one, MAX_WORDS + 1);
    let kept = rules::cap_basis(1, 1, &[], MAX_WORDS + 1, &mut one.basis.clone());
    assert_eq!(kept.status, refusal(8, MAX_WORDS + 1, 0));

    // More words than room: Y and Z in the order listed; the Rust takes Z first.
    let admission = Admission {
        n_qubits: 1,
        len: 0,
        list: lanes(&["X", "Y", "Z"]),
        values: vec![1.0, 2.0, 3.0],
        limit: 2,
        basis: basis(&[], &[], 2),
    };
    admit(tallies, &admission);
    let mut left = admission.basis.clone();
    let kept = rules::add_leakage_capped(1, 0, &admission.list, &admission.values, 2, &mut left);
    assert_eq!(after(kept, &left), entries(&[("Y", 0.0), ("Z", 0.0)]));
    let mut rust = RustBasis::new(1, &[]);
    rust.admit(1, &entries(&[("X", 1.0), ("Y", 2.0), ("Z", 3.0)]), 2);
    assert_eq!(rust.entries(), entries(&[("Z", 0.0), ("Y", 0.0)]));

    // One place too few for the words that come in.
    let short = Admission {
        basis: basis(&[], &[], 1),
        ..admission
    };
    admit(tallies, &short);
    let kept = rules::add_leakage_capped(
        1,
        0,
        &short.list,
        &short.values,
        2,
        &mut short.basis.clone(),
    );
    assert_eq!(kept.status, refusal(13, 3, 1));
}
