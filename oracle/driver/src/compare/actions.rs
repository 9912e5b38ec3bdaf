// SPDX-FileCopyrightText: 2026 The PPVM Authors
// SPDX-License-Identifier: Apache-2.0

//! Actions of models on words, bit for bit.
//!
//! Cases are counted by what document 01 answers to them. The Rust is asked where the document
//! accepts; its list is put in word order. A difference is expected where a number is near the
//! tolerance of thinning or of skipping, which the Rust compares with a hypot; and only if the Rust
//! answers as the rules with hypots do.

use super::models::by_answer;
use super::standing::Standing;
use super::{Answers, Tally};
use crate::inputs::Rng;
use crate::inputs::actions as inputs;
use crate::inputs::matrices::{Matrix, full};
use crate::inputs::models::{Items, largest, spoil_model};
use crate::port::actions::{self as port, CountRoom, Counted, Listed, Room};
use crate::port::models::{Lent, Model};
use crate::port::{Status, WORD_LANES, Word, set_word};
use crate::published::actions as published;
use crate::published::models::RustModel;
use crate::rules::actions::MAX_WORDS;
use crate::rules::models::{Complex, MAX_OPERATORS};
use crate::rules::{MAX_QUBITS, actions as rules, letters_of, word_of};

/// The words that each model is asked on.
const WORDS: usize = 16;

/// The words of a model that are asked on in tables of just enough places and of one too few.
const IN_SHORT_TABLES: usize = 3;

pub fn compare(seed: u64, cases: usize) -> Vec<Tally> {
    let rng = &mut Rng::new(seed);
    let mut tallies = Tallies {
        acted: by_answer("action"),
        counted: by_answer("places counted"),
        untouched: Tally::new("model after it"),
    };
    known(rng, &mut tallies);
    large(rng, &mut tallies);
    for _ in 0..cases.div_ceil(WORDS) {
        random(rng, &mut tallies);
    }
    let Tallies {
        acted,
        counted,
        untouched,
    } = tallies;
    let all = acted.into_iter().chain(counted).chain([untouched]);
    all.filter(|tally| tally.cases > 0).collect()
}

struct Tallies {
    acted: Vec<Tally>,
    /// The places for actions on many words.
    counted: Vec<Tally>,
    /// Whether the tables of a model are as they were.
    untouched: Tally,
}

/// What an action answers and what it leaves in the lent tables.
#[derive(Debug, PartialEq)]
struct Outcome {
    listed: Listed,
    room: Room,
}

/// A model with the Rust's, where that can be asked.
struct Asked {
    standing: Standing,
    rust: Option<RustModel>,
}

impl Asked {
    fn new(rng: &mut Rng, items: Items, matrices: Vec<Matrix>) -> Self {
        let built = Standing::built(rng, items);
        let standing = matrices
            .into_iter()
            .fold(built, |standing, matrix| standing.with_matrix(rng, matrix));
        Self {
            rust: standing.rust(),
            standing,
        }
    }

    fn input(&self, p: Word, room: &Room) -> String {
        let Standing {
            made_of,
            model,
            lent,
        } = &self.standing;
        let places = [
            room.work_words.len() / WORD_LANES,
            room.work_sums.len() / 2,
            room.out_words.len() / WORD_LANES,
            room.out_values.len(),
        ];
        let letters = letters_of(p);
        let word = String::from_utf8_lossy(&letters[..model.qubits.min(MAX_QUBITS)]);
        match made_of {
            Some(made_of) => format!("{made_of:?} on {word}, places {places:?}"),
            None => format!("{model:?} in {lent:?} on {p:?}, places {places:?}"),
        }
    }
}

/// The list in the places of the room, and more where these are too few; work tables zero, as the
/// rules leave them.
fn laid(list: &[(Word, f64)], room: &Room) -> Outcome {
    let mut room = room.clone();
    room.work_words.fill(0);
    room.work_sums.fill(0.0);
    let lanes: Vec<u64> = list.iter().flat_map(|(word, _)| word.lanes()).collect();
    let values: Vec<f64> = list.iter().map(|(_, value)| *value).collect();
    room.out_words
        .splice(..lanes.len().min(room.out_words.len()), lanes);
    room.out_values
        .splice(..values.len().min(room.out_values.len()), values);
    Outcome {
        listed: Listed {
            status: Status::default(),
            count: list.len(),
        },
        room,
    }
}

/// Whether the Rust answers as the rules with a hypot for each square do.
fn listed(rng: &mut Rng, standing: &Standing, p: Word, rust: &Outcome) -> bool {
    let Some(standing) = standing.by_hypots(rng) else {
        return false;
    };
    let Standing { model, lent, .. } = &standing;
    let Some((sums, list)) = rules::places(*model, lent, p) else {
        return false;
    };
    let mut room = inputs::room(rng, sums, list);
    let listed = rules::compute_action_terms(*model, lent, p, &mut room);
    let bits = |(word, value): (Word, f64)| (word, value.to_bits());
    let list = |room: &Room, listed: Listed| -> Vec<(Word, u64)> {
        room.list(listed.count).into_iter().map(bits).collect()
    };
    list(&room, listed) == list(&rust.room, rust.listed)
}

/// All sides are asked.
fn act(rng: &mut Rng, tallies: &mut Tallies, asked: &Asked, p: Word, room: &Room) {
    let Asked { standing, rust } = asked;
    let answer = |act: fn(Model, &Lent, Word, &mut Room) -> Listed| {
        let mut room = room.clone();
        Outcome {
            listed: act(standing.model, &standing.lent, p, &mut room),
            room,
        }
    };
    let rules = answer(rules::compute_action_terms);
    let port = answer(port::compute_action_terms);
    let refusal = rules.listed.status.refusal;
    let rust = match rust {
        Some(model) if refusal == 0 => {
            let list = published::compute_action_terms(model, p);
            Some(laid(&list, room))
        }
        _ => None,
    };
    let differs = rust.as_ref().filter(|rust| **rust != rules);
    let answers = Answers {
        listed: differs.is_some_and(|rust| listed(rng, standing, p, rust)),
        rust,
        port,
        rules,
    };
    let input = || asked.input(p, room);
    tallies.acted[refusal as usize].count(standing.size(), input, answers);
}

/// The port and the rules count the places for actions on many words, given by their lanes.
fn count(tallies: &mut Tallies, standing: &Standing, words: &[u64], room: &CountRoom) {
    let answer = |count: fn(Model, &Lent, &[u64], &mut CountRoom) -> Counted| {
        let mut room = room.clone();
        let counted = count(standing.model, &standing.lent, words, &mut room);
        (counted, room)
    };
    let answers = Answers {
        rust: None,
        port: answer(port::count_action_terms),
        rules: answer(rules::count_action_terms),
        listed: false,
    };
    let refusal = answers.rules.0.status.refusal;
    let input = || {
        let places = room.work_words.len() / WORD_LANES;
        format!("{:?} on {words:x?}, places {places}", standing.made_of)
    };
    tallies.counted[refusal as usize].count(standing.size() + words.len(), input, answers);
}

/// The same on a list of words in tables with just enough places and with one too few, with one of
/// the other tables too short, with a word cut off, and with one outside of the register.
fn count_all(rng: &mut Rng, tallies: &mut Tallies, standing: &Standing, words: &[Word]) {
    let Standing { model, lent, .. } = standing;
    let touched = |&p: &Word| rules::places(*model, lent, p).map(|(sums, _)| sums);
    let most = words.iter().filter_map(touched).max().unwrap_or(0);
    let n_qubits = model.qubits.min(MAX_QUBITS);
    let mut lanes: Vec<u64> = words.iter().flat_map(|p| p.lanes()).collect();
    for places in [Some(most), most.checked_sub(1)].into_iter().flatten() {
        let room = inputs::count_room(rng, n_qubits, places, false);
        count(tallies, standing, &lanes, &room);
    }
    let short = inputs::count_room(rng, n_qubits, most, true);
    count(tallies, standing, &lanes, &short);
    let room = inputs::count_room(rng, n_qubits, most, false);
    count(tallies, standing, &lanes[..rng.below(lanes.len())], &room);
    if n_qubits < MAX_QUBITS {
        let position = rng.below(words.len());
        let p = inputs::outside(rng, n_qubits);
        set_word(&mut lanes, position, p);
        count(tallies, standing, &lanes, &room);
    }
}

/// The tables of the model afterwards.
fn untouched(tallies: &mut Tallies, asked: &Asked, before: Lent) {
    let answers = Answers {
        rust: None,
        port: asked.standing.lent.clone(),
        rules: before,
        listed: false,
    };
    let input = || format!("{:?}", asked.standing.model);
    tallies
        .untouched
        .count(asked.standing.size(), input, answers);
}

/// A model on many words, some of them in tables with just enough places and with one too few, or
/// outside of the register; then the same after it was damaged.
fn random(rng: &mut Rng, tallies: &mut Tallies) {
    let (items, matrices) = inputs::model(rng);
    let words = inputs::words(rng, &items, &matrices, WORDS);
    let mut asked = Asked::new(rng, items, matrices);
    let before = asked.standing.lent.clone();
    for (case, &p) in words.iter().enumerate() {
        let Standing { model, lent, .. } = &asked.standing;
        let (sums, list) = rules::places(*model, lent, p).expect("the model is sound");
        let spare = (rng.below(2), rng.below(2));
        let room = inputs::room(rng, sums + spare.0, list + spare.1);
        act(rng, tallies, &asked, p, &room);
        if case < WORDS - IN_SHORT_TABLES {
            continue;
        }
        for (sums, list) in [
            (Some(sums), list.checked_sub(1)),
            (sums.checked_sub(1), Some(list)),
            (sums.checked_sub(1), list.checked_sub(1)),
            (Some(0), Some(list)),
            (Some(sums), Some(0)),
        ] {
            if let (Some(sums), Some(list)) = (sums, list) {
                let room = inputs::room(rng, sums, list);
                act(rng, tallies, &asked, p, &room);
            }
        }
    }
    let n_qubits = asked.standing.model.qubits;
    if n_qubits < MAX_QUBITS {
        let (sums, list) = (rng.below(3), rng.below(3));
        let room = inputs::room(rng, sums, list);
        let p = inputs::outside(rng, n_qubits);
        act(rng, tallies, &asked, p, &room);
    }
    count_all(rng, tallies, &asked.standing, &words);
    untouched(tallies, &asked, before);

    asked.rust = None;
    let Standing {
        made_of,
        model,
        lent,
    } = &mut asked.standing;
    *made_of = None;
    for _ in 0..=rng.below(2) {
        spoil_model(rng, model, lent);
    }
    for &p in words.iter().rev().take(2) {
        let Standing { model, lent, .. } = &asked.standing;
        let (sums, list) = rules::places(*model, lent, p).unwrap_or((1, 1));
        let room = inputs::room(rng, sums, list);
        act(rng, tallies, &asked, p, &room);
    }
    count_all(rng, tallies, &asked.standing, &words[..2]);
}

/// The largest models of Hamiltonian items and jumps, and one with the most pairs.
fn large(rng: &mut Rng, tallies: &mut Tallies) {
    let empty = Items {
        n_qubits: MAX_QUBITS,
        hamiltonian: Vec::new(),
        jumps: Vec::new(),
    };
    let full = full(rng, MAX_QUBITS, true, MAX_OPERATORS, 2);
    let near = (largest(rng, MAX_QUBITS, true), Vec::new());
    let any = (largest(rng, MAX_QUBITS, false), Vec::new());
    for (items, matrices) in [near, any, (empty, vec![full])] {
        let words = inputs::words(rng, &items, &matrices, WORDS);
        let asked = Asked::new(rng, items, matrices);
        for &p in &words {
            let Standing { model, lent, .. } = &asked.standing;
            let (sums, list) = rules::places(*model, lent, p).expect("the model is sound");
            let room = inputs::room(rng, sums, list);
            act(rng, tallies, &asked, p, &room);
        }
        count_all(rng, tallies, &asked.standing, &words);
    }

    // As many words as there may be, and one more.
    let items = inputs::crowded(rng);
    let standing = Standing::built(rng, items);
    let n_qubits = standing.model.qubits;
    for words in [MAX_WORDS, MAX_WORDS + 1] {
        let lanes = vec![0; WORD_LANES * words];
        let room = inputs::count_room(rng, n_qubits, 0, false);
        count(tallies, &standing, &lanes, &room);
    }
}

/// Actions of document 01, and the smallest ones in which squares and hypots decide differently,
/// with the lists of the document and of the Rust.
fn known(rng: &mut Rng, tallies: &mut Tallies) {
    let term = |text: &str, number: Complex| (text.as_bytes().to_vec(), number);
    let operator = |text: &str, number: Complex| vec![term(text, number)];
    let rows = |k: [[Complex; 2]; 2]| k.map(Vec::from).to_vec();
    let items = |n_qubits| Items {
        n_qubits,
        hamiltonian: Vec::new(),
        jumps: Vec::new(),
    };
    let (one, zero) = ((1.0, 0.0), (0.0, 0.0));
    let mut act = |items, matrices, p: &str, document: &[(&str, f64)], rust: &[(&str, f64)]| {
        let asked = Asked::new(rng, items, matrices);
        let p = word_of(p.as_bytes());
        let Standing { model, lent, .. } = &asked.standing;
        let (sums, list) = rules::places(*model, lent, p).expect("the model is sound");
        let mut room = inputs::room(rng, sums, list);
        act(rng, tallies, &asked, p, &room);
        let list = |list: &[(&str, f64)]| -> Vec<(Word, f64)> {
            let word = |(text, value): &(&str, f64)| (word_of(text.as_bytes()), *value);
            list.iter().map(word).collect()
        };
        let listed = rules::compute_action_terms(*model, lent, p, &mut room);
        assert_eq!(room.list(listed.count), list(document));
        let model = asked.rust.expect("texts are ASCII");
        assert_eq!(published::compute_action_terms(&model, p), list(rust));
    };

    // P5 to P7.
    let hamiltonian = vec![(b"Z".to_vec(), 0.5)];
    let half_z = Items {
        hamiltonian,
        ..items(1)
    };
    let list = [("Y", -1.0)];
    act(half_z.clone(), Vec::new(), "X", &list, &list);
    let jumps = vec![(0.25, operator("Z", one))];
    let list = [("X", -0.5)];
    act(Items { jumps, ..items(1) }, Vec::new(), "X", &list, &list);
    let jumps = vec![(1.0, vec![term("X", (0.5, 0.0)), term("Y", (0.0, 0.5))])];
    let lowering = Items { jumps, ..items(1) };
    let list = [("I", 1.0), ("Z", -1.0)];
    act(lowering.clone(), Vec::new(), "Z", &list, &list);

    // P8.
    act(half_z, Vec::new(), "I", &[], &[]);
    act(lowering, Vec::new(), "I", &[], &[]);
    act(items(0), Vec::new(), "", &[], &[]);

    // P9.
    let two = || vec![operator("XI", one), operator("IX", one)];
    let matrix = |operators, k| vec![Matrix { operators, k }];
    let k = rows([[one, (0.0, 1.0)], [(0.0, -1.0), one]]);
    let list = [("IZ", -2.0), ("XY", -2.0)];
    act(items(2), matrix(two(), k), "IZ", &list, &list);

    // Thinning comes before the rate: the equation would give I 4, Z -4.
    let jumps = vec![(1e16, vec![term("X", (1e-8, 0.0)), term("Y", (0.0, 1e-8))])];
    let list = [("I", 2.0), ("Z", -2.0)];
    act(Items { jumps, ..items(1) }, Vec::new(), "Z", &list, &list);

    // Thinning: a word that stays, where the Rust drops it.
    let thin = vec![operator("XI", one), operator("IX", (6e-15, 8e-15))];
    let k = rows([[zero, (2.0, 0.0)], [(2.0, 0.0), zero]]);
    act(items(2), matrix(thin, k), "IZ", &[("XY", -3.2e-14)], &[]);

    // The skip rule: a pair, where the Rust skips, and the other way round.
    let k = rows([[(7.0, 0.0), (7e-14, 0.0)], [(7e-14, 0.0), zero]]);
    let document = [("ZZ", -14.0), ("YY", 2.8e-13)];
    let rust = [("ZZ", -14.0)];
    act(items(2), matrix(two(), k), "ZZ", &document, &rust);
    let edge = (5.400000000000001e-14, 7.2e-14);
    let k = rows([[(9.0, 0.0), edge], [(edge.0, -edge.1), zero]]);
    let document = [("ZZ", -18.0)];
    let rust = [("ZZ", -18.0), ("YY", 2.1600000000000003e-13)];
    act(items(2), matrix(two(), k), "ZZ", &document, &rust);
}
