// SPDX-FileCopyrightText: 2026 The PPVM Authors
// SPDX-License-Identifier: Apache-2.0

//! Bases of distinct words, of which many reach each other, and the tables for the generator over them.

use super::Rng;
use super::actions::{self, lanes, numbers};
use super::bases::{lanes_of, put_outside, shorten, small};
use super::matrices::Matrix;
use super::models::Items;
use crate::port::generators::{GeneratorRoom, GeneratorSizes};
use crate::port::{WORD_LANES, Word};
use crate::rules::actions::MAX_WORDS;
use crate::rules::generators::generator_sizes;
use std::collections::BTreeSet;

/// The words without those that stood before.
pub fn distinct(words: Vec<Word>) -> Vec<Word> {
    let mut known = BTreeSet::new();
    let mut words = words;
    words.retain(|w| known.insert(w.lanes()));
    words
}

/// Distinct words near a model: none, one, a few, or some hundreds; most with words that they reach.
pub fn words(
    rng: &mut Rng,
    items: &Items,
    matrices: &[Matrix],
    reached: impl Fn(&[Word]) -> Vec<Word>,
) -> Vec<Word> {
    let len = match rng.below(5) {
        0 => 1,
        _ => small(rng),
    };
    let mut words = actions::words(rng, items, matrices, len);
    if len > 1 && !rng.one_in(4) {
        let mut reached = reached(&words[..len.min(24)]);
        reached.retain(|_| !rng.one_in(4));
        let place = rng.below(words.len() + 1);
        words.splice(place..place, reached);
    }
    distinct(words)
}

/// Words with all that they reach, and all that these reach, unless they are more than so many.
pub fn closed(
    words: Vec<Word>,
    most: usize,
    reached: impl Fn(&[Word]) -> Vec<Word>,
) -> Option<Vec<Word>> {
    let mut words = distinct(words);
    loop {
        let count = words.len();
        words.extend(reached(&words));
        words = distinct(words);
        if words.len() == count || words.len() > most {
            return (words.len() == count).then_some(words);
        }
    }
}

/// The words in a table with something past them.
pub fn lent_words(rng: &mut Rng, words: &[Word]) -> Vec<u64> {
    let mut table = lanes_of(words);
    if rng.one_in(2) {
        let spare = rng.below(9);
        table.extend(lanes(rng, spare));
    }
    table
}

/// Tables of so many places for the words that an action touches and for entries, some slices longer, with
/// something in them already. Where heads and nexts are zero, a word that comes again is found otherwise
/// than where they are not.
pub fn room(
    rng: &mut Rng,
    n_qubits: usize,
    len: usize,
    touched: usize,
    entries: usize,
) -> GeneratorRoom {
    let needed = generator_sizes(n_qubits, len, touched, entries);
    let mut more = |least: usize| least + rng.pick(&[0, 0, 0, 1, 3, 100]);
    let lengths = GeneratorSizes {
        h_index: more(needed.h_index),
        mask: more(needed.mask),
        heads: more(len),
        nexts: more(needed.nexts),
        work_sums: more(needed.work_sums),
        stage_rows: more(entries),
        stage_values: more(entries),
        ..needed
    };
    let [rows, columns, values] = [0; 3].map(|_| more(entries));
    let offsets = more(len + 1);
    let mut room = filled(rng, lengths, rows, columns, values);
    room.offsets = lanes(rng, offsets);
    if rng.one_in(2) {
        room.heads.fill(0);
        room.nexts.fill(0);
    }
    // One of the tables of entries has just enough places.
    match rng.below(5) {
        0 => room.stage_rows.truncate(entries),
        1 => room.stage_values.truncate(entries),
        2 => room.columns.truncate(entries),
        3 => room.values.truncate(entries),
        _ => {}
    }
    room
}

fn narrow(rng: &mut Rng, length: usize) -> Vec<u32> {
    let seed = rng.next() as u32;
    (0..length).map(|i| seed ^ i as u32).collect()
}

/// Tables of these lengths, with something in them already.
fn filled(
    rng: &mut Rng,
    sizes: GeneratorSizes,
    rows: usize,
    columns: usize,
    values: usize,
) -> GeneratorRoom {
    GeneratorRoom {
        h_index: lanes(rng, sizes.h_index),
        j_index: lanes(rng, sizes.j_index),
        mask: lanes(rng, sizes.mask),
        heads: lanes(rng, sizes.heads),
        nexts: lanes(rng, sizes.nexts),
        work_words: lanes(rng, sizes.work_words),
        work_sums: numbers(sizes.work_sums),
        stage_rows: narrow(rng, sizes.stage_rows),
        stage_columns: narrow(rng, sizes.stage_columns),
        stage_values: numbers(sizes.stage_values),
        rows: narrow(rng, rows),
        offsets: Vec::new(),
        columns: narrow(rng, columns),
        values: numbers(values),
    }
}

/// Another length in use.
pub(super) fn other_len(rng: &mut Rng, len: usize) -> usize {
    rng.pick(&[MAX_WORDS + 1, usize::MAX, len + 1, MAX_WORDS])
}

/// Something wrong with the words or with what is lent.
pub fn spoil(
    rng: &mut Rng,
    n_qubits: usize,
    words: &mut Vec<u64>,
    len: &mut usize,
    room: &mut GeneratorRoom,
) {
    let places = *len;
    let rows = generator_sizes(n_qubits, 0, 0, 0).h_index;
    match rng.below(12) {
        0 => *len = other_len(rng, places),
        1 => put_outside(rng, n_qubits, words),
        2 => shorten(rng, words, WORD_LANES * places),
        3..=6 if places > 1 && words.len() >= WORD_LANES * places => repeat(rng, words, places),
        _ => match rng.below(6) {
            0 => shorten(rng, &mut room.h_index, rows),
            1 => shorten(rng, &mut room.j_index, rows),
            2 => shorten(rng, &mut room.mask, 64),
            3 => shorten(rng, &mut room.heads, places),
            4 => shorten(rng, &mut room.nexts, places),
            _ => shorten(rng, &mut room.offsets, places + 1),
        },
    }
}

/// A word stands at another position too, and now and then at a third.
fn repeat(rng: &mut Rng, words: &mut [u64], places: usize) {
    for _ in 0..=rng.below(2) {
        let (from, to) = (rng.below(places), rng.below(places));
        words.copy_within(WORD_LANES * from..WORD_LANES * (from + 1), WORD_LANES * to);
    }
}
