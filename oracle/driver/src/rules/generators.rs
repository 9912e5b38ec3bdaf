// SPDX-FileCopyrightText: 2026 The PPVM Authors
// SPDX-License-Identifier: Apache-2.0

//! The generator of a lent model over a lent basis, column by column, and the same matrix by rows.

use super::actions::{LIST_TABLE, MAX_WORDS, ROW_LANES, SUMS_TABLE, acts, sum_places, where_any};
use super::bases::{inside, words};
use super::models::{Answer, at_most, lent_places, refuse, tested};
use super::{MAX_QUBITS, leakages::MAX_PLACES};
use crate::port::actions::Listed;
use crate::port::generators::{GeneratorRoom, GeneratorSizes};
use crate::port::models::{Lent, Model};
use crate::port::{Status, WORD_LANES, Word};
use std::cell::RefCell;
use std::collections::BTreeMap;

/// The most entries of a generator.
const MAX_ENTRIES: usize = MAX_WORDS * MAX_WORDS;

/// The lengths of work tables that are enough.
pub fn generator_sizes(
    qubits: usize,
    words: usize,
    touched: usize,
    entries: usize,
) -> GeneratorSizes {
    let rows = where_any(words, ROW_LANES * qubits.min(MAX_QUBITS));
    let (words, touched) = (words.min(MAX_WORDS), touched.min(MAX_PLACES));
    let entries = entries.min(MAX_ENTRIES);
    GeneratorSizes {
        h_index: rows,
        j_index: rows,
        mask: where_any(words, ROW_LANES),
        heads: 2 * words,
        nexts: words,
        work_words: WORD_LANES * touched,
        work_sums: 2 * touched,
        stage_rows: entries,
        stage_columns: entries,
        stage_values: entries,
    }
}

// ---- columns

/// How many words an action touches, and what it lists.
type Act = (usize, Vec<(Word, f64)>);

/// The actions of one model, each computed once.
#[derive(Default)]
pub struct Acts(RefCell<BTreeMap<[u64; WORD_LANES], Act>>);

impl Acts {
    /// The actions on these words, the model tested and the words inside its register.
    pub(super) fn of(&self, model: Model, lent: &Lent, words: &[Word]) -> Vec<Act> {
        let mut known = self.0.borrow_mut();
        let mut missing: Vec<Word> = words.to_vec();
        missing.retain(|w| !known.contains_key(&w.lanes()));
        let found = acts(model, lent, &missing);
        known.extend(missing.iter().map(|w| w.lanes()).zip(found));
        words.iter().map(|w| known[&w.lanes()].clone()).collect()
    }
}

/// The number in a row and a column: the positions of two basis words.
#[derive(Clone, Copy, Debug, PartialEq)]
pub struct Entry {
    pub row: usize,
    pub column: usize,
    pub value: f64,
}

/// What a generator needs and has: the most words that an action touches, and the entries by column, then
/// word.
#[derive(Clone, Debug, Default)]
pub struct Entries {
    pub touched: usize,
    pub list: Vec<Entry>,
}

/// All entries over distinct words, in tables 1 and 3 of so many places.
fn entries(acts: &[Act], basis: &[Word], places: [usize; 2]) -> Answer<Entries> {
    let position = |(position, w): (usize, &Word)| (w.lanes(), position);
    let positions: BTreeMap<[u64; WORD_LANES], usize> =
        basis.iter().enumerate().map(position).collect();
    let mut entries = Entries::default();
    for (column, (touched, terms)) in acts.iter().enumerate() {
        if *touched > places[0] {
            return refuse(13, SUMS_TABLE, places[0]);
        }
        entries.touched = entries.touched.max(*touched);
        for (w, value) in terms {
            if let Some(&row) = positions.get(&w.lanes()) {
                let value = *value;
                entries.list.push(Entry { row, column, value });
            }
        }
        if entries.list.len() > places[1] {
            return refuse(13, LIST_TABLE, places[1]);
        }
    }
    Ok(entries)
}

/// The same in tables of enough places.
pub fn all_entries(model: Model, lent: &Lent, basis: &[Word], known: &Acts) -> Entries {
    let acts = known.of(model, lent, basis);
    entries(&acts, basis, [usize::MAX; 2]).expect("there are enough places")
}

/// The entries by row, then column.
pub fn by_rows(mut list: Vec<Entry>) -> Vec<Entry> {
    list.sort_by_key(|entry| (entry.row, entry.column));
    list
}

/// Where each row of so many starts, and where the last one ends, for entries by rows.
pub fn offsets(rows: usize, list: &[Entry]) -> Vec<u64> {
    let before = |row: usize| list.partition_point(|entry| entry.row < row);
    (0..=rows).map(|row| before(row) as u64).collect()
}

// ---- the calls

/// All tests but 13. The words of the basis.
fn generator_tested(
    model: Model,
    lent: &Lent,
    lanes: &[u64],
    len: usize,
    room: &GeneratorRoom,
    by_rows: bool,
) -> Answer<Vec<Word>> {
    tested(model, lent)?;
    at_most(MAX_WORDS, len)?;
    lent_places(len, lanes.len() / WORD_LANES)?;
    let rows = where_any(len, ROW_LANES * model.qubits);
    lent_places(rows, room.h_index.len())?;
    lent_places(rows, room.j_index.len())?;
    lent_places(where_any(len, ROW_LANES), room.mask.len())?;
    lent_places(len, room.heads.len())?;
    lent_places(len, room.nexts.len())?;
    if by_rows {
        lent_places(len + 1, room.offsets.len())?;
    }
    let basis = words(lanes, len);
    inside(&basis, model.qubits)?;
    let mut seen = BTreeMap::new();
    for (position, w) in basis.iter().enumerate() {
        if seen.insert(w.lanes(), position).is_some() {
            return refuse(12, position, 0);
        }
    }
    Ok(basis)
}

/// The places of table 3 but for rows, which only the generator has.
fn entry_places(room: &GeneratorRoom) -> usize {
    let slices = [
        room.stage_rows.len(),
        room.stage_columns.len(),
        room.stage_values.len(),
        room.columns.len(),
        room.values.len(),
    ];
    slices.into_iter().min().expect("there are slices")
}

/// The entries; where there are none, how the call ends. Work tables are zero but where a test fails.
fn found(
    model: Model,
    lent: &Lent,
    (lanes, len): (&[u64], usize),
    room: &mut GeneratorRoom,
    known: &Acts,
    is_by_rows: bool,
) -> Answer<Vec<Entry>> {
    let basis = generator_tested(model, lent, lanes, len, room, is_by_rows)?;
    let entry_places = match is_by_rows {
        true => entry_places(room),
        false => entry_places(room).min(room.rows.len()),
    };
    let places = [sum_places(&room.work_words, &room.work_sums), entry_places];
    room.clear_work();
    let acts = known.of(model, lent, &basis);
    Ok(entries(&acts, &basis, places)?.list)
}

fn listed(found: Answer<usize>) -> Listed {
    match found {
        Ok(count) => Listed {
            status: Status::default(),
            count,
        },
        Err(status) => Listed { status, count: 0 },
    }
}

pub fn generator(
    model: Model,
    lent: &Lent,
    lanes: &[u64],
    len: usize,
    room: &mut GeneratorRoom,
    known: &Acts,
) -> Listed {
    let found = found(model, lent, (lanes, len), room, known, false);
    listed(found.map(|list| {
        for (place, entry) in list.iter().enumerate() {
            room.rows[place] = entry.row as u32;
            room.columns[place] = entry.column as u32;
            room.values[place] = entry.value;
        }
        list.len()
    }))
}

pub fn build_csr(
    model: Model,
    lent: &Lent,
    lanes: &[u64],
    len: usize,
    room: &mut GeneratorRoom,
    known: &Acts,
) -> Listed {
    let found = found(model, lent, (lanes, len), room, known, true);
    listed(found.map(|list| {
        let list = by_rows(list);
        room.offsets[..=len].copy_from_slice(&offsets(len, &list));
        for (place, entry) in list.iter().enumerate() {
            room.columns[place] = entry.column as u32;
            room.values[place] = entry.value;
        }
        list.len()
    }))
}
