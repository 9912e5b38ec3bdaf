// SPDX-FileCopyrightText: 2026 The PPVM Authors
// SPDX-License-Identifier: Apache-2.0

//! Leakage out of a lent basis, position by position.

use super::actions::{LIST_TABLE, MAX_WORDS, ROW_LANES, SUMS_TABLE, acts, where_any};
use super::bases::{finite, inside, largest, whole_words, words};
use super::models::{Answer, at_most, lent_places, refuse, tested};
use super::{MAX_QUBITS, refusal};
use crate::port::actions::Listed;
use crate::port::leakages::{Given, LeakRoom, LeakageSizes, Limits};
use crate::port::models::{Lent, Model};
use crate::port::{Status, WORD_LANES, Word, set_word};
use std::collections::{BTreeMap, BTreeSet};

/// The positions of a pass.
pub const PASS: usize = 4096;

/// The table of candidates, as 13 names it.
const CANDIDATES_TABLE: usize = 2;

/// The most places that lengths are told for.
pub(super) const MAX_PLACES: usize = 4_294_967_295;

/// The lengths of work tables that are enough.
pub fn leakage_sizes(
    qubits: usize,
    entries: usize,
    protected: usize,
    touched: usize,
    candidates: usize,
) -> LeakageSizes {
    let rows = where_any(entries, ROW_LANES * qubits.min(MAX_QUBITS));
    let protected = where_any(entries, protected.min(MAX_WORDS));
    let entries = entries.min(MAX_WORDS);
    let (touched, candidates) = (touched.min(MAX_PLACES), candidates.min(MAX_PLACES));
    LeakageSizes {
        h_index: rows,
        j_index: rows,
        mask: where_any(entries, ROW_LANES),
        work_words: WORD_LANES * touched,
        work_sums: 2 * touched,
        order: entries,
        heads: 2 * (entries + protected),
        nexts: entries + protected,
        cand_words: WORD_LANES * candidates,
        cand_sums: candidates,
        place_order: 2 * candidates,
        place_work: candidates,
    }
}

// ---- tests

/// What room counts against.
pub fn word_limit(limits: Limits) -> usize {
    match limits.admit_given {
        0 => limits.max_basis,
        _ => limits.admit_basis.max(limits.max_basis),
    }
}

/// An absent tau_add means 2^-40; the Rust is given the value.
pub fn threshold(limits: Limits) -> f64 {
    match limits.tau_given {
        0 => 2f64.powi(-40),
        _ => limits.tau_add,
    }
}

/// All tests but 13 and 14. The words of the basis, and the protected ones.
fn leakage_tested(
    model: Model,
    lent: &Lent,
    given: &Given,
    room: &LeakRoom,
) -> Answer<(Vec<Word>, Vec<Word>)> {
    tested(model, lent)?;
    let Given {
        len,
        limits,
        protected,
        ..
    } = given;
    let (len, count) = (*len, protected.len() / WORD_LANES);
    at_most(MAX_WORDS, len)?;
    at_most(MAX_WORDS, count)?;
    at_most(MAX_WORDS, limits.max_basis)?;
    if limits.admit_given != 0 {
        at_most(MAX_WORDS, limits.admit_basis)?;
    }
    lent_places(len, given.words.len() / WORD_LANES)?;
    lent_places(len, given.coeffs.len())?;
    whole_words(protected)?;
    let rows = where_any(len, ROW_LANES * model.qubits);
    lent_places(rows, room.h_index.len())?;
    lent_places(rows, room.j_index.len())?;
    lent_places(where_any(len, ROW_LANES), room.mask.len())?;
    lent_places(len, room.order.len())?;
    lent_places(where_any(len, len + count), room.heads.len())?;
    lent_places(where_any(len, len + count), room.nexts.len())?;
    let (basis, protected) = (words(&given.words, len), words(protected, count));
    inside(&basis, model.qubits)?;
    inside(&protected, model.qubits)?;
    finite(0, &given.coeffs[..len])?;
    finite(len, &[threshold(*limits)])?;
    Ok((basis, protected))
}

// ---- passes

/// The places of tables 1, 2 and 3.
#[derive(Clone, Copy)]
pub struct Places {
    pub touched: usize,
    pub held: usize,
    pub listed: usize,
}

/// A basis with the action on each of its words.
pub struct Acting {
    acts: Vec<(usize, Vec<(Word, f64)>)>,
    coeffs: Vec<f64>,
}

impl Acting {
    /// The model tested, the words inside its register, and the coefficients finite.
    pub fn new(model: Model, lent: &Lent, basis: &[Word], coeffs: &[f64]) -> Self {
        Self {
            acts: acts(model, lent, basis),
            coeffs: coeffs[..basis.len()].to_vec(),
        }
    }

    /// Places that are enough for any course.
    pub fn enough(&self) -> Places {
        let reached = self.acts.iter().map(|(_, terms)| terms.len()).sum();
        Places {
            touched: self
                .acts
                .iter()
                .map(|(touched, _)| *touched)
                .max()
                .unwrap_or(0),
            held: reached,
            listed: reached,
        }
    }
}

/// Which words are candidates.
pub type Outside<'a> = &'a dyn Fn(Word) -> bool;

/// Words that are in none of these lists.
pub fn outside(basis: &[Word], protected: &[Word]) -> impl Fn(Word) -> bool + use<> {
    let known = basis.iter().chain(protected);
    let known: BTreeSet<[u64; WORD_LANES]> = known.map(|w| w.lanes()).collect();
    move |w| !known.contains(&w.lanes())
}

/// What the passes came to: the candidates left, in word order, the most words that an action touched,
/// the most candidates there were, and whether the room rule ever had to choose between equals.
#[derive(Default)]
pub struct Course {
    sums: BTreeMap<[u64; WORD_LANES], f64>,
    pub touched: usize,
    pub held: usize,
    pub tied: bool,
}

impl Course {
    /// The largest candidates stay, of equally large ones the lower words.
    fn cut(&mut self, room: usize) {
        let numbers: Vec<f64> = self.sums.values().copied().collect();
        let stay = largest(&numbers, (0..numbers.len()).collect(), room);
        let size = |place: usize| numbers[place].abs();
        let gone = (0..numbers.len()).filter(|place| !stay.contains(place));
        let dropped = gone.map(size).reduce(f64::max);
        let kept = stay.iter().map(|&place| size(place)).reduce(f64::min);
        self.tied |= kept.is_some() && kept == dropped;
        let mut place = 0;
        self.sums.retain(|_, _| {
            place += 1;
            stay.contains(&(place - 1))
        });
    }

    /// Those above a threshold.
    pub fn list(&self, tau_add: f64) -> Vec<(Word, f64)> {
        let above = self.sums.iter().filter(|(_, sum)| sum.abs() > tau_add);
        above.map(|(lanes, sum)| (Word::of(lanes), *sum)).collect()
    }
}

/// All passes with room for so many words, in tables 1 and 2 of so many places.
fn passes(acting: &Acting, is_outside: Outside, room: usize, places: [usize; 2]) -> Answer<Course> {
    let Acting { acts, coeffs } = acting;
    let size = |position: usize| coeffs[position].abs();
    let mut positions: Vec<usize> = (0..coeffs.len()).collect();
    positions.sort_by(|&p, &q| size(q).total_cmp(&size(p)).then(p.cmp(&q)));
    let mut course = Course::default();
    for pass in positions.chunks(PASS) {
        for &position in pass {
            let (touched, terms) = &acts[position];
            if *touched > places[0] {
                return refuse(13, SUMS_TABLE, places[0]);
            }
            for &(w, number) in terms.iter().filter(|(w, _)| is_outside(*w)) {
                *course.sums.entry(w.lanes()).or_insert(0.0) += coeffs[position] * number;
            }
            if course.sums.len() > places[1] {
                return refuse(13, CANDIDATES_TABLE, places[1]);
            }
            course.touched = course.touched.max(*touched);
            course.held = course.held.max(course.sums.len());
        }
        if let Some(place) = course.sums.values().position(|sum| !sum.is_finite()) {
            return refuse(14, place, 0);
        }
        course.cut(room);
    }
    Ok(course)
}

/// The same in tables of enough places.
pub fn course(acting: &Acting, is_outside: Outside, room: usize) -> Option<Course> {
    passes(acting, is_outside, room, [usize::MAX; 2]).ok()
}

// ---- the call

fn sum_places(room: &LeakRoom) -> usize {
    (room.work_words.len() / WORD_LANES).min(room.work_sums.len() / 2)
}

fn candidate_places(room: &LeakRoom) -> usize {
    let slices = [
        room.cand_words.len() / WORD_LANES,
        room.cand_sums.len(),
        room.place_order.len(),
        room.place_work.len(),
    ];
    slices.into_iter().min().expect("there are slices")
}

pub fn leakage_with_prune(model: Model, lent: &Lent, given: &Given, room: &mut LeakRoom) -> Listed {
    let refused = |status| Listed { status, count: 0 };
    let (basis, protected) = match leakage_tested(model, lent, given, room) {
        Ok(tested) => tested,
        Err(status) => return refused(status),
    };
    let places = [sum_places(room), candidate_places(room)];
    for table in room.work_lanes() {
        table.fill(0);
    }
    for table in room.work_numbers() {
        table.fill(0.0);
    }
    let acting = Acting::new(model, lent, &basis, &given.coeffs);
    let free = word_limit(given.limits).saturating_sub(given.len);
    let course = match passes(&acting, &outside(&basis, &protected), free, places) {
        Ok(course) => course,
        Err(status) => return refused(status),
    };
    let list = course.list(threshold(given.limits));
    let places = (room.out_words.len() / WORD_LANES).min(room.out_values.len());
    if list.len() > places {
        return refused(refusal(13, LIST_TABLE, places));
    }
    for (place, (w, sum)) in list.iter().enumerate() {
        set_word(&mut room.out_words, place, *w);
        room.out_values[place] = *sum;
    }
    Listed {
        status: Status::default(),
        count: list.len(),
    }
}
