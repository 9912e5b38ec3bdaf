// SPDX-FileCopyrightText: 2026 The PPVM Authors
// SPDX-License-Identifier: Apache-2.0

//! The norm of the generator over a lent basis, and the Taylor degree for a norm.

use super::actions::{MAX_WORDS, ROW_LANES, SUMS_TABLE, sum_places, where_any};
use super::bases::{finite, inside, words};
use super::generators::Acts;
use super::models::{Answer, at_most, lent_places, refuse, tested};
use crate::port::models::{Lent, Model};
use crate::port::norms::{Degree, NormRoom, Normed, Partition};
use crate::port::{Status, WORD_LANES, Word};
use std::collections::BTreeSet;

/// `THETA` of the published file, from Al-Mohy and Higham (2011), and `THETA_LOOSE`: the threshold of each
/// degree from 1 on.
pub const THETA: [f64; 30] = [
    2.29e-16, 2.58e-8, 1.39e-5, 3.40e-4, 2.40e-3, 9.07e-3, 2.38e-2, 5.00e-2, 8.96e-2, 1.44e-1,
    2.14e-1, 3.00e-1, 4.00e-1, 5.14e-1, 6.41e-1, 7.81e-1, 9.31e-1, 1.09, 1.26, 1.44, 1.62, 1.82,
    2.01, 2.22, 2.43, 2.64, 2.86, 3.08, 3.31, 3.54,
];
pub const THETA_LOOSE: [f64; 30] = [
    2.000e-06, 2.447e-03, 2.863e-02, 1.025e-01, 2.262e-01, 3.911e-01, 5.866e-01, 8.045e-01, 1.039,
    1.285, 1.539, 1.801, 2.067, 2.337, 2.610, 2.885, 3.162, 3.441, 3.721, 4.001, 4.282, 4.564,
    4.847, 5.129, 5.412, 5.696, 5.979, 6.263, 6.546, 6.830,
];

/// From here on the loose table is taken.
pub const LOOSE_FROM: f64 = 1e-4;

/// The most products.
const MAX_PRODUCTS: u64 = 1_048_576;

/// The degree of a Taylor polynomial, and into how many steps the exponential is cut.
#[derive(Clone, Copy, Debug, PartialEq, Eq)]
pub struct Pair {
    pub m: u32,
    pub s: u32,
}

impl Pair {
    fn products(&self) -> u64 {
        u64::from(self.m) * u64::from(self.s)
    }
}

/// The first pair of least product, however large that is.
pub fn least_pair(t: f64, drop_tol: f64) -> Pair {
    if t.is_nan() || t <= 0.0 {
        return Pair { m: 1, s: 1 };
    }
    let table = match drop_tol >= LOOSE_FROM {
        true => THETA_LOOSE,
        false => THETA,
    };
    let steps = |threshold: f64| (t / threshold).ceil().clamp(1.0, u32::MAX.into()) as u32;
    let pairs = (1..).zip(table).map(|(m, threshold)| Pair {
        m,
        s: steps(threshold),
    });
    pairs.min_by_key(Pair::products).expect("a table has rows")
}

/// That pair, unless it asks for too many products.
fn chosen(t: f64, drop_tol: f64) -> Answer<Pair> {
    let pair = least_pair(t, drop_tol);
    match pair.products() > MAX_PRODUCTS {
        true => refuse(16, pair.m as usize, pair.s as usize),
        false => Ok(pair),
    }
}

pub fn select_ms(t: f64, drop_tol: f64) -> Degree {
    let (status, Pair { m, s }) = match chosen(t, drop_tol) {
        Ok(pair) => (Status::default(), pair),
        Err(status) => (status, Pair { m: 0, s: 0 }),
    };
    Degree { status, m, s }
}

// ---- norm

/// The terms of an action in the order in which their magnitudes are summed.
pub type InOrder<'a> = &'a dyn Fn(Vec<(Word, f64)>) -> Vec<(Word, f64)>;

/// mu and the norm, from the actions on all words of a basis, with the terms in this order.
pub fn norm_of(acts: &[(Word, Vec<(Word, f64)>)], in_order: InOrder) -> (f64, f64) {
    let sum = |numbers: &mut dyn Iterator<Item = f64>| numbers.fold(0.0, |sum, x| sum + x);
    let diag = |(p, terms): &(Word, Vec<(Word, f64)>)| {
        let own = terms.iter().find(|(w, _)| w == p);
        own.map_or(0.0, |(_, number)| *number)
    };
    let raw = |(_, terms): &(Word, Vec<(Word, f64)>)| {
        let terms = in_order(terms.clone());
        sum(&mut terms.into_iter().map(|(_, number)| number.abs()))
    };
    if acts.is_empty() {
        return (0.0, 0.0);
    }
    let mu = sum(&mut acts.iter().map(diag)) / acts.len() as f64;
    let column = |act| {
        let (raw, diag): (f64, f64) = (raw(act), diag(act));
        (raw - diag.abs()) + (diag - mu).abs()
    };
    let norm = acts.iter().map(column).fold(0.0, f64::max);
    (mu, norm)
}

/// The same over a basis, of the terms whose words are in it, each once, in word order, as the documents have it.
pub fn basis_norm(model: Model, lent: &Lent, basis: &[Word], known: &Acts) -> (f64, f64) {
    let is_in = in_set(basis);
    let mut terms = terms(model, lent, basis, known);
    for (_, list) in &mut terms {
        list.retain(|(w, _)| is_in(w));
    }
    norm_of(&terms, &|terms| terms)
}

/// Whether the actions on all words of a basis list words of it alone.
pub fn is_closed(acts: &[(Word, Vec<(Word, f64)>)], basis: &[Word]) -> bool {
    let is_in = in_set(basis);
    let mut lists = acts.iter().flat_map(|(_, terms)| terms);
    lists.all(|(w, _)| is_in(w))
}

/// Whether a word is among these.
fn in_set(words: &[Word]) -> impl Fn(&Word) -> bool {
    let set: BTreeSet<_> = words.iter().map(|w| w.lanes()).collect();
    move |w| set.contains(&w.lanes())
}

/// What the actions on all words of a basis list.
pub fn terms(
    model: Model,
    lent: &Lent,
    basis: &[Word],
    known: &Acts,
) -> Vec<(Word, Vec<(Word, f64)>)> {
    let acts = known.of(model, lent, basis).into_iter();
    let terms = acts.map(|(_, terms)| terms);
    basis.iter().copied().zip(terms).collect()
}

/// The most words that an action touches.
pub fn most_touched(model: Model, lent: &Lent, basis: &[Word], known: &Acts) -> usize {
    let acts = known.of(model, lent, basis);
    acts.iter().map(|(touched, _)| *touched).max().unwrap_or(0)
}

/// All tests but 13, with those of numbers beside the basis. The words of the basis.
fn norm_tested(
    model: Model,
    lent: &Lent,
    lanes: &[u64],
    len: usize,
    room: &NormRoom,
    numbers: &[f64],
) -> Answer<Vec<Word>> {
    tested(model, lent)?;
    at_most(MAX_WORDS, len)?;
    lent_places(len, lanes.len() / WORD_LANES)?;
    let rows = where_any(len, ROW_LANES * model.qubits);
    lent_places(rows, room.h_index.len())?;
    lent_places(rows, room.j_index.len())?;
    lent_places(where_any(len, ROW_LANES), room.mask.len())?;
    lent_places(len, room.heads.len())?;
    lent_places(len, room.nexts.len())?;
    lent_places(len, room.raws.len())?;
    lent_places(len, room.diags.len())?;
    let basis = words(lanes, len);
    inside(&basis, model.qubits)?;
    // No coefficients are given, so the index of a threshold is 0.
    numbers.iter().try_for_each(|&x| finite(0, &[x]))?;
    Ok(basis)
}

/// mu and the norm.
fn found(
    model: Model,
    lent: &Lent,
    (lanes, len): (&[u64], usize),
    room: &mut NormRoom,
    known: &Acts,
    numbers: &[f64],
) -> Answer<(f64, f64)> {
    let basis = norm_tested(model, lent, lanes, len, room, numbers)?;
    let places = sum_places(&room.work_words, &room.work_sums);
    room.clear();
    if most_touched(model, lent, &basis, known) > places {
        return refuse(13, SUMS_TABLE, places);
    }
    Ok(basis_norm(model, lent, &basis, known))
}

pub fn norm(
    model: Model,
    lent: &Lent,
    lanes: &[u64],
    len: usize,
    room: &mut NormRoom,
    known: &Acts,
) -> Normed {
    match found(model, lent, (lanes, len), room, known, &[]) {
        Ok((mu, norm)) => Normed {
            status: Status::default(),
            mu,
            norm,
        },
        Err(status) => Normed {
            status,
            mu: 0.0,
            norm: 0.0,
        },
    }
}

pub fn expm_degree(
    model: Model,
    lent: &Lent,
    lanes: &[u64],
    len: usize,
    (dt, drop_tol): (f64, f64),
    room: &mut NormRoom,
    known: &Acts,
) -> Partition {
    let found = found(model, lent, (lanes, len), room, known, &[dt, drop_tol]);
    let found = found.and_then(|(mu, norm)| Ok((mu, norm, chosen(dt.abs() * norm, drop_tol)?)));
    match found {
        Ok((mu, norm, Pair { m, s })) => Partition {
            status: Status::default(),
            mu,
            norm,
            m,
            s,
        },
        Err(status) => Partition {
            status,
            mu: 0.0,
            norm: 0.0,
            m: 0,
            s: 0,
        },
    }
}
