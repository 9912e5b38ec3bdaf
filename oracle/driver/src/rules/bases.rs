// SPDX-FileCopyrightText: 2026 The PPVM Authors
// SPDX-License-Identifier: Apache-2.0

//! Prune, cap and admission on a lent basis, entry by entry.

use super::actions::{LIST_TABLE, MAX_WORDS, where_any};
use super::models::{Answer, at_most, equal, lent_places, refuse};
use super::{MAX_QUBITS, fits_register, refusal};
use crate::port::bases::{Basis, BasisSizes, Kept};
use crate::port::{Status, WORD_LANES, Word, set_word, word_at};
use std::collections::BTreeSet;

/// The lengths of work tables that are enough.
pub fn basis_sizes(entries: usize, protected: usize, listed: usize) -> BasisSizes {
    let most = entries.max(where_any(entries, protected)).max(listed);
    BasisSizes {
        order: most,
        work: most,
        fixed: entries,
        kept: entries.max(listed),
    }
}

// ---- tests

fn register(n: usize) -> Answer<()> {
    if n > MAX_QUBITS {
        return refuse(1, n, MAX_QUBITS);
    }
    Ok(())
}

/// The basis has as many places as it is said to have in use.
fn in_use(len: usize, basis: &Basis) -> Answer<()> {
    lent_places(len, basis.words.len() / WORD_LANES)?;
    lent_places(len, basis.coeffs.len())
}

/// A list of whole words.
pub(super) fn whole_words(lanes: &[u64]) -> Answer<()> {
    equal(lanes.len() / WORD_LANES * WORD_LANES, lanes.len())
}

/// The first so many words.
pub(super) fn words(lanes: &[u64], count: usize) -> Vec<Word> {
    (0..count).map(|place| word_at(lanes, place)).collect()
}

pub(super) fn inside(words: &[Word], n: usize) -> Answer<()> {
    match words.iter().position(|w| !fits_register(*w, n)) {
        Some(position) => refuse(11, position, 0),
        None => Ok(()),
    }
}

/// Numbers that are counted on from those before them.
pub(super) fn finite(before: usize, numbers: &[f64]) -> Answer<()> {
    match numbers.iter().position(|x| !x.is_finite()) {
        Some(place) => refuse(7, before + place, 0),
        None => Ok(()),
    }
}

/// All tests of prune and of cap, each of which has one of the last two. The words of the basis, and
/// the protected ones.
fn keeping_tested(
    n: usize,
    len: usize,
    protected: &[u64],
    limit: Option<usize>,
    drop_tol: Option<f64>,
    basis: &Basis,
) -> Answer<(Vec<Word>, Vec<Word>)> {
    register(n)?;
    let count = protected.len() / WORD_LANES;
    at_most(MAX_WORDS, len)?;
    at_most(MAX_WORDS, count)?;
    at_most(MAX_WORDS, limit.unwrap_or(0))?;
    in_use(len, basis)?;
    whole_words(protected)?;
    let most = where_any(len, len.max(count));
    lent_places(most, basis.order.len())?;
    lent_places(most, basis.work.len())?;
    lent_places(len, basis.fixed.len())?;
    lent_places(len, basis.kept.len())?;
    let (entries, protected) = (words(&basis.words, len), words(protected, count));
    inside(&entries, n)?;
    inside(&protected, n)?;
    finite(0, &basis.coeffs[..len])?;
    finite(len, &[drop_tol.unwrap_or(0.0)])?;
    Ok((entries, protected))
}

/// All tests of admission but 13. The listed words.
fn admission_tested(
    n: usize,
    len: usize,
    list: &[u64],
    values: &[f64],
    limit: usize,
    basis: &Basis,
) -> Answer<Vec<Word>> {
    register(n)?;
    let count = list.len() / WORD_LANES;
    at_most(MAX_WORDS, len)?;
    at_most(MAX_WORDS, count)?;
    at_most(MAX_WORDS, limit)?;
    in_use(len, basis)?;
    whole_words(list)?;
    equal(count, values.len())?;
    lent_places(count, basis.order.len())?;
    lent_places(count, basis.work.len())?;
    lent_places(count, basis.kept.len())?;
    let listed = words(list, count);
    inside(&words(&basis.words, len), n)?;
    inside(&listed, n)?;
    finite(0, &basis.coeffs[..len])?;
    finite(len, values)?;
    Ok(listed)
}

// ---- answers

fn refused(status: Status) -> Kept {
    Kept { status, entries: 0 }
}

fn accepted(entries: usize) -> Kept {
    Kept {
        status: Status::default(),
        entries,
    }
}

/// The largest of some candidates, by magnitude, as many as there is room for; of equally large ones the
/// first. The rest of what is chosen from is told by a place of each.
pub(super) fn largest(numbers: &[f64], mut candidates: Vec<usize>, room: usize) -> BTreeSet<usize> {
    let size = |&place: &usize| numbers[place].abs();
    candidates.sort_by(|p, q| size(q).total_cmp(&size(p)).then(p.cmp(q)));
    candidates.into_iter().take(room).collect()
}

fn clear_work(basis: &mut Basis) {
    basis.order.fill(0);
    basis.work.fill(0);
    basis.fixed.fill(0);
    basis.kept.fill(0);
}

/// Keeps the entries at these positions, in order; all past them becomes zero.
fn keep(basis: &mut Basis, entries: &[Word], positions: impl Iterator<Item = usize>) -> usize {
    let stay: Vec<(Word, f64)> = positions
        .map(|position| (entries[position], basis.coeffs[position]))
        .collect();
    basis.words.fill(0);
    basis.coeffs.fill(0.0);
    for (place, (word, coefficient)) in stay.iter().enumerate() {
        set_word(&mut basis.words, place, *word);
        basis.coeffs[place] = *coefficient;
    }
    stay.len()
}

/// Whether each entry is protected.
fn protection(entries: &[Word], protected: &[Word]) -> Vec<bool> {
    let protected: BTreeSet<[u64; WORD_LANES]> = protected.iter().map(|w| w.lanes()).collect();
    let is_protected = |w: &Word| protected.contains(&w.lanes());
    entries.iter().map(is_protected).collect()
}

pub fn prune_basis(
    n: usize,
    len: usize,
    protected: &[u64],
    drop_tol: f64,
    basis: &mut Basis,
) -> Kept {
    let (entries, protected) = match keeping_tested(n, len, protected, None, Some(drop_tol), basis)
    {
        Ok(tested) => tested,
        Err(status) => return refused(status),
    };
    clear_work(basis);
    if drop_tol <= 0.0 {
        return accepted(len);
    }
    let protected = protection(&entries, &protected);
    let coeffs = basis.coeffs.clone();
    let stays = |&i: &usize| coeffs[i].abs() >= drop_tol || protected[i];
    accepted(keep(basis, &entries, (0..len).filter(stays)))
}

pub fn cap_basis(n: usize, len: usize, protected: &[u64], limit: usize, basis: &mut Basis) -> Kept {
    let (entries, protected) = match keeping_tested(n, len, protected, Some(limit), None, basis) {
        Ok(tested) => tested,
        Err(status) => return refused(status),
    };
    clear_work(basis);
    if len <= limit {
        return accepted(len);
    }
    let protected = protection(&entries, &protected);
    let others: Vec<usize> = (0..len).filter(|&i| !protected[i]).collect();
    let slots = limit.saturating_sub(len - others.len());
    let chosen = largest(&basis.coeffs, others, slots);
    let stays = |i: &usize| protected[*i] || chosen.contains(i);
    accepted(keep(basis, &entries, (0..len).filter(stays)))
}

/// The places of listed words that find room.
pub fn admitted(values: &[f64], len: usize, limit: usize) -> BTreeSet<usize> {
    let room = limit.saturating_sub(len);
    largest(values, (0..values.len()).collect(), room)
}

pub fn add_leakage_capped(
    n: usize,
    len: usize,
    list: &[u64],
    values: &[f64],
    limit: usize,
    basis: &mut Basis,
) -> Kept {
    let listed = match admission_tested(n, len, list, values, limit, basis) {
        Ok(listed) => listed,
        Err(status) => return refused(status),
    };
    for table in [&mut basis.order, &mut basis.work, &mut basis.kept] {
        table.fill(0);
    }
    let appended = admitted(values, len, limit);
    let places = (basis.words.len() / WORD_LANES).min(basis.coeffs.len());
    if len + appended.len() > places {
        return refused(refusal(13, LIST_TABLE, places));
    }
    for (more, &place) in appended.iter().enumerate() {
        set_word(&mut basis.words, len + more, listed[place]);
        basis.coeffs[len + more] = 0.0;
    }
    accepted(len + appended.len())
}
