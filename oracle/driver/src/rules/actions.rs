// SPDX-FileCopyrightText: 2026 The PPVM Authors
// SPDX-License-Identifier: Apache-2.0

//! The action of a lent model on a word: the rules over what is stored.

use super::models::{
    Answer, Complex, Sums, Term, at_most, conjugate, equal, lent_places, phase_factor, refuse,
    tested, times,
};
use super::{comm_product, fits_register, pauli_mul, refusal, shares_qubit};
use crate::port::actions::{CountRoom, Counted, Listed, Room};
use crate::port::models::{Lent, Model};
use crate::port::{Status, WORD_LANES, Word, set_word, word_at};
use std::ops::Range;

/// The tables of words touched and of entries listed, as 13 names them.
pub(super) const SUMS_TABLE: usize = 1;
pub(super) const LIST_TABLE: usize = 3;

/// The most words of one list, and the lanes of an index for each qubit.
pub const MAX_WORDS: usize = 65_536;
pub const ROW_LANES: usize = 64;

/// Real and imaginary parts of at most this are left out of an off-diagonal pair's product.
const SLIGHT: f64 = 1e-14;

/// What an entry of the table of jumps and pairs holds.
enum Jump {
    Pauli {
        word: Word,
        rate: f64,
    },
    General {
        rate: f64,
        terms: Vec<Term>,
        product: Vec<Term>,
    },
    Pair {
        left: Vec<Term>,
        right: Vec<Term>,
        factors: Vec<Term>,
        product: Vec<Term>,
        diagonal: bool,
    },
}

fn jump(lent: &Lent, place: usize) -> Jump {
    let entry: [u64; 8] = std::array::from_fn(|i| lent.jumps[8 * place + i]);
    let [
        kind,
        left,
        left_end,
        right,
        right_end,
        factors,
        product,
        end,
    ] = entry.map(|n| n as usize);
    let terms = |range: Range<usize>| -> Vec<Term> {
        let number = |i: usize| (lent.t_numbers[2 * i], lent.t_numbers[2 * i + 1]);
        let term = |i| Term {
            word: word_at(&lent.t_words, i),
            number: number(i),
        };
        range.map(term).collect()
    };
    let rate = lent.rates[place];
    match kind {
        0 => Jump::Pauli {
            word: word_at(&lent.t_words, left),
            rate,
        },
        1 => Jump::General {
            rate,
            terms: terms(left..left_end),
            product: terms(product..end),
        },
        _ => Jump::Pair {
            left: terms(left..left_end),
            right: terms(right..right_end),
            factors: terms(factors..factors + (left_end - left) * (right_end - right)),
            product: terms(product..end),
            diagonal: (left, left_end) == (right, right_end),
        },
    }
}

fn overlaps(terms: &[Term], p: Word) -> bool {
    terms.iter().any(|term| shares_qubit(term.word, p))
}

/// The product of a, p and b.
fn between(a: Word, p: Word, b: Word) -> (Word, Complex) {
    let left = pauli_mul(a, p);
    let whole = pauli_mul(left.word, b);
    (whole.word, phase_factor(left.phase + whole.phase))
}

/// The word of c·p, with the sign where the phase is even.
fn signed(c: Word, p: Word) -> Option<(Word, f64)> {
    let onto = pauli_mul(c, p);
    match onto.phase {
        0 => Some((onto.word, 1.0)),
        2 => Some((onto.word, -1.0)),
        _ => None,
    }
}

fn add_hamiltonian(sums: &mut Sums, h: Word, coefficient: f64, p: Word) {
    let onto = comm_product(h, p);
    if shares_qubit(h, p) && onto.eps != 0.0 {
        sums.add(onto.word, (coefficient * onto.eps, 0.0));
    }
}

fn add_jump(sums: &mut Sums, jump: &Jump, p: Word) {
    match jump {
        Jump::Pauli { word, rate } => {
            if shares_qubit(*word, p) && pauli_mul(*word, p).phase % 2 == 1 {
                sums.add(p, (-2.0 * rate, 0.0));
            }
        }
        Jump::General {
            rate,
            terms,
            product,
        } => {
            if !overlaps(terms, p) {
                return;
            }
            let rate = (*rate, 0.0);
            for a in terms {
                for b in terms {
                    let (word, unit) = between(a.word, p, b.word);
                    let number = times(conjugate(a.number), b.number);
                    sums.add(word, times(times(number, unit), rate));
                }
            }
            for c in product {
                if let Some((word, sign)) = signed(c.word, p) {
                    let number = times((-c.number.0, -c.number.1), rate);
                    sums.add(word, times(number, (sign, 0.0)));
                }
            }
        }
        Jump::Pair { .. } => {}
    }
}

fn add_pair(sums: &mut Sums, jump: &Jump, p: Word) {
    let Jump::Pair {
        left,
        right,
        factors,
        product,
        diagonal,
    } = jump
    else {
        return;
    };
    match (overlaps(left, p), overlaps(right, p)) {
        (true, true) => {
            for (i, factor) in factors.iter().enumerate() {
                let a = left[i / right.len()].word;
                let (word, unit) = between(a, p, factor.word);
                let number = times(factor.number, unit);
                let twice = (2.0 * number.0, 0.0);
                sums.add(word, if *diagonal { number } else { twice });
            }
            for c in product {
                let Some((word, sign)) = signed(c.word, p) else {
                    continue;
                };
                if *diagonal {
                    let (re, im) = times(c.number, (sign, 0.0));
                    sums.add(word, (-re, -im));
                } else if c.number.0.abs() > SLIGHT {
                    sums.add(word, (-(2.0 * c.number.0 * sign), 0.0));
                }
            }
        }
        (false, false) => {}
        (_, right_only) => {
            for c in product.iter().filter(|c| c.number.1.abs() > SLIGHT) {
                let onto = comm_product(c.word, p);
                let imaginary = if right_only { -c.number.1 } else { c.number.1 };
                if onto.eps != 0.0 {
                    sums.add(onto.word, (imaginary * onto.eps, 0.0));
                }
            }
        }
    }
}

/// The sums of an action, zero ones included.
fn sums(model: Model, lent: &Lent, p: Word) -> Answer<Vec<Term>> {
    tested(model, lent)?;
    if !fits_register(p, model.qubits) {
        return refuse(11, 0, 0);
    }
    Ok(tested_sums(model, lent, &jumps(model, lent), p))
}

fn jumps(model: Model, lent: &Lent) -> Vec<Jump> {
    (0..model.jumps).map(|place| jump(lent, place)).collect()
}

/// The same of a model that passed the test, with its jumps.
fn tested_sums(model: Model, lent: &Lent, jumps: &[Jump], p: Word) -> Vec<Term> {
    let mut sums = Sums::default();
    for i in 0..model.hamiltonian {
        add_hamiltonian(&mut sums, word_at(&lent.h_words, i), lent.h_coeffs[i], p);
    }
    for add in [add_jump, add_pair] {
        for jump in jumps {
            add(&mut sums, jump, p);
        }
    }
    sums.terms()
}

fn is_listed(term: &Term) -> bool {
    term.number.0 != 0.0
}

/// How many words there are, and how many of them are listed.
fn counts(sums: &[Term]) -> (usize, usize) {
    let listed = sums.iter().filter(|term| is_listed(term)).count();
    (sums.len(), listed)
}

/// How many words the action on each of these touches, and what it lists, the model tested and the
/// words inside its register.
pub(super) fn acts(model: Model, lent: &Lent, words: &[Word]) -> Vec<(usize, Vec<(Word, f64)>)> {
    let jumps = jumps(model, lent);
    let act = |&p: &Word| {
        let sums = tested_sums(model, lent, &jumps, p);
        let listed = sums.iter().filter(|term| is_listed(term));
        let list = listed.map(|term| (term.word, term.number.0)).collect();
        (sums.len(), list)
    };
    words.iter().map(act).collect()
}

/// How many words an action touches, and how many it lists.
pub fn places(model: Model, lent: &Lent, p: Word) -> Option<(usize, usize)> {
    Some(counts(&sums(model, lent, p).ok()?))
}

pub(super) fn sum_places(words: &[u64], sums: &[f64]) -> usize {
    (words.len() / WORD_LANES).min(sums.len() / 2)
}

pub fn compute_action_terms(model: Model, lent: &Lent, p: Word, room: &mut Room) -> Listed {
    let refused = |status| Listed { status, count: 0 };
    let sums = match sums(model, lent, p) {
        Ok(sums) => sums,
        Err(status) => return refused(status),
    };
    let sum_places = sum_places(&room.work_words, &room.work_sums);
    let list_places = (room.out_words.len() / WORD_LANES).min(room.out_values.len());
    room.work_words.fill(0);
    room.work_sums.fill(0.0);
    if sums.len() > sum_places {
        return refused(refusal(13, SUMS_TABLE, sum_places));
    }
    let listed: Vec<&Term> = sums.iter().filter(|term| is_listed(term)).collect();
    if listed.len() > list_places {
        return refused(refusal(13, LIST_TABLE, list_places));
    }
    for (place, term) in listed.iter().enumerate() {
        set_word(&mut room.out_words, place, term.word);
        room.out_values[place] = term.number.0;
    }
    Listed {
        status: Status::default(),
        count: listed.len(),
    }
}

/// The places that a table needs for so many words: none where there is none that could use one.
pub(super) fn where_any(words: usize, places: usize) -> usize {
    if words == 0 { 0 } else { places }
}

/// All tests of counting but 13.
fn counted(model: Model, lent: &Lent, words: &[u64], room: &CountRoom) -> Answer<Vec<Word>> {
    tested(model, lent)?;
    let count = words.len() / WORD_LANES;
    at_most(MAX_WORDS, count)?;
    equal(WORD_LANES * count, words.len())?;
    let rows = where_any(count, ROW_LANES * model.qubits);
    lent_places(rows, room.h_index.len())?;
    lent_places(rows, room.j_index.len())?;
    lent_places(where_any(count, ROW_LANES), room.mask.len())?;
    let words: Vec<Word> = (0..count).map(|i| word_at(words, i)).collect();
    let outside = |p: &Word| !fits_register(*p, model.qubits);
    match words.iter().position(outside) {
        Some(position) => refuse(11, position, 0),
        None => Ok(words),
    }
}

/// The most words that one of the actions touches, and the most that one lists.
pub fn count_action_terms(
    model: Model,
    lent: &Lent,
    words: &[u64],
    room: &mut CountRoom,
) -> Counted {
    let refused = |status| Counted {
        status,
        ..Counted::default()
    };
    let words = match counted(model, lent, words, room) {
        Ok(words) => words,
        Err(status) => return refused(status),
    };
    for table in [
        &mut room.h_index,
        &mut room.j_index,
        &mut room.mask,
        &mut room.work_words,
    ] {
        table.fill(0);
    }
    room.work_sums.fill(0.0);
    let (mut touched, mut listed) = (0, 0);
    let jumps = jumps(model, lent);
    for p in words {
        let counts = counts(&tested_sums(model, lent, &jumps, p));
        (touched, listed) = (touched.max(counts.0), listed.max(counts.1));
    }
    let places = sum_places(&room.work_words, &room.work_sums);
    if touched > places {
        return refused(refusal(13, SUMS_TABLE, places));
    }
    Counted {
        status: Status::default(),
        touched,
        listed,
    }
}
