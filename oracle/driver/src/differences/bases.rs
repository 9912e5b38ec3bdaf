// SPDX-FileCopyrightText: 2026 The PPVM Authors
// SPDX-License-Identifier: Apache-2.0

//! Prune, cap and admission, on one qubit.

use super::{CANNOT, Case, answer, list};
use crate::inputs::bases::lanes_of;
use crate::port::bases::{Basis, Kept, add_leakage_capped, cap_basis, prune_basis};
use crate::port::{WORD_LANES, Word};
use crate::published::bases::RustBasis;
use crate::rules::word_of;

/// The lengths of work tables, enough for every call here.
const ENOUGH: usize = 8;

pub fn cases() -> Vec<Case> {
    let x = [(word_of(b"X"), 1.0)];
    let outside = [(word_of(b"IX"), 1.0)];
    let three = [
        (word_of(b"X"), 1.0),
        (word_of(b"Y"), 2.0),
        (word_of(b"Z"), 3.0),
    ];
    let place = "words and places of bases";
    vec![
        Case {
            place: "prune at NaN",
            input: "basis X 1, drop_tol NaN",
            expected: ["7 (1)", "an empty basis"],
            found: prune(&x, f64::NAN),
        },
        Case {
            place: "numbers of a basis",
            input: "basis X NaN, prune at 1",
            expected: ["7 (0)", "an empty basis"],
            found: prune(&[(word_of(b"X"), f64::NAN)], 1.0),
        },
        Case {
            place: "word limits",
            input: "basis X 1, cap at 65,537",
            expected: ["8 (65537)", "X 1"],
            found: cap(&x, 65_537),
        },
        Case {
            place: "admission beyond room, order",
            input: "listed X 1, Y 2, Z 3, empty basis, limit 2",
            expected: ["Y 0, Z 0", "Z 0, Y 0"],
            found: admit(&three, 2, 2),
        },
        Case {
            place,
            input: "n 1, basis IX 1, prune at 1",
            expected: ["11 (0)", CANNOT],
            found: [prune_in(&outside, 1.0, ENOUGH), CANNOT.into()],
        },
        Case {
            place,
            input: "basis X 1, prune at 1, empty work tables",
            expected: ["9 (1, 0)", CANNOT],
            found: [prune_in(&x, 1.0, 0), CANNOT.into()],
        },
        Case {
            place,
            input: "listed X 1, empty basis without places, limit 1",
            expected: ["13 (3, 0)", CANNOT],
            found: [admit_in(&x, 1, 0), CANNOT.into()],
        },
    ]
}

/// A basis in so many places, and work tables of one length.
fn lent(entries: &[(Word, f64)], places: usize, work: usize) -> Basis {
    let (words, mut coeffs): (Vec<Word>, Vec<f64>) = entries.iter().copied().unzip();
    let mut words = lanes_of(&words);
    words.resize(WORD_LANES * places, 0);
    coeffs.resize(places, 0.0);
    let work = || vec![0; work];
    Basis {
        words,
        coeffs,
        order: work(),
        work: work(),
        fixed: work(),
        kept: work(),
    }
}

/// A basis afterwards.
fn left(entries: &[(Word, f64)]) -> String {
    match entries {
        [] => "an empty basis".into(),
        _ => list(1, entries),
    }
}

fn by_port(kept: Kept, basis: &Basis) -> String {
    answer(kept.status, || left(&basis.entries(kept.entries)))
}

fn prune_in(entries: &[(Word, f64)], drop_tol: f64, work: usize) -> String {
    let mut basis = lent(entries, entries.len(), work);
    let kept = prune_basis(1, entries.len(), &[], drop_tol, &mut basis);
    by_port(kept, &basis)
}

fn prune(entries: &[(Word, f64)], drop_tol: f64) -> [String; 2] {
    let mut rust = RustBasis::new(1, entries);
    rust.prune(drop_tol, &[]);
    [prune_in(entries, drop_tol, ENOUGH), left(&rust.entries())]
}

fn cap(entries: &[(Word, f64)], limit: usize) -> [String; 2] {
    let mut basis = lent(entries, entries.len(), ENOUGH);
    let kept = cap_basis(1, entries.len(), &[], limit, &mut basis);
    let mut rust = RustBasis::new(1, entries);
    rust.cap(limit, &[]);
    [by_port(kept, &basis), left(&rust.entries())]
}

/// Admission to an empty basis of so many places.
fn admit_in(listed: &[(Word, f64)], limit: usize, places: usize) -> String {
    let (words, values): (Vec<Word>, Vec<f64>) = listed.iter().copied().unzip();
    let mut basis = lent(&[], places, ENOUGH);
    let kept = add_leakage_capped(1, 0, &lanes_of(&words), &values, limit, &mut basis);
    by_port(kept, &basis)
}

fn admit(listed: &[(Word, f64)], limit: usize, places: usize) -> [String; 2] {
    let mut rust = RustBasis::new(1, &[]);
    rust.admit(1, listed, limit);
    [admit_in(listed, limit, places), left(&rust.entries())]
}
