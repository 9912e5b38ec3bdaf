// SPDX-FileCopyrightText: 2026 The PPVM Authors
// SPDX-License-Identifier: Apache-2.0

//! The action on a word.

use super::{
    CANNOT, Case, answer, items, list, not_skipped, skipped, standing, standing_of, thinned,
};
use crate::compare::standing::Standing;
use crate::inputs::matrices::Matrix;
use crate::port::WORD_LANES;
use crate::port::actions::{Room, compute_action_terms};
use crate::published::actions as published;
use crate::rules::word_of;

/// Places that are enough for every action here.
const ENOUGH: usize = 8;

pub fn cases() -> Vec<Case> {
    let z = standing(items(1, &[("Z", 0.5)], &[]));
    let alone = |text: &str, touched: usize, listed: usize| {
        let port = by_port(&z, text, touched, listed);
        [port, CANNOT.into()]
    };
    let place = "words and places of actions";
    vec![
        Case {
            place: "thinning, square against hypot",
            input: "XI, (6e-15 + 8e-15 i) IX with K rows (0, 2), (2, 0), on IZ",
            expected: ["XY −3.2e-14", "nothing"],
            found: act(thinned(), "IZ"),
        },
        Case {
            place: "skip rule, seen by the action",
            input: "XI, IX with K rows (7, 7e-14), (7e-14, 0), on ZZ",
            expected: ["ZZ −14, YY 2.8e-13", "ZZ −14"],
            found: act(skipped(), "ZZ"),
        },
        Case {
            place: "skip rule, seen by the action, the other way",
            input: "XI, IX with K rows (9, 5.400000000000001e-14 + 7.2e-14 i), (its conjugate, 0), \
                    on ZZ",
            expected: ["ZZ −18", "ZZ −18, YY 2.1600000000000004e-13"],
            found: act(not_skipped(), "ZZ"),
        },
        Case {
            place,
            input: "H 0.5 Z at n 1, on IX",
            expected: ["11 (0)", CANNOT],
            found: alone("IX", ENOUGH, ENOUGH),
        },
        Case {
            place,
            input: "H 0.5 Z on X, no places in table 1",
            expected: ["13 (1, 0)", CANNOT],
            found: alone("X", 0, ENOUGH),
        },
        Case {
            place,
            input: "H 0.5 Z on X, no places in table 3",
            expected: ["13 (3, 0)", CANNOT],
            found: alone("X", ENOUGH, 0),
        },
    ]
}

/// The port's action in tables of so many places.
fn by_port(standing: &Standing, text: &str, touched: usize, listed: usize) -> String {
    let mut room = Room {
        work_words: vec![0; WORD_LANES * touched],
        work_sums: vec![0.0; 2 * touched],
        out_words: vec![0; WORD_LANES * listed],
        out_values: vec![0.0; listed],
    };
    let p = word_of(text.as_bytes());
    let Standing { model, lent, .. } = standing;
    let terms = compute_action_terms(*model, lent, p, &mut room);
    answer(terms.status, || list(model.qubits, &room.list(terms.count)))
}

fn act(matrix: Matrix, text: &str) -> [String; 2] {
    let standing = standing_of(matrix);
    let model = standing.rust().expect("texts are ASCII");
    let terms = published::compute_action_terms(&model, word_of(text.as_bytes()));
    [
        by_port(&standing, text, ENOUGH, ENOUGH),
        list(model.n_qubits(), &terms),
    ]
}
