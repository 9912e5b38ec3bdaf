// SPDX-FileCopyrightText: 2026 The PPVM Authors
// SPDX-License-Identifier: Apache-2.0

//! Matrices, added to a model without items.

use super::{
    Case, ONE, PLAIN, ZERO, answer, error, items, matrix, not_skipped, skipped, standing, two_rows,
};
use crate::compare::standing::Standing;
use crate::inputs::Rng;
use crate::inputs::matrices::{Matrix, enough};
use crate::port::matrices::add_kossakowski;
use crate::port::models::matrix_sizes;
use crate::published::matrices::RustMatrix;
use crate::rules::models::Complex;

pub fn cases() -> Vec<Case> {
    let near = (-4.5254833995939045e-10, 3.3941125496954293e-10);
    let three = [("XI", ONE), ("IX", ONE), ("ZZ", ONE)];
    let last = [(4.0, -4.0), (3.0, -4.0), (-3.0, 0.0)];
    let k: [&[Complex]; 3] = [
        &[(-1.0, 0.0), ZERO, (4.0, 4.0)],
        &[near, ZERO, (4.0, 3.0)],
        &last,
    ];
    let eleven = (11.0, 0.0);
    vec![
        Case {
            place: "Hermitian test, square against hypot",
            input: "XI with K (11 + 5.500000000000001e-10 i)",
            expected: ["10 (0, 0)", "accepted, 1 pair"],
            found: add(matrix(&PLAIN[..1], &[&[(11.0, 5.500000000000001e-10)]])),
        },
        Case {
            place: "Hermitian test, two operators",
            input: "XI, IX with K rows (11, 1.1000000000000001e-9 i), (0, 11)",
            expected: ["10 (0, 1)", "accepted, 3 pairs"],
            found: add(matrix(
                &PLAIN,
                &[&[eleven, (0.0, 1.1000000000000001e-9)], &[ZERO, eleven]],
            )),
        },
        Case {
            place: "Hermitian test, the other way",
            input: "XI, IX with K rows (9, 5.4e-10 + 7.200000000000001e-10 i), (0, 0)",
            expected: ["accepted, 2 pairs", "refused at (0, 1)"],
            found: add(matrix(
                &PLAIN,
                &[&[(9.0, 0.0), (5.4e-10, 7.200000000000001e-10)], &[ZERO; 2]],
            )),
        },
        Case {
            place: "Hermitian test, at another place",
            input: "XI, IX, ZZ with K rows (−1, 0, 4 + 4i), (−4.5254833995939045e-10 + \
                    3.3941125496954293e-10 i, 0, 4 + 3i), (4 − 4i, 3 − 4i, −3)",
            expected: ["10 (0, 1)", "refused at (1, 2)"],
            found: add(matrix(&three, &k)),
        },
        Case {
            place: "skip rule, square against hypot",
            input: "XI, IX with K rows (1, 6e-15 + 8e-15 i), (its conjugate, 0)",
            expected: ["accepted, 2 pairs", "accepted, 1 pair"],
            found: add(two_rows(PLAIN, 1.0, (6e-15, 8e-15))),
        },
        Case {
            place: "skip rule, square against hypot",
            input: "XI, IX with K rows (7, 7e-14), (7e-14, 0)",
            expected: ["accepted, 2 pairs", "accepted, 1 pair"],
            found: add(skipped()),
        },
        Case {
            place: "skip rule, the other way",
            input: "XI, IX with K rows (9, 5.400000000000001e-14 + 7.2e-14 i), (its conjugate, 0)",
            expected: ["accepted, 1 pair", "accepted, 2 pairs"],
            found: add(not_skipped()),
        },
        Case {
            place: "flat K",
            input: "no operators, a K of one empty row",
            expected: ["accepted, 0 pairs", "refused: rows of wrong lengths"],
            found: add(matrix(&[], &[&[]])),
        },
        Case {
            place: "flat K",
            input: "XI, IX with K rows (1), (i, −i, 1)",
            expected: ["accepted, 3 pairs", "refused: rows of wrong lengths"],
            found: add(matrix(&PLAIN, &[&[ONE], &[(0.0, 1.0), (0.0, -1.0), ONE]])),
        },
    ]
}

fn pairs(count: usize) -> String {
    let ending = if count == 1 { "" } else { "s" };
    format!("accepted, {count} pair{ending}")
}

fn add(matrix: Matrix) -> [String; 2] {
    let empty = standing(items(2, &[], &[]));
    let sizes = matrix_sizes(matrix.operators.len(), matrix.longest());
    let sizes = enough(empty.model, sizes);
    let Standing {
        model, mut lent, ..
    } = empty.with_room(&mut Rng::new(1), sizes);
    let port = add_kossakowski(model, &matrix.flat(), &mut lent);

    let mut rust = empty.rust().expect("texts are ASCII");
    let asked = RustMatrix::new(&matrix).expect("texts are ASCII");
    let added = asked.add(&mut rust);
    let rust = match &added {
        Ok(()) => pairs(rust.num_jump_terms()),
        Err(_) => error(asked.status(&added, 2)),
    };
    [answer(port.status, || pairs(port.model.jumps)), rust]
}
