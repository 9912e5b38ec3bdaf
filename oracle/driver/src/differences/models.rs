// SPDX-FileCopyrightText: 2026 The PPVM Authors
// SPDX-License-Identifier: Apache-2.0

//! Models.

use super::{Case, error, items, refused};
use crate::inputs::Rng;
use crate::inputs::models::{Items, lent};
use crate::port::models::{Sizes, build_model, model_sizes};
use crate::published::models::RustItems;

pub fn cases() -> Vec<Case> {
    let jump: (f64, &[&str]) = (1.0, &["X"]);
    let short_of_terms = |sizes| Sizes {
        t_words: 0,
        t_numbers: 0,
        ..sizes
    };
    let short_of_work = |sizes| Sizes {
        work_words: 0,
        work_numbers: 0,
        ..sizes
    };
    vec![
        Case {
            place: "number ranges of models",
            input: "jump X at rate NaN",
            expected: ["7 (0)", "accepted"],
            found: build(items(1, &[], &[(f64::NAN, &["X"])])),
        },
        Case {
            place: "number ranges of models",
            input: "Hamiltonian term X with 2^201",
            expected: ["7 (0)", "accepted"],
            found: build(items(1, &[("X", 2f64.powi(201))], &[])),
        },
        Case {
            place: "counts of models",
            input: "a jump of 17 terms",
            expected: ["8 (17)", "accepted"],
            found: build(items(1, &[], &[(1.0, &["X"; 17])])),
        },
        Case {
            place: "counts of models",
            input: "4,097 Hamiltonian items",
            expected: ["8 (4097)", "accepted"],
            found: build(items(1, &[("X", 1.0); 4097], &[])),
        },
        Case {
            place: "counts of models",
            input: "4,097 jumps",
            expected: ["8 (4097)", "accepted"],
            found: build(items(1, &[], &[jump; 4097])),
        },
        Case {
            place: "capacities",
            input: "one jump X, a terms table without places",
            expected: ["13 (4, 0)", "accepted"],
            found: build_in(items(1, &[], &[jump]), short_of_terms),
        },
        Case {
            place: "lent tables",
            input: "one jump X, empty work tables",
            expected: ["9 (272, 0)", "accepted"],
            found: build_in(items(1, &[], &[jump]), short_of_work),
        },
    ]
}

/// Both build a model, the port in tables that are long enough.
fn build(items: Items) -> [String; 2] {
    build_in(items, |sizes| sizes)
}

/// The same in tables of other lengths.
fn build_in(items: Items, lengths: impl FnOnce(Sizes) -> Sizes) -> [String; 2] {
    let enough = model_sizes(items.hamiltonian.len(), items.jumps.len(), items.longest());
    let mut lent = lent(&mut Rng::new(1), lengths(enough));
    let built = build_model(&items.flat(), items.n_qubits, &mut lent);
    let rust = RustItems::new(&items).expect("texts are ASCII");
    [refused(built.status), error(rust.status())]
}
