// SPDX-FileCopyrightText: 2026 The PPVM Authors
// SPDX-License-Identifier: Apache-2.0

//! Leakage.

use super::{
    CANNOT, Case, answer, items, list, not_skipped, skipped, standing, standing_of, thinned,
};
use crate::compare::standing::Standing;
use crate::inputs::bases::lanes_of;
use crate::port::Word;
use crate::port::leakages::{Given, LeakRoom, Limits, leakage_sizes, leakage_with_prune};
use crate::published::bases::{RustBasis, rust_words};
use crate::published::leakages::{in_order, listed};
use crate::rules::word_of;

/// Places that are enough for the words touched, held and listed here.
const ENOUGH: [usize; 3] = [8; 3];

/// A basis, and what leakage is asked with beside it.
struct Leak {
    standing: Standing,
    basis: (Word, f64),
    protected: Vec<Word>,
    limit: usize,
    tau_add: Option<f64>,
}

impl Leak {
    /// Out of one word with coefficient 1, with room for one word more.
    fn new(standing: Standing, text: &str) -> Self {
        Self {
            standing,
            basis: (word_of(text.as_bytes()), 1.0),
            protected: Vec::new(),
            limit: 2,
            tau_add: Some(0.0),
        }
    }

    /// What the port answers in tables of so many places.
    fn by_port(&self, [touched, held, listed]: [usize; 3]) -> String {
        let given = Given {
            words: lanes_of(&[self.basis.0]),
            coeffs: vec![self.basis.1],
            len: 1,
            protected: lanes_of(&self.protected),
            limits: Limits {
                max_basis: self.limit,
                tau_given: self.tau_add.is_some().into(),
                tau_add: self.tau_add.unwrap_or_default(),
                ..Limits::default()
            },
        };
        let Standing { model, lent, .. } = &self.standing;
        let sizes = leakage_sizes(model.qubits, 1, self.protected.len(), touched, held);
        let mut room = LeakRoom::of(&sizes, listed);
        let leak = leakage_with_prune(*model, lent, &given, &mut room);
        answer(leak.status, || list(model.qubits, &room.list(leak.count)))
    }

    /// What the Rust lists, in word order.
    fn by_rust(&self) -> Vec<(Word, f64)> {
        let model = self.standing.rust().expect("texts are ASCII");
        let n_qubits = model.n_qubits();
        let basis = RustBasis::new(n_qubits, &[self.basis]);
        let protected = rust_words(n_qubits, &self.protected);
        in_order(&listed(
            &model,
            &basis,
            &protected,
            self.limit,
            self.tau_add.unwrap_or_default(),
        ))
    }

    fn both(&self) -> [String; 2] {
        let rust = list(self.standing.model.qubits, &self.by_rust());
        [self.by_port(ENOUGH), rust]
    }
}

pub fn cases() -> Vec<Case> {
    [differing(), near(), refusals()]
        .into_iter()
        .flatten()
        .collect()
}

/// A turn about Z, of one qubit.
fn turn() -> Standing {
    standing(items(1, &[("Z", 0.5)], &[]))
}

/// Letters on a register of 69 qubits, on which words can have one hash.
fn wide(letters: &[(usize, u8)]) -> String {
    let mut text = [b'I'; 69];
    for &(qubit, letter) in letters {
        text[qubit] = letter;
    }
    String::from_utf8(text.to_vec()).expect("letters are ASCII")
}

fn differing() -> Vec<Case> {
    let two = [("ZI", 0.5), ("IZ", 0.5)];
    let tie = Leak::new(standing(items(2, &two, &[])), "XX");
    let large = Leak {
        basis: (word_of(b"X"), 1.5e308),
        ..Leak::new(standing(items(1, &[("Z", 1.0)], &[])), "X")
    };
    let twin = wide(&[(63, b'X'), (68, b'X')]);
    let twins = items(69, &[(&twin, 0.5)], &[]);
    let of_basis = Leak::new(standing(twins), &wide(&[(63, b'Z')]));
    let first = wide(&[(0, b'Z')]);
    let turned = standing(items(69, &[(&first, 0.5)], &[]));
    let protected = wide(&[(0, b'Y'), (63, b'X'), (68, b'X')]);
    let of_protected = Leak {
        protected: vec![word_of(protected.as_bytes())],
        ..Leak::new(turned, &wide(&[(0, b'X')]))
    };
    let place = "leakage, words of one hash";
    vec![
        Case {
            place: "leakage, tie at the cut",
            input: "H 0.5 (ZI + IZ), basis XX 1, limit 2",
            expected: ["YX −1", "the other of the two words"],
            found: [tie.by_port(ENOUGH), other_of_two(&tie.by_rust())],
        },
        Case {
            place: "leakage, not finite",
            input: "H 1 Z, basis X 1.5e308, limit 2",
            expected: ["14 (0)", "Y −∞"],
            found: large.both(),
        },
        Case {
            place,
            input: "n 69, H 0.5 X63·X68, basis Z63 1, limit 2",
            expected: ["Y63·X68 1", "nothing"],
            found: of_basis.both(),
        },
        Case {
            place,
            input: "n 69, H 0.5 Z0, basis X0 1, protected Y0·X63·X68, limit 2",
            expected: ["Y0 −1", "nothing"],
            found: of_protected.both(),
        },
    ]
}

/// Which one it is, the hash of the stand-in decides.
fn other_of_two(leak: &[(Word, f64)]) -> String {
    match leak {
        [(w, -1.0)] if *w == word_of(b"XY") => "the other of the two words".into(),
        _ => list(2, leak),
    }
}

fn near() -> Vec<Case> {
    let place = "leakage, numbers near a tolerance";
    let leak = |matrix, text: &str| Leak::new(standing_of(matrix), text).both();
    vec![
        Case {
            place,
            input: "the model of thinning, basis IZ 1, limit 2",
            expected: ["XY −3.2e-14", "nothing"],
            found: leak(thinned(), "IZ"),
        },
        Case {
            place,
            input: "that of the skip rule, basis ZZ 1, limit 2",
            expected: ["YY 2.8e-13", "nothing"],
            found: leak(skipped(), "ZZ"),
        },
        Case {
            place,
            input: "that of the skip rule the other way, basis ZZ 1, limit 2",
            expected: ["nothing", "YY 2.1600000000000004e-13"],
            found: leak(not_skipped(), "ZZ"),
        },
    ]
}

fn refusals() -> Vec<Case> {
    let place = "words and places of leakage";
    let x = Leak::new(turn(), "X");
    let outside = Leak::new(turn(), "IX");
    let many = Leak {
        limit: 65_537,
        ..Leak::new(turn(), "X")
    };
    let nan = Leak {
        tau_add: Some(f64::NAN),
        ..Leak::new(turn(), "X")
    };
    let tiny = Leak {
        basis: (word_of(b"X"), 2f64.powi(-40)),
        tau_add: None,
        ..Leak::new(turn(), "X")
    };
    let alone = |leak: &Leak, places: [usize; 3]| [leak.by_port(places), CANNOT.into()];
    vec![
        Case {
            place,
            input: "H 0.5 Z at n 1, basis IX 1, limit 2",
            expected: ["11 (0)", CANNOT],
            found: alone(&outside, ENOUGH),
        },
        Case {
            place,
            input: "H 0.5 Z, basis X 1, limit 2, no places in table 1",
            expected: ["13 (1, 0)", CANNOT],
            found: alone(&x, [0, 8, 8]),
        },
        Case {
            place,
            input: "H 0.5 Z, basis X 1, limit 2, no places in table 2",
            expected: ["13 (2, 0)", CANNOT],
            found: alone(&x, [8, 0, 8]),
        },
        Case {
            place,
            input: "H 0.5 Z, basis X 1, limit 2, no places in table 3",
            expected: ["13 (3, 0)", CANNOT],
            found: alone(&x, [8, 8, 0]),
        },
        Case {
            place: "limits and thresholds of leakage",
            input: "H 0.5 Z, basis X 1, limit 65,537",
            expected: ["8 (65537)", "Y −1"],
            found: many.both(),
        },
        Case {
            place: "limits and thresholds of leakage",
            input: "H 0.5 Z, basis X 1, limit 2, tau_add NaN",
            expected: ["7 (1)", "nothing"],
            found: nan.both(),
        },
        Case {
            place: "absent tau_add",
            input: "H 0.5 Z, basis X 2^−40, limit 2, tau_add absent",
            expected: ["nothing", "Y −9.094947017729282e-13"],
            found: tiny.both(),
        },
    ]
}
