// SPDX-FileCopyrightText: 2026 The PPVM Authors
// SPDX-License-Identifier: Apache-2.0

//! The generator over a basis, its norm and its products.

use super::{
    CANNOT, Case, answer, items, not_skipped, number, numbers, refused, skipped, standing,
    standing_of, thinned,
};
use crate::compare::standing::Standing;
use crate::inputs::bases::lanes_of;
use crate::inputs::models::Items;
use crate::port::Word;
use crate::port::generators::{GeneratorRoom, build_csr, generator, generator_sizes};
use crate::port::norms::{self as port, NormRoom};
use crate::port::products::{Csr, ProductRoom, dot};
use crate::published::generators::RustGenerator;
use crate::published::models::RustModel;
use crate::published::norms::{self as published, has_norm, partition};
use crate::rules::models::Complex;
use crate::rules::norms::Pair;
use crate::rules::word_of;
use ppvm_lindblad::open::{Product, Questions};

/// Places that are enough for every call here.
const ENOUGH: usize = 8;

/// A model and the words of a basis.
struct Over {
    standing: Standing,
    words: Vec<Word>,
}

impl Over {
    fn new(standing: Standing, texts: &[&str]) -> Self {
        let words = texts.iter().map(|text| word_of(text.as_bytes()));
        Self {
            standing,
            words: words.collect(),
        }
    }

    fn rust(&self) -> RustModel {
        self.standing.rust().expect("texts are ASCII")
    }

    fn room(&self, touched: usize, entries: usize) -> GeneratorRoom {
        let (n_qubits, len) = (self.standing.model.qubits, self.words.len());
        let sizes = generator_sizes(n_qubits, len, touched, entries);
        GeneratorRoom::of(&sizes, len, entries)
    }

    /// The port's generator in tables of so many places.
    fn by_port(&self, touched: usize, entries: usize) -> String {
        let Standing { model, lent, .. } = &self.standing;
        let mut room = self.room(touched, entries);
        let words = lanes_of(&self.words);
        let listed = generator(*model, lent, &words, self.words.len(), &mut room);
        let entry = |i: usize| {
            (
                room.rows[i] as usize,
                room.columns[i] as usize,
                room.values[i],
            )
        };
        let entries = || (0..listed.count).map(entry).collect::<Vec<_>>();
        answer(listed.status, || list(&entries()))
    }

    /// Both generators, by column, then word.
    fn generators(&self) -> [String; 2] {
        let model = self.rust();
        let entries = RustGenerator::new(&model, &self.words).entries();
        let entries: Vec<_> = entries.iter().map(|e| (e.row, e.column, e.value)).collect();
        [self.by_port(ENOUGH, ENOUGH), list(&entries)]
    }

    /// The tables for a norm, with so many places for the numbers of columns.
    fn norm_room(&self, columns: usize) -> NormRoom {
        NormRoom::of(&self.room(ENOUGH, 0).lengths(), columns)
    }

    /// The port's norm, with so many places for the numbers of columns.
    fn norm(&self, columns: usize) -> port::Normed {
        let Standing { model, lent, .. } = &self.standing;
        let (words, len) = (lanes_of(&self.words), self.words.len());
        port::norm(*model, lent, &words, len, &mut self.norm_room(columns))
    }

    /// Both degrees for a step.
    fn degrees(&self, dt: f64) -> [String; 2] {
        let Standing { model, lent, .. } = &self.standing;
        let (words, len) = (lanes_of(&self.words), self.words.len());
        let mut room = self.norm_room(len);
        let found = port::expm_degree(*model, lent, &words, len, (dt, 0.0), &mut room);
        let (m, s) = (found.m, found.s);
        let rust_model = self.rust();
        let seen = partition(&RustGenerator::new(&rust_model, &self.words), dt, 0.0);
        let (_, rust) = seen.expect("there are words");
        [answer(found.status, || pair(Pair { m, s })), pair(rust)]
    }

    /// Both norms. That of the Rust shows in nothing but the degree, so it is only asked whether it is
    /// the one that is expected.
    fn norms(&self, expected: f64) -> [String; 2] {
        let normed = self.norm(self.words.len());
        let model = self.rust();
        let generator = RustGenerator::new(&model, &self.words);
        let text = |norm: f64| format!("norm {}", number(norm));
        let rust = match has_norm(&generator, expected) {
            Some(true) => text(expected),
            _ => "another norm".into(),
        };
        [answer(normed.status, || text(normed.norm)), rust]
    }

    /// Both products with the matrix by rows.
    fn products(&self, input: &[f64]) -> [String; 2] {
        let Standing { model, lent, .. } = &self.standing;
        let mut room = self.room(ENOUGH, ENOUGH);
        let words = lanes_of(&self.words);
        let built = build_csr(*model, lent, &words, self.words.len(), &mut room);
        assert_eq!(built.status.refusal, 0, "the basis is accepted");
        room.columns.truncate(built.count);
        room.values.truncate(built.count);
        let csr = Csr {
            rows: self.words.len(),
            offsets: room.offsets,
            columns: room.columns,
            values: room.values,
        };
        let model = self.rust();
        let questions = Questions {
            products: vec![Product {
                input: input.to_vec(),
                start: None,
            }],
            entries: false,
        };
        let seen = RustGenerator::new(&model, &self.words).exponential(1.0, 0.0, questions);
        let rust = seen.expect("there are words").products;
        [multiply(&csr, input), numbers(&rust[0])]
    }
}

/// The port's product.
fn multiply(csr: &Csr, input: &[f64]) -> String {
    let mut room = ProductRoom {
        output: vec![0.0; input.len()],
        work: vec![0.0; input.len()],
    };
    let status = dot(csr, input, true, &mut room);
    answer(status, || numbers(&room.output))
}

/// Entries, each by its row, its column and its value.
fn list(entries: &[(usize, usize, f64)]) -> String {
    let entry =
        |&(row, column, x): &(usize, usize, f64)| format!("({row}, {column}, {})", number(x));
    match entries {
        [] => "no entries".into(),
        _ => entries.iter().map(entry).collect::<Vec<_>>().join(", "),
    }
}

pub fn cases() -> Vec<Case> {
    [differing(), above_the_ceiling(), near(), refusals()]
        .into_iter()
        .flatten()
        .collect()
}

/// Jumps (X + iY)/2 on three qubits, at these rates.
fn three_decays(rates: [f64; 3]) -> Items {
    let term = |text: &str, x: Complex| (text.as_bytes().to_vec(), x);
    let decay = |rate, x, y| (rate, vec![term(x, (0.5, 0.0)), term(y, (0.0, 0.5))]);
    let [first, second, third] = rates;
    Items {
        jumps: vec![
            decay(first, "XII", "YII"),
            decay(second, "IXI", "IYI"),
            decay(third, "IIX", "IIY"),
        ],
        ..items(3, &[], &[])
    }
}

fn differing() -> Vec<Case> {
    let again = Over::new(standing(items(1, &[], &[(0.25, &["Z"])])), &["X", "X"]);
    let all = ["III", "ZII", "IZI", "ZZI", "IIZ", "ZIZ", "IZZ", "ZZZ"];
    let sums = Over::new(standing(three_decays([0.1, 0.3, 0.2])), &all);
    let outside = Over::new(standing(items(1, &[("Z", 0.5)], &[])), &["X"]);
    let turn = Over::new(standing(items(1, &[("Z", 1.0)], &[])), &["X", "Y"]);
    vec![
        Case {
            place: "repeated basis word",
            input: "generator over X, X, jump Z at rate 0.25",
            expected: ["12 (1)", "(1, 0, −0.5), (1, 1, −0.5)"],
            found: again.generators(),
        },
        Case {
            place: "raw's adding order",
            input: "jumps (X + iY)/2 on three qubits at rates 0.1, 0.3, 0.2, basis of the eight words of I and Z",
            expected: ["norm 0.8999999999999999", "norm 0.9000000000000001"],
            found: sums.norms(0.9000000000000001),
        },
        Case {
            place: "norm where words leave the basis",
            input: "H 0.5 Z, basis X",
            expected: ["norm 0", "norm 1"],
            found: outside.norms(1.0),
        },
        Case {
            place: "product, not finite",
            input: "H 1 Z over X, Y, input (1.5e308, 0)",
            expected: ["14 (1)", "(0, −∞)"],
            found: turn.products(&[1.5e308, 0.0]),
        },
    ]
}

/// A degree.
fn pair(pair: Pair) -> String {
    format!("({}, {})", pair.m, pair.s)
}

/// Both degrees for a norm.
fn degrees(t: f64, drop_tol: f64) -> [String; 2] {
    let found = port::select_ms(t, drop_tol);
    let (m, s) = (found.m, found.s);
    let port = answer(found.status, || pair(Pair { m, s }));
    [port, pair(published::select_ms(t, drop_tol))]
}

fn above_the_ceiling() -> Vec<Case> {
    let place = "a ceiling on products";
    let turn = Over::new(standing(items(1, &[("Z", 0.5)], &[])), &["X", "Y"]);
    vec![
        Case {
            place,
            input: "the degree for the norm 123730.08000000002",
            expected: ["16 (30, 34953)", "(30, 34953)"],
            found: degrees(123730.08f64.next_up(), 0.0),
        },
        Case {
            place,
            input: "the degree for the norm 238722.16000000003 at drop_tol 1e-4",
            expected: ["16 (30, 34953)", "(30, 34953)"],
            found: degrees(238722.16f64.next_up(), 1e-4),
        },
        Case {
            place,
            input: "the degree for an infinite norm",
            expected: ["16 (1, 4294967295)", "(1, 4294967295)"],
            found: degrees(f64::INFINITY, 0.0),
        },
        Case {
            place,
            input: "the degree of H 0.5 Z over X, Y for dt 1e6",
            expected: ["16 (30, 282486)", "(30, 282486)"],
            found: turn.degrees(1e6),
        },
    ]
}

/// The models of the action, over the word that they act on and the word that only one side lists. With thinning both
/// have one norm: that of the other column.
fn near() -> Vec<Case> {
    let over = |matrix, texts: &[&str]| Over::new(standing_of(matrix), texts);
    let thin = over(thinned(), &["IZ", "XY"]);
    let skip = over(skipped(), &["ZZ", "YY"]);
    let other = over(not_skipped(), &["ZZ", "YY"]);
    let (generator, norm, product) = (
        "generator near a tolerance",
        "norm near a tolerance",
        "product near a tolerance",
    );
    vec![
        Case {
            place: generator,
            input: "the model of thinning over IZ, XY",
            expected: ["(1, 0, −3.2e-14), (0, 1, 3.2e-14)", "(0, 1, 3.2e-14)"],
            found: thin.generators(),
        },
        Case {
            place: generator,
            input: "that of the skip rule over ZZ, YY",
            expected: [
                "(0, 0, −14), (1, 0, 2.8e-13), (0, 1, 2.8e-13), (1, 1, −14)",
                "(0, 0, −14), (1, 1, −14)",
            ],
            found: skip.generators(),
        },
        Case {
            place: generator,
            input: "that of the skip rule the other way over ZZ, YY",
            expected: [
                "(0, 0, −18), (1, 1, −18)",
                "(0, 0, −18), (1, 0, 2.1600000000000004e-13), (0, 1, 2.1600000000000004e-13), \
                 (1, 1, −18)",
            ],
            found: other.generators(),
        },
        Case {
            place: norm,
            input: "the model of the skip rule over ZZ, YY",
            expected: ["norm 2.8066438062523957e-13", "norm 0"],
            found: skip.norms(0.0),
        },
        Case {
            place: norm,
            input: "that of the skip rule the other way over ZZ, YY",
            expected: ["norm 0", "norm 2.1671553440683056e-13"],
            found: other.norms(2.1671553440683056e-13),
        },
        Case {
            place: product,
            input: "the model of thinning over IZ, XY, input (1, 0)",
            expected: ["(0, −3.2e-14)", "(0, 0)"],
            found: thin.products(&[1.0, 0.0]),
        },
        Case {
            place: product,
            input: "that of the skip rule over ZZ, YY, input (1, 0)",
            expected: ["(−14, 2.8e-13)", "(−14, 0)"],
            found: skip.products(&[1.0, 0.0]),
        },
        Case {
            place: product,
            input: "that of the skip rule the other way over ZZ, YY, input (1, 0)",
            expected: ["(−18, 0)", "(−18, 2.1600000000000004e-13)"],
            found: other.products(&[1.0, 0.0]),
        },
    ]
}

fn refusals() -> Vec<Case> {
    let place = "words and places of generators, norms and products";
    let turn = || standing(items(1, &[("Z", 0.5)], &[]));
    let xy = Over::new(turn(), &["X", "Y"]);
    let outside = Over::new(turn(), &["X", "IX"]);
    let csr = |offsets: [u64; 2], column: u32, value: f64| Csr {
        rows: 1,
        offsets: offsets.to_vec(),
        columns: vec![column],
        values: vec![value],
    };
    let alone = |port: String| [port, CANNOT.into()];
    vec![
        Case {
            place,
            input: "generator of H 0.5 Z at n 1 over X, IX",
            expected: ["11 (1)", CANNOT],
            found: alone(outside.by_port(ENOUGH, ENOUGH)),
        },
        Case {
            place,
            input: "generator of H 0.5 Z over X, Y, no places in table 1",
            expected: ["13 (1, 0)", CANNOT],
            found: alone(xy.by_port(0, ENOUGH)),
        },
        Case {
            place,
            input: "generator of H 0.5 Z over X, Y, no places in table 3",
            expected: ["13 (3, 0)", CANNOT],
            found: alone(xy.by_port(ENOUGH, 0)),
        },
        Case {
            place,
            input: "norm of H 0.5 Z over X, Y, work tables for one word",
            expected: ["9 (2, 1)", CANNOT],
            found: alone(refused(xy.norm(1).status)),
        },
        Case {
            place,
            input: "product with one row, offsets 1, 1",
            expected: ["7 (0)", CANNOT],
            found: alone(multiply(&csr([1, 1], 0, 1.0), &[1.0])),
        },
        Case {
            place,
            input: "product with one row, column 1",
            expected: ["7 (0)", CANNOT],
            found: alone(multiply(&csr([0, 1], 1, 1.0), &[1.0])),
        },
        Case {
            place,
            input: "product with one row, value NaN",
            expected: ["7 (0)", CANNOT],
            found: alone(multiply(&csr([0, 1], 0, f64::NAN), &[1.0])),
        },
    ]
}
