// SPDX-FileCopyrightText: 2026 The PPVM Authors
// SPDX-License-Identifier: Apache-2.0

//! Products of matrices by rows, and where their rows stand, every lent table bit for bit.
//!
//! Cases are counted by what document 01 answers to them. The Rust makes its matrix from a model and a basis
//! and shows it to nobody, so it is asked about matrices of generators only, where the document accepts;
//! any other matrix is the port's and the rules' alone. A difference is expected where a number of the model is
//! near a tolerance, and only if the Rust has the product of the rules with hypots.

use super::models::by_answer;
use super::over_basis::OverBasis;
use super::{Answers, Tally};
use crate::inputs::Rng;
use crate::inputs::models::Items;
use crate::inputs::products::{self as inputs, Sort};
use crate::port::Status;
use crate::port::products::{self as port, Csr, ProductRoom, Row};
use crate::published::generators::RustGenerator;
use crate::rules::generators::{by_rows, offsets};
use crate::rules::products as rules;
use crate::rules::{refusal, word_of};
use ppvm_lindblad::open::{Product, Questions};

/// One in so many cases is a matrix of a generator, and one in so many others has something wrong.
const OF_GENERATOR: usize = 3;
const SPOILT: usize = 2;

/// The products with one matrix of a generator.
const PRODUCTS: usize = 6;

pub fn compare(seed: u64, cases: usize) -> Vec<Tally> {
    let rng = &mut Rng::new(seed);
    let mut tallies = Tallies {
        of_generators: by_answer("product of a generator"),
        products: by_answer("product"),
        rows: Tally::new("rows"),
    };
    known(rng, &mut tallies);
    for _ in 0..cases.div_ceil(OF_GENERATOR * PRODUCTS) {
        of_generator(rng, &mut tallies);
    }
    for case in 0..cases {
        let rows = match case % 64 {
            0 => 200,
            _ => rng.below(12),
        };
        random(rng, &mut tallies, rows);
    }
    let Tallies {
        of_generators,
        products,
        rows,
    } = tallies;
    let all = of_generators.into_iter().chain(products).chain([rows]);
    all.filter(|tally| tally.cases > 0).collect()
}

struct Tallies {
    of_generators: Vec<Tally>,
    products: Vec<Tally>,
    rows: Tally,
}

/// What a product answers, and what it leaves in the lent tables.
#[derive(Clone, Debug, PartialEq)]
struct Outcome {
    status: Status,
    room: ProductRoom,
}

/// A matrix, a vector, and whether the product overwrites.
struct Case<'a> {
    csr: &'a Csr,
    input: &'a [f64],
    overwrite: bool,
    room: &'a ProductRoom,
}

type Call = fn(&Csr, &[f64], bool, &mut ProductRoom) -> Status;

impl Case<'_> {
    fn answer(&self, dot: Call) -> Outcome {
        let mut room = self.room.clone();
        Outcome {
            status: dot(self.csr, self.input, self.overwrite, &mut room),
            room,
        }
    }

    /// The sides' answers, with the Rust's product where there is one.
    fn count(&self, tallies: &mut [Tally], product: Option<Vec<f64>>, listed: bool) {
        let rules = self.answer(rules::dot);
        let refusal = rules.status.refusal;
        let rust = product.filter(|_| refusal == 0).map(|product| {
            let mut rust = rules.clone();
            rust.room.output = product;
            rust
        });
        let answers = Answers {
            rust,
            port: self.answer(port::dot),
            rules,
            listed,
        };
        let Case {
            csr,
            input,
            overwrite,
            room,
        } = self;
        let show = || format!("{csr:?}, {input:?}, overwrite {overwrite}, {room:?}");
        tallies[refusal as usize].count(csr.rows.saturating_add(csr.columns.len()), show, answers);
    }
}

/// The matrix by rows of a generator, as the rules have it.
fn csr_of(over: &OverBasis) -> Csr {
    let list = by_rows(over.entries().list);
    Csr {
        rows: over.words.len(),
        offsets: offsets(over.words.len(), &list),
        columns: list.iter().map(|entry| entry.column as u32).collect(),
        values: list.iter().map(|entry| entry.value).collect(),
    }
}

/// Products with the matrix of a generator.
fn of_generator(rng: &mut Rng, tallies: &mut Tallies) {
    let over = OverBasis::random(rng);
    let rows = over.words.len();
    let cases: Vec<(Vec<f64>, bool, ProductRoom)> = (0..PRODUCTS)
        .map(|_| {
            let sort = Sort::new(rng);
            let input = inputs::vector(rng, rows, sort);
            (input, rng.one_in(2), inputs::room(rng, rows, sort))
        })
        .collect();
    products_of(rng, tallies, &over, &cases);
}

fn products_of(
    rng: &mut Rng,
    tallies: &mut Tallies,
    over: &OverBasis,
    cases: &[(Vec<f64>, bool, ProductRoom)],
) {
    let csr = csr_of(over);
    let question = |(input, overwrite, room): &(Vec<f64>, bool, ProductRoom)| Product {
        input: input.clone(),
        start: (!overwrite).then(|| room.output.clone()),
    };
    let questions = Questions {
        products: cases.iter().map(question).collect(),
        entries: false,
    };
    let seen = over.rust.as_ref().and_then(|model| {
        let generator = RustGenerator::new(model, &over.words);
        generator.exponential(1.0, 0.0, questions)
    });
    let mut products = seen.map_or(Vec::new(), |seen| seen.products).into_iter();
    let other = over.by_hypots(rng).map(|other| csr_of(&other));
    for (input, overwrite, room) in cases {
        let case = Case {
            csr: &csr,
            input,
            overwrite: *overwrite,
            room,
        };
        let product = products.next();
        let is_listed = |product: &Vec<f64>| {
            let other = other
                .as_ref()
                .map(|csr| Case { csr, ..case }.answer(rules::dot));
            let bits = |list: &[f64]| -> Vec<u64> { list.iter().map(|x| x.to_bits()).collect() };
            other.is_some_and(|other| bits(&other.room.output) == bits(product))
        };
        let listed = product.as_ref().is_some_and(is_listed);
        case.count(&mut tallies.of_generators, product, listed);
    }
}

/// A product with any matrix, often with something wrong, and the places of its rows.
fn random(rng: &mut Rng, tallies: &mut Tallies, rows: usize) {
    let sort = Sort::new(rng);
    let mut csr = inputs::csr(rng, rows, sort);
    let sort = Sort::new(rng);
    let mut input = inputs::vector(rng, rows, sort);
    let mut room = inputs::room(rng, rows, sort);
    if rng.one_in(SPOILT) {
        for _ in 0..=rng.below(2) {
            inputs::spoil(rng, &mut csr, &mut input, &mut room);
        }
    }
    let case = Case {
        csr: &csr,
        input: &input,
        overwrite: rng.one_in(2),
        room: &room,
    };
    case.count(&mut tallies.products, None, false);
    let inside = rng.below(rows + 1);
    let row = rng.pick(&[0, inside, inside, rows, rows + 1, usize::MAX]);
    let answers: Answers<Row> = Answers {
        rust: None,
        port: port::csr_row(&csr, row),
        rules: rules::csr_row(&csr, row),
        listed: false,
    };
    tallies
        .rows
        .count(rows, || format!("{csr:?}, row {row}"), answers);
}

/// A product whose number is not finite, which the Rust gives.
fn known(rng: &mut Rng, tallies: &mut Tallies) {
    let items = Items {
        n_qubits: 1,
        hamiltonian: vec![(b"Z".to_vec(), 1.0)],
        jumps: Vec::new(),
    };
    let words = vec![word_of(b"X"), word_of(b"Y")];
    let over = OverBasis::new(rng, items, Vec::new(), words);
    let room = ProductRoom {
        output: vec![1.0, -0.0],
        work: vec![f64::NAN; 2],
    };
    let cases = [
        (vec![1.5e308, 0.0], true, room.clone()),
        (vec![1.5e308, -0.0], false, room.clone()),
        (vec![1.0, -0.0], true, room.clone()),
        (vec![-0.0, 0.0], false, room),
    ];
    products_of(rng, tallies, &over, &cases);
    let csr = csr_of(&over);
    let answers = cases.clone().map(|(input, overwrite, mut room)| {
        let status = rules::dot(&csr, &input, overwrite, &mut room);
        (status, room.output)
    });
    let accepted = Status::default();
    assert_eq!(answers[0], (refusal(14, 1, 0), vec![1.0, -0.0]));
    assert_eq!(answers[1].0, refusal(14, 1, 0));
    assert_eq!(answers[2], (accepted, vec![0.0, -2.0]));
    // Sums of no inputs are +0.0, and 1 and -0.0 stay what they are but for the sign of a zero.
    assert_eq!(answers[3], (accepted, vec![1.0, 0.0]));
    assert!(answers[3].1[1].is_sign_positive());
    let model = over.rust.as_ref().expect("texts are ASCII");
    let questions = Questions {
        products: vec![Product {
            input: cases[0].0.clone(),
            start: None,
        }],
        entries: false,
    };
    let seen = RustGenerator::new(model, &over.words).exponential(1.0, 0.0, questions);
    let product = seen.expect("there are words").products[0].clone();
    assert_eq!(product, [0.0, f64::NEG_INFINITY]);
}
