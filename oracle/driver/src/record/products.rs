// SPDX-FileCopyrightText: 2026 The PPVM Authors
// SPDX-License-Identifier: Apache-2.0

//! Products of small matrices by rows, and degrees.

use super::Line;
use super::generators::NOT_RUST;
use super::standing::Standing;
use crate::inputs::Rng;
use crate::inputs::generators::words;
use crate::inputs::norms as norm_inputs;
use crate::inputs::products::{self as inputs, Sort};
use crate::port::Word;
use crate::port::products::{Csr, ProductRoom};
use crate::published::generators::RustGenerator;
use crate::published::norms::select_ms as rust_degree;
use crate::rules::generators::{Acts, all_entries, by_rows, offsets};
use crate::rules::norms::{Pair, select_ms, terms};
use crate::rules::products::dot;
use ppvm_lindblad::open::{Product, Questions};

/// The kinds: of a product and of a degree.
const PRODUCT: u64 = 22;
const DEGREE: u64 = 23;

/// The most rows and entries: the recording is to stay small.
const ROWS: usize = 24;
const ENTRIES: usize = 96;

pub fn record(seed: u64, cases: usize) {
    let rng = &mut Rng::new(seed);
    println!(
        "# 16 rows overwrite, the lengths of offsets columns values input output work, these but for"
    );
    println!("#   work, refusal first second, the output afterwards");
    let mut recorded = 0;
    while recorded < cases {
        let case = of_generator(rng).filter(|(case, product)| case.gives(product));
        if let Some((case, _)) = case {
            case.line(Line::new(PRODUCT)).print();
            recorded += 1;
        }
    }
    println!("# 17 t drop_tol refusal first second m s");
    for (t, drop_tol) in degrees(rng, cases) {
        let found = select_ms(t, drop_tol);
        if found.status.refusal == 0 {
            let Pair { m, s } = rust_degree(t, drop_tol);
            assert_eq!((found.m, found.s), (m, s), "the Rust's too");
            degree(Line::new(DEGREE), t, drop_tol).print();
        }
    }
}

/// A degree with what it is chosen for.
fn degree(line: Line, t: f64, drop_tol: f64) -> Line {
    let found = select_ms(t, drop_tol);
    let line = line.floats(&[t, drop_tol]).status(found.status);
    line.numbers(&[found.m, found.s].map(u64::from))
}

/// Answers which the Rust does not give; the kind that they are of stands second.
pub fn record_not_of_the_rust(seed: u64, cases: usize) {
    let rng = &mut Rng::new(seed);
    let mut recorded = 0;
    while recorded < cases {
        let rows = rng.below(6);
        let sort = Sort::new(rng);
        let mut csr = inputs::csr(rng, rows, sort);
        let mut input = inputs::vector(rng, rows, sort);
        let mut room = inputs::room(rng, rows, sort);
        room.work.truncate(rows);
        inputs::spoil(rng, &mut csr, &mut input, &mut room);
        let case = Case {
            csr,
            input,
            overwrite: rng.one_in(2),
            room,
        };
        if case.fits() {
            case.line(Line::new(NOT_RUST).number(PRODUCT)).print();
            recorded += 1;
        }
    }
    let above = [
        (123730.08f64.next_up(), 0.0),
        (238722.16f64.next_up(), 1e-4),
        (f64::INFINITY, 0.0),
        (f64::INFINITY, 1.0),
    ];
    let mut list = degrees(rng, cases);
    list.retain(|&(t, drop_tol)| select_ms(t, drop_tol).status.refusal != 0);
    list.truncate(cases);
    for (t, drop_tol) in above.into_iter().chain(list) {
        degree(Line::new(NOT_RUST).number(DEGREE), t, drop_tol).print();
    }
}

/// A product with what it is given and lent.
struct Case {
    csr: Csr,
    input: Vec<f64>,
    overwrite: bool,
    room: ProductRoom,
}

impl Case {
    /// Whether it is small enough to be recorded.
    fn fits(&self) -> bool {
        let Self {
            csr, input, room, ..
        } = self;
        let rows = [input.len(), room.output.len(), room.work.len()];
        rows.iter().all(|&n| n <= ROWS)
            && csr.offsets.len() <= ROWS + 1
            && csr.columns.len().max(csr.values.len()) <= ENTRIES
    }

    /// Whether the rules accept, and the Rust's product is theirs.
    fn gives(&self, product: &[f64]) -> bool {
        let mut room = self.room.clone();
        let status = dot(&self.csr, &self.input, self.overwrite, &mut room);
        let bits = |list: &[f64]| -> Vec<u64> { list.iter().map(|x| x.to_bits()).collect() };
        status.refusal == 0 && self.fits() && bits(&room.output) == bits(product)
    }

    fn line(&self, line: Line) -> Line {
        let Self {
            csr,
            input,
            overwrite,
            room,
        } = self;
        let lengths = [
            csr.offsets.len(),
            csr.columns.len(),
            csr.values.len(),
            input.len(),
            room.output.len(),
            room.work.len(),
        ];
        let columns: Vec<u64> = csr.columns.iter().map(|&column| column.into()).collect();
        let mut after = room.clone();
        let status = dot(csr, input, *overwrite, &mut after);
        line.numbers(&[csr.rows as u64, u64::from(*overwrite)])
            .numbers(&lengths.map(|length| length as u64))
            .numbers(&csr.offsets)
            .numbers(&columns)
            .floats(&csr.values)
            .floats(input)
            .floats(&room.output)
            .status(status)
            .floats(&after.output)
    }
}

/// A product with the matrix of a small generator, and what the Rust makes of it.
fn of_generator(rng: &mut Rng) -> Option<(Case, Vec<f64>)> {
    let standing = Standing::of_model(rng, PRODUCT, 0, 1)?;
    let Standing {
        items,
        matrices,
        model,
        lent,
        ..
    } = &standing;
    let acts = Acts::default();
    let reached = |words: &[Word]| {
        let acts = terms(*model, lent, words, &acts).into_iter();
        let lists = acts.flat_map(|(_, terms)| terms);
        lists.map(|(w, _)| w).collect()
    };
    let mut words = words(rng, items, matrices, reached);
    words.truncate(ROWS);
    let list = by_rows(all_entries(*model, lent, &words, &acts).list);
    let rows = words.len();
    let csr = Csr {
        rows,
        offsets: offsets(rows, &list),
        columns: list.iter().map(|entry| entry.column as u32).collect(),
        values: list.iter().map(|entry| entry.value).collect(),
    };
    let sort = Sort::new(rng);
    let input = inputs::vector(rng, rows, sort);
    let mut room = inputs::room(rng, rows, sort);
    room.work.truncate(rows);
    let overwrite = rng.one_in(2);
    let question = Product {
        input: input.clone(),
        start: (!overwrite).then(|| room.output.clone()),
    };
    let questions = Questions {
        products: vec![question],
        entries: false,
    };
    let rust_model = standing.rust()?;
    let seen = RustGenerator::new(&rust_model, &words).exponential(1.0, 0.0, questions)?;
    let product = seen.products[0].clone();
    let case = Case {
        csr,
        input,
        overwrite,
        room,
    };
    (list.len() >= rows).then_some((case, product))
}

/// The degrees of documents 01 and 02, some of those about the thresholds, and random ones.
fn degrees(rng: &mut Rng, cases: usize) -> Vec<(f64, f64)> {
    let mut list = vec![
        (0.3, 0.0),
        (1.0, 0.0),
        (4.0, 0.0),
        (1.0, 1e-4),
        (1.0, 1e-4f64.next_down()),
        (1.0, f64::NAN),
        (123730.08, 0.0),
        (238722.16, 1e-4),
        (f64::NAN, 0.0),
    ];
    let thresholds = norm_inputs::thresholds();
    list.extend((0..16 * cases).map(|_| (rng.pick(&thresholds), norm_inputs::drop_tol(rng))));
    list.extend((0..cases).map(|_| (norm_inputs::norm(rng), norm_inputs::drop_tol(rng))));
    list
}
