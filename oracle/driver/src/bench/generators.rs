// SPDX-FileCopyrightText: 2026 The PPVM Authors
// SPDX-License-Identifier: Apache-2.0

//! The generator of a chain of qubits over bases of words of at most four letters, each on six neighbouring
//! qubits, the same matrix by rows, its norm, its product with a vector, and the evolution by a time step.
//!
//! The Rust makes its matrix by rows and its norm in one call, `expm_apply_mf`, up to the exponential, which
//! is left out; so the port's two calls are timed together beside it, and each alone. Its products are timed
//! where the exponential would make them. An evolution of the port, matrix, norm and all, is timed beside the
//! Rust's matrix and norm and as many of its products: neither its shift nor its sums. For information the Rust is timed on two threads as well; the port
//! has one.

use super::Side;
use crate::inputs::Rng;
use crate::inputs::actions as action_inputs;
use crate::inputs::bases::lanes_of;
use crate::inputs::models as model_inputs;
use crate::inputs::products::{Sort, vector};
use crate::port::actions::{CountRoom, count_action_terms};
use crate::port::evolutions::{EvolutionRoom, evolution_sizes, evolve};
use crate::port::generators::{self as port, GeneratorRoom};
use crate::port::models::{Lent, Model, build_model, model_sizes};
use crate::port::norms::{NormRoom, norm};
use crate::port::products::{Csr, ProductRoom, dot};
use crate::port::{WORD_LANES, Word};
use crate::published::generators::RustGenerator;
use crate::published::models::{RustItems, RustModel};
use crate::rules::actions::MAX_WORDS;
use crate::rules::generators::Entry;
use ppvm_lindblad::open::{Product, Questions, Seen};
use std::hint::black_box;
use std::time::Instant;

const ROUNDS: usize = 9;

/// The products of one round.
const PRODUCTS: usize = 20;

/// The time step of an evolution.
const STEP: f64 = 0.05;

/// Words that one action touches: enough here.
const TOUCHED: usize = 1024;

/// Whether both sides had the same entries and products.
pub fn bench(seed: u64, n_qubits: usize) -> bool {
    let rng = &mut Rng::new(seed);
    let mut alike = true;
    for count in [4096, MAX_WORDS] {
        let words = action_inputs::local_words(rng, n_qubits, count);
        alike &= generate(rng, n_qubits, &words);
    }
    alike
}

/// A model and a basis on both sides, with the tables of the port.
struct Sides<'a> {
    rust: RustGenerator<'a>,
    model: Model,
    lent: Lent,
    lanes: Vec<u64>,
    count: usize,
    room: GeneratorRoom,
    norm_room: NormRoom,
    one_thread: rayon::ThreadPool,
    two_threads: rayon::ThreadPool,
}

/// The Rust is called inside of it, so that it need not hand its work over.
fn threads(count: usize) -> rayon::ThreadPool {
    let builder = rayon::ThreadPoolBuilder::new().num_threads(count);
    builder.build().expect("threads")
}

impl<'a> Sides<'a> {
    fn new(rust: &'a RustModel, model: Model, lent: Lent, words: &[Word]) -> Self {
        let count = words.len();
        let lanes = lanes_of(words);
        let lengths = port::generator_sizes(model.qubits, count, TOUCHED, 0);
        let mut room = CountRoom {
            h_index: vec![0; lengths.h_index],
            j_index: vec![0; lengths.j_index],
            mask: vec![0; lengths.mask],
            work_words: vec![0; lengths.work_words],
            work_sums: vec![0.0; lengths.work_sums],
        };
        let counted = count_action_terms(model, &lent, &lanes, &mut room);
        let entries = count * counted.listed;
        let lengths = port::generator_sizes(model.qubits, count, counted.touched, entries);
        Self {
            rust: RustGenerator::new(rust, words),
            room: GeneratorRoom::of(&lengths, count, entries),
            norm_room: NormRoom::of(&lengths, count),
            model,
            lent,
            lanes,
            count,
            one_thread: threads(1),
            two_threads: threads(2),
        }
    }

    fn port_generator(&mut self) -> u64 {
        let (model, lent) = (self.model, &self.lent);
        port::generator(model, lent, &self.lanes, self.count, &mut self.room).count as u64
    }

    fn port_csr(&mut self) -> u64 {
        let (model, lent) = (self.model, &self.lent);
        port::build_csr(model, lent, &self.lanes, self.count, &mut self.room).count as u64
    }

    fn port_norm(&mut self) -> u64 {
        let (model, lent) = (self.model, &self.lent);
        let normed = norm(model, lent, &self.lanes, self.count, &mut self.norm_room);
        normed.norm.to_bits()
    }

    /// The entries that the port left.
    fn port_entries(&self, count: usize) -> Vec<Entry> {
        let entry = |place: usize| Entry {
            row: self.room.rows[place] as usize,
            column: self.room.columns[place] as usize,
            value: self.room.values[place],
        };
        (0..count).map(entry).collect()
    }

    fn rust_csr(&self) -> u64 {
        let seen = self.rust.exponential(1.0, 0.0, Questions::default());
        seen.map_or(0, |seen| seen.degree.s as u64)
    }
}

fn generate(rng: &mut Rng, n_qubits: usize, words: &[Word]) -> bool {
    let items = action_inputs::chain(rng, n_qubits, None);
    let rust_items = RustItems::new(&items).expect("texts are ASCII");
    let rust_model = rust_items.build().expect("it is accepted");
    let sizes = model_sizes(items.hamiltonian.len(), items.jumps.len(), items.longest());
    let mut lent = model_inputs::lent(rng, sizes);
    let model = build_model(&items.flat(), n_qubits, &mut lent).model;
    let mut sides = Sides::new(&rust_model, model, lent, words);
    let generators = time_generators(&mut sides);
    let matrices = time_matrices(&mut sides);
    let products = time_products(rng, &mut sides);
    let evolutions = time_evolutions(rng, &mut sides);
    generators & matrices & products & evolutions
}

fn time_generators(sides: &mut Sides) -> bool {
    let count = sides.count;
    let mut rust = Side::new("Rust");
    let mut two = Side::new("Rust on two threads");
    let mut port = Side::new("port");
    for _ in 0..ROUNDS {
        let list = || sides.rust.list().len() as u64;
        rust.all(count, || sides.one_thread.install(list));
        two.all(count, || sides.two_threads.install(list));
        port.all(count, || sides.port_generator());
    }
    println!(
        "generator, n = {}, {count} words, {} entries, for each word, best of {ROUNDS} rounds:",
        sides.model.qubits, port.checksum
    );
    for side in [&rust, &two, &port] {
        side.print();
    }
    port.print_ratio(&rust);
    let bits = |list: Vec<Entry>| -> Vec<(usize, usize, u64)> {
        let bits = |entry: Entry| (entry.row, entry.column, entry.value.to_bits());
        list.into_iter().map(bits).collect()
    };
    let entries = sides.port_entries(port.checksum as usize);
    bits(sides.rust.entries()) == bits(entries)
}

fn time_matrices(sides: &mut Sides) -> bool {
    let count = sides.count;
    let mut rust = Side::new("Rust, with the norm");
    let mut two = Side::new("Rust on two threads");
    let mut both = Side::new("port, with the norm");
    let mut csr = Side::new("port, matrix");
    let mut norm = Side::new("port, norm");
    for _ in 0..ROUNDS {
        rust.all(count, || sides.one_thread.install(|| sides.rust_csr()));
        two.all(count, || sides.two_threads.install(|| sides.rust_csr()));
        csr.all(count, || sides.port_csr());
        norm.all(count, || sides.port_norm());
        both.all(count, || {
            sides.port_norm();
            sides.port_csr()
        });
    }
    println!(
        "matrix by rows and norm, n = {}, {count} words, for each word, best of {ROUNDS} rounds:",
        sides.model.qubits
    );
    for side in [&rust, &two, &both, &csr, &norm] {
        side.print();
    }
    both.print_ratio(&rust);
    csr.print_ratio(&rust);
    csr.checksum == both.checksum
}

/// The bytes that a product reads and writes at least once.
fn bytes_of(csr: &Csr) -> usize {
    8 * csr.offsets.len() + 12 * csr.columns.len() + 2 * 8 * csr.rows
}

/// How long a copy takes that reads and writes as many bytes, for each byte, at best.
fn copy_seconds(bytes: usize) -> f64 {
    let from: Vec<u64> = (0..bytes as u64 / 16).collect();
    let mut to = vec![0; from.len()];
    let mut best = f64::INFINITY;
    for _ in 0..ROUNDS * PRODUCTS {
        let clock = Instant::now();
        to.copy_from_slice(black_box(&from));
        black_box(&mut to);
        best = best.min(clock.elapsed().as_secs_f64());
    }
    best
}

fn time_products(rng: &mut Rng, sides: &mut Sides) -> bool {
    let count = sides.count;
    let entries = sides.port_csr() as usize;
    let csr = Csr {
        rows: count,
        offsets: sides.room.offsets.clone(),
        columns: sides.room.columns[..entries].to_vec(),
        values: sides.room.values[..entries].to_vec(),
    };
    let input = vector(rng, count, Sort::Plain);
    let mut room = ProductRoom {
        output: vec![0.0; count],
        work: vec![0.0; count],
    };
    let product = Product {
        input: input.clone(),
        start: None,
    };
    let questions = || Questions {
        products: vec![product.clone(); PRODUCTS],
        entries: false,
    };
    let digest = |output: &[f64]| -> u64 {
        let add = |sum: u64, x: &f64| sum.rotate_left(5).wrapping_add(x.to_bits());
        output.iter().fold(0, add)
    };
    let mut rust = Side::new("Rust");
    let mut two = Side::new("Rust on two threads");
    let mut port = Side::new("port");
    for _ in 0..ROUNDS {
        let asked = || sides.rust.exponential(1.0, 0.0, questions());
        let pools = [&sides.one_thread, &sides.two_threads];
        let seen = pools.map(|pool| pool.install(asked));
        for (side, seen) in [&mut rust, &mut two].into_iter().zip(seen) {
            let seen = seen.expect("there are words");
            let best = seen.seconds.iter().copied().fold(f64::INFINITY, f64::min);
            side.nanoseconds = side.nanoseconds.min(best * 1e9);
            side.checksum = digest(&seen.products[0]);
        }
        for _ in 0..PRODUCTS {
            port.all(1, || dot(&csr, &input, true, &mut room).refusal);
        }
        port.checksum = digest(&room.output);
    }
    println!(
        "product, n = {}, {count} words, {entries} entries, best of {ROUNDS} rounds of {PRODUCTS}:",
        sides.model.qubits
    );
    for side in [&rust, &two, &port] {
        side.print();
    }
    port.print_ratio(&rust);
    let bytes = bytes_of(&csr);
    let rate = |seconds: f64| bytes as f64 / seconds / 1e9;
    println!(
        "{bytes} bytes: Rust {:.2} GB/s, port {:.2} GB/s, a copy that reads and writes as many {:.2} GB/s",
        rate(rust.nanoseconds / 1e9),
        rate(port.nanoseconds / 1e9),
        rate(copy_seconds(bytes)),
    );
    rust.checksum == port.checksum
}

fn time_evolutions(rng: &mut Rng, sides: &mut Sides) -> bool {
    let count = sides.count;
    let lengths = sides.room.lengths();
    let touched = lengths.work_words / WORD_LANES;
    let sizes = evolution_sizes(sides.model.qubits, count, touched, lengths.stage_rows);
    let mut room = EvolutionRoom::of(&sizes, count);
    let input = vector(rng, count, Sort::Plain);
    let (model, lent, lanes) = (sides.model, &sides.lent, &sides.lanes);
    let mut evolved = || evolve(model, lent, lanes, &input, (STEP, 0.0), &mut room);
    let products = evolved().products;
    let product = Product {
        input: input.clone(),
        start: None,
    };
    let mut rust = Side::new("Rust, up to its sums");
    let mut port = Side::new("port");
    for _ in 0..ROUNDS {
        let questions = Questions {
            products: vec![product.clone(); products],
            entries: false,
        };
        let asked = || sides.rust.exponential(STEP, 0.0, questions);
        let products_of = |seen: &Option<Seen>| seen.as_ref().map_or(0, |seen| seen.products.len());
        rust.once(
            || sides.one_thread.install(asked),
            |seen| products_of(seen) as u64,
        );
        port.once(&mut evolved, |evolved| evolved.products as u64);
    }
    println!(
        "evolution by {STEP}, n = {}, {count} words, {products} products, best of {ROUNDS} rounds:",
        sides.model.qubits
    );
    for side in [&rust, &port] {
        side.print();
    }
    port.print_ratio(&rust);
    rust.checksum == port.checksum
}
