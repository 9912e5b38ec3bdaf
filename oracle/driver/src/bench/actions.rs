// SPDX-FileCopyrightText: 2026 The PPVM Authors
// SPDX-License-Identifier: Apache-2.0

//! Actions of a chain of qubits on words of at most four letters, each on six neighbouring qubits.
//!
//! The Rust acts on one word after another with what its callers keep from one to the next. The port
//! acts on all of them by its index when it counts their places, which lists nothing; a single call,
//! which tests the model and looks at every item, is timed on the first words.

use super::Side;
use crate::inputs::Rng;
use crate::inputs::actions as inputs;
use crate::inputs::models::{self as model_inputs, Items};
use crate::port::Word;
use crate::port::actions::{self as port, CountRoom, Room};
use crate::port::models::{build_model, model_sizes};
use crate::published::models::RustItems;
use crate::published::{RustWord, rust_word};
use crate::rules::models::MAX_JUMPS;
use ppvm_lindblad::open::{self, ActionScratch};

const ROUNDS: usize = 15;

/// The words that a single call is timed on.
const SINGLE: usize = 128;

/// Places that are enough for the sums of an action here.
const PLACES: usize = 4096;

/// Whether both sides listed as many words. The chains with the most items have more near each word; in the
/// last model these lie on the half of the qubits that no word has letters on.
pub fn bench(seed: u64, n_qubits: usize) -> bool {
    let rng = &mut Rng::new(seed);
    let half = n_qubits / 2;
    let mut alike = true;
    for (n_qubits, most, count) in [
        (half, None, 4096),
        (n_qubits, None, 4096),
        (n_qubits, None, 65_536),
        (n_qubits, Some(MAX_JUMPS), 4096),
        (n_qubits, Some(MAX_JUMPS), 65_536),
    ] {
        let items = inputs::chain(rng, n_qubits, most);
        let words = inputs::local_words(rng, n_qubits, count);
        alike &= act(rng, items, &words);
    }
    let items = inputs::chain_beside(rng, n_qubits, MAX_JUMPS);
    let words = inputs::local_words(rng, half, 32_768);
    alike & act(rng, items, &words)
}

fn act(rng: &mut Rng, items: Items, words: &[Word]) -> bool {
    let n_qubits = items.n_qubits;
    let count = words.len();
    let rust_items = RustItems::new(&items).expect("texts are ASCII");
    let rust_model = rust_items.build().expect("it is accepted");
    let rust_words: Vec<RustWord> = words.iter().map(|&p| rust_word(n_qubits, p)).collect();
    let sizes = model_sizes(items.hamiltonian.len(), items.jumps.len(), items.longest());
    let mut lent = model_inputs::lent(rng, sizes);
    let model = build_model(&items.flat(), n_qubits, &mut lent).model;
    let lanes: Vec<u64> = words.iter().flat_map(|p| p.lanes()).collect();
    let mut count_room: CountRoom = inputs::count_room(rng, n_qubits, PLACES, false);
    let needed = port::count_action_terms(model, &lent, &lanes, &mut count_room);
    count_room = inputs::count_room(rng, n_qubits, needed.touched, false);
    let mut room: Room = inputs::room(rng, needed.touched, needed.listed);

    let mut scratch = ActionScratch::default();
    let mut listed = |p: &RustWord| {
        let terms = open::compute_action_terms(&rust_model, p, &mut scratch);
        terms.len() as u64
    };
    let mut rust = Side::new("Rust");
    let mut index = Side::new("port");
    let mut single = Side::new("port, single calls");
    for _ in 0..ROUNDS {
        let most = |most: u64, p| most.max(listed(p));
        rust.all(count, || rust_words.iter().fold(0, most));
        index.all(count, || {
            port::count_action_terms(model, &lent, &lanes, &mut count_room).listed as u64
        });
        let mut act = |p: &Word| {
            let listed = port::compute_action_terms(model, &lent, *p, &mut room);
            listed.count as u64
        };
        let first = &words[..SINGLE];
        single.all(SINGLE, || first.iter().map(&mut act).sum());
    }

    println!(
        "actions, n = {n_qubits}, {} Hamiltonian items, {} jumps, {count} words, for each word, best \
         of {ROUNDS} rounds:",
        items.hamiltonian.len(),
        items.jumps.len(),
    );
    for side in [&rust, &index, &single] {
        side.print();
    }
    index.print_ratio(&rust);
    let first = rust_words[..SINGLE].iter().map(&mut listed).sum::<u64>();
    rust.checksum == index.checksum && first == single.checksum
}
