// SPDX-FileCopyrightText: 2026 The PPVM Authors
// SPDX-License-Identifier: Apache-2.0

//! mu, the degree, and as much of the norm as the degree shows.

use super::generators::RustGenerator;
use super::rust_word;
use crate::port::Word;
use crate::rules::norms::{LOOSE_FROM, Pair, least_pair as by_rules};
use crate::rules::order;
use ppvm_lindblad::open::{self, Questions};

pub fn select_ms(t: f64, drop_tol: f64) -> Pair {
    let (m, s) = match drop_tol >= LOOSE_FROM {
        true => open::select_ms_loose(t),
        false => open::select_ms(t),
    };
    Pair { m, s }
}

/// The terms of an action in the order in which the Rust sums their magnitudes: by hash.
pub fn in_hash_order(n_qubits: usize, mut terms: Vec<(Word, f64)>) -> Vec<(Word, f64)> {
    let hash = |w: Word| open::word_hash(&rust_word(n_qubits, w));
    terms.sort_by(|(p, _), (q, _)| hash(*p).cmp(&hash(*q)).then_with(|| order(*p, *q)));
    terms
}

/// mu, and the degree for a step. Nothing over an empty basis.
pub fn partition(generator: &RustGenerator, dt: f64, drop_tol: f64) -> Option<(f64, Pair)> {
    let seen = generator.exponential(dt, drop_tol, Questions::default())?;
    let pair = Pair {
        m: seen.degree.m as u32,
        s: seen.degree.s as u32,
    };
    Some((seen.mu, pair))
}

/// Whether the Rust's norm has these bits; nothing where no probe tells it from its neighbours.
///
/// The Rust shows its norm N in nothing but the degree for |dt| × N. That degree rises with the norm, its
/// product m × s first and then m: a larger norm raises no row's s but upwards, so the least product
/// rises, or the first row that has it stands later. So where the degree for a dt is that of `norm` and
/// not that of the number above `norm`, the Rust's norm is not above `norm`; and the same below.
pub fn has_norm(generator: &RustGenerator, norm: f64) -> Option<bool> {
    let is = |dt: f64| {
        let seen = partition(generator, dt, 0.0);
        let (_, pair) = seen.expect("a norm is asked over words only");
        pair == by_rules(dt * norm, 0.0)
    };
    if norm == 0.0 {
        // Any number above 0 has a degree of its own here.
        return Some(is(f64::MAX));
    }
    Some(is(probe(norm, norm.next_up())?) && is(probe(norm, norm.next_down())?))
}

/// A step at which two neighbouring norms have different degrees.
fn probe(norm: f64, neighbour: f64) -> Option<f64> {
    let steps = |norm: f64, dt: f64| by_rules(dt * norm, 0.0);
    let tells = |dt: &f64| steps(norm, *dt) != steps(neighbour, *dt);
    // Where the degree is the last one of the table, which is so for large norms, s steps up at
    // multiples of its threshold; a few of them are looked at, each about where dt × norm passes it.
    let near = |k: u32| {
        let threshold = crate::rules::norms::THETA[29];
        let dt = f64::from(k) * threshold / norm;
        let above = std::iter::successors(Some(dt), |dt| Some(dt.next_up())).take(8);
        let below = std::iter::successors(Some(dt), |dt| Some(dt.next_down())).take(8);
        above.chain(below).find(|dt| dt.is_finite() && tells(dt))
    };
    (0..64).find_map(|i| near(1_000_003 + 7_919 * i))
}
