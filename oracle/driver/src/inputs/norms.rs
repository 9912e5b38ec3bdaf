// SPDX-FileCopyrightText: 2026 The PPVM Authors
// SPDX-License-Identifier: Apache-2.0

//! Norms about every threshold of both tables, steps, and the tables for the norm of a generator.

use super::Rng;
use super::actions::{lanes, numbers, plain, wide};
use super::bases::{NOT_FINITE, put_outside, shorten};
use super::generators::other_len;
use crate::port::WORD_LANES;
use crate::port::norms::NormRoom;
use crate::rules::generators::generator_sizes;
use crate::rules::norms::{LOOSE_FROM, THETA, THETA_LOOSE};

/// A number with its neighbours, two on each side.
fn about(x: f64) -> [f64; 5] {
    let (up, down) = (x.next_up(), x.next_down());
    [down.next_down(), down, x, up, up.next_up()]
}

/// Every threshold, small multiples of it, those about the ceiling on products and those about the largest count of
/// steps, each with its neighbours; 0, negative, subnormal, infinite and NaN.
pub fn thresholds() -> Vec<f64> {
    let large = f64::from(u32::MAX);
    let ceiling = 34_952.0; // steps of the last degree
    let factors = [
        1.0,
        2.0,
        3.0,
        7.0,
        1000.0,
        ceiling,
        ceiling + 1.0,
        large - 1.0,
        large,
        large + 1.0,
    ];
    let at = |threshold: f64| factors.into_iter().flat_map(move |k| about(k * threshold));
    let mut list: Vec<f64> = THETA.into_iter().chain(THETA_LOOSE).flat_map(at).collect();
    list.extend(about(0.0));
    list.extend([
        -0.0,
        f64::NAN,
        -f64::NAN,
        f64::MAX,
        -f64::MAX,
        f64::MIN_POSITIVE,
    ]);
    list.extend([
        f64::INFINITY,
        f64::NEG_INFINITY,
        -1.0,
        5e-324,
        1e-310,
        2e-308,
    ]);
    list
}

/// Of any magnitude, mostly where the degree changes.
pub fn norm(rng: &mut Rng) -> f64 {
    match rng.below(5) {
        0 => wide(rng),
        1 => f64::from_bits(rng.next()),
        2 => 40.0 * plain(rng).abs(),
        _ => 4.0 * plain(rng).abs(),
    }
}

pub fn drop_tol(rng: &mut Rng) -> f64 {
    match rng.below(4) {
        0 => rng.pick(&about(LOOSE_FROM)),
        1 => rng.pick(&[0.0, -0.0, 1e-3, 1e-6, -1.0, 1.0]),
        2 => rng.pick(&[f64::MAX, 5e-324, -5e-324, 1e-4]),
        _ => plain(rng),
    }
}

/// A step.
pub fn dt(rng: &mut Rng) -> f64 {
    match rng.below(8) {
        0 => rng.pick(&[0.0, -0.0, 5e-324, f64::MAX, -f64::MAX]),
        1 => wide(rng),
        _ => plain(rng),
    }
}

/// Tables of so many places for the words that an action touches, some longer, with something in them
/// already.
pub fn room(rng: &mut Rng, n_qubits: usize, len: usize, touched: usize) -> NormRoom {
    let needed = generator_sizes(n_qubits, len, touched, 0);
    let mut more = |least: usize| least + rng.pick(&[0, 0, 0, 1, 3, 100]);
    let (h_index, j_index, mask) = (more(needed.h_index), needed.j_index, more(needed.mask));
    let (heads, nexts) = (more(len), more(needed.nexts));
    let (work_words, work_sums) = (more(needed.work_words), needed.work_sums);
    let (raws, diags) = (more(len), more(len));
    NormRoom {
        h_index: lanes(rng, h_index),
        j_index: lanes(rng, j_index),
        mask: lanes(rng, mask),
        heads: lanes(rng, heads),
        nexts: lanes(rng, nexts),
        work_words: lanes(rng, work_words),
        work_sums: numbers(work_sums),
        raws: numbers(raws),
        diags: numbers(diags),
    }
}

/// Something wrong with the words, the numbers or the tables.
pub fn spoil(
    rng: &mut Rng,
    n_qubits: usize,
    words: &mut Vec<u64>,
    len: &mut usize,
    step: &mut (f64, f64),
    room: &mut NormRoom,
) {
    let places = *len;
    let rows = generator_sizes(n_qubits, 0, 0, 0).h_index;
    match rng.below(10) {
        0 => *len = other_len(rng, places),
        1 | 2 => put_outside(rng, n_qubits, words),
        3 => shorten(rng, words, WORD_LANES * places),
        4 => step.0 = rng.pick(&NOT_FINITE),
        5 => step.1 = rng.pick(&NOT_FINITE),
        _ => match rng.below(7) {
            0 => shorten(rng, &mut room.h_index, rows),
            1 => shorten(rng, &mut room.j_index, rows),
            2 => shorten(rng, &mut room.mask, 64),
            3 => shorten(rng, &mut room.heads, places),
            4 => shorten(rng, &mut room.nexts, places),
            5 => shorten(rng, &mut room.raws, places),
            _ => shorten(rng, &mut room.diags, places),
        },
    }
}
