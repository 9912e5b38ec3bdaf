// SPDX-FileCopyrightText: 2026 The PPVM Authors
// SPDX-License-Identifier: Apache-2.0

//! Doors of ours to what the published files keep to the crate.
//!
//! Each function calls the published one and computes nothing itself. `LindbladSpec::new`,
//! `add_kossakowski`, `leakage_with_prune` and `generator` are public already and need none.

use crate::word::Word;
use crate::{LindbladSpec, algebra, expm, mf_expm, truncate, word};
use fxhash::FxHashMap;
use num::Complex;
use ppvm_traits::PauliWordTrait;
pub use quspin_expm::{Degree, Product, Questions, Seen};

// ── word, algebra ────────────────────────────────────────────────────

/// The word with the given lanes, its hash up to date.
pub fn word_from_lanes<const C: usize>(n_qubits: usize, x: [u64; C], z: [u64; C]) -> Word<C> {
    let mut w = Word::<C>::new(n_qubits);
    w.xbits.data = x;
    w.zbits.data = z;
    w.rehash();
    w
}

/// The qubits where the word has a letter other than I.
pub fn word_support<const C: usize>(w: &Word<C>) -> Vec<u32> {
    let mut support = Vec::new();
    word::word_support(w, &mut support);
    support
}

pub fn word_hash<const C: usize>(w: &Word<C>) -> u64 {
    word::word_hash(w)
}

#[inline(always)]
pub fn pauli_mul<const C: usize>(p: &Word<C>, q: &Word<C>) -> (Word<C>, u8) {
    algebra::pauli_mul(p, q)
}

#[inline(always)]
pub fn anti_commutes<const C: usize>(p: &Word<C>, q: &Word<C>) -> bool {
    algebra::anti_commutes(p, q)
}

#[inline(always)]
pub fn comm_product<const C: usize>(h: &Word<C>, p: &Word<C>) -> (Word<C>, f64) {
    algebra::comm_product(h, p)
}

// ── spec ─────────────────────────────────────────────────────────────

/// What the published callers keep from one word to the next.
#[derive(Default)]
pub struct ActionScratch<const C: usize> {
    support: Vec<u32>,
    candidates: Vec<u32>,
    sums: FxHashMap<Word<C>, Complex<f64>>,
}

/// The action of a model on a word, in the order of the published code (by hash).
#[inline(always)]
pub fn compute_action_terms<const C: usize>(
    spec: &LindbladSpec<C>,
    p: &Word<C>,
    scratch: &mut ActionScratch<C>,
) -> Vec<(Word<C>, f64)> {
    let ActionScratch {
        support,
        candidates,
        sums,
    } = scratch;
    spec.compute_action_terms(p, support, candidates, sums)
}

// ── truncate ─────────────────────────────────────────────────────────

pub fn order_by_desc_mag(coeffs: &[f64]) -> Vec<usize> {
    truncate::order_by_desc_mag(coeffs)
}

pub fn prune_basis<const C: usize>(
    basis: &mut Vec<Word<C>>,
    coeffs: &mut Vec<f64>,
    drop_tol: f64,
    protected: &[Word<C>],
) {
    truncate::prune_basis(basis, coeffs, drop_tol, protected);
}

pub fn cap_basis<const C: usize>(
    basis: &mut Vec<Word<C>>,
    coeffs: &mut Vec<f64>,
    max_basis: usize,
    protected: &[Word<C>],
) {
    truncate::cap_basis(basis, coeffs, max_basis, protected);
}

pub fn add_leakage_capped<const C: usize>(
    basis: &mut Vec<Word<C>>,
    coeffs: &mut Vec<f64>,
    leak: Vec<(Word<C>, f64)>,
    max_basis: usize,
) {
    truncate::add_leakage_capped(basis, coeffs, leak, max_basis);
}

// ── mf_expm, expm ────────────────────────────────────────────────────

/// What the published code hands to the exponential of `dt` times the generator over `basis`: the matrix,
/// which can only be asked for products, mu and the degree. It makes none over an empty basis.
///
/// `build_mf_cols`, the matrix and the column norm are private to their file, so this goes in by the
/// exponential. Its stand-in answers the questions; the norm shows in nothing but the degree.
pub fn exponential<const C: usize>(
    spec: &LindbladSpec<C>,
    basis: &[Word<C>],
    dt: f64,
    drop_tol: f64,
    questions: Questions,
) -> Option<Seen> {
    let zeros = vec![0.0; basis.len()];
    let apply = || mf_expm::expm_apply_mf(spec, basis, dt, &zeros, drop_tol);
    quspin_expm::watch(questions, apply).1
}

pub fn select_ms(t_norm: f64) -> (u32, u32) {
    expm::select_ms(t_norm)
}

pub fn select_ms_loose(t_norm: f64) -> (u32, u32) {
    expm::select_ms_loose(t_norm)
}
