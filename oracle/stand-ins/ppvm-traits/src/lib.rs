// SPDX-FileCopyrightText: 2026 The PPVM Authors
// SPDX-License-Identifier: Apache-2.0

//! Stand-in for `ppvm-traits`: the three methods of a Pauli word that the published files call.
//!
//! Nothing is computed here, so nothing can be distorted.

pub trait PauliWordTrait {
    /// The identity on `n_qubits` qubits.
    fn new(n_qubits: usize) -> Self;

    fn n_qubits(&self) -> usize;

    /// Brings the cached hash up to date with the bits.
    fn rehash(&mut self);
}
