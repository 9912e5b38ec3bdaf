// SPDX-FileCopyrightText: 2026 The PPVM Authors
// SPDX-License-Identifier: Apache-2.0

//! Stand-in for `ppvm-pauli-word`: the packed Pauli word under `ppvm_lindblad::Word`.
//!
//! The lanes and what the published files do with them are as published. Guessed, and so able to
//! distort, are
//! - the cached hash (FxHash over the x lanes, then the z lanes). It sets the order of action
//!   terms, hence the order in which leakage and column norms are summed, which words the tests of
//!   membership by a 64-bit hash confuse, and the drain order of hash maps, hence ties;
//! - `Ord` (x lanes, then z lanes), which only breaks ties between equal hashes;
//! - `Eq` (the lanes only, not the number of qubits);
//! - the time that `rehash` and copying a word take.

pub mod bits;
pub mod word;
