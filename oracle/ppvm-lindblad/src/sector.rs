// SPDX-FileCopyrightText: 2026 The PPVM Authors
// SPDX-License-Identifier: Apache-2.0

//! Stand-in for the published `sector` module: momentum sectors of a translation group.
//!
//! Here the group has one element, so that every word is its own orbit. The distortion is whole:
//! what goes by orbits gives no meaningful answer for any other group. Document 01 has no orbits,
//! and the driver asks nothing of them.

use crate::Word;
use num::Complex;
use std::marker::PhantomData;

pub struct Sector<'a>(PhantomData<&'a ()>);

impl Sector<'_> {
    /// The number of words in the orbit of `w`.
    pub fn orbit_size<const C: usize>(&self, _w: &Word<C>) -> Option<usize> {
        Some(1)
    }

    /// The word that stands for the orbit of `w`, the character between them, and the orbit's size.
    pub fn canonicalize_phase<const C: usize>(
        &self,
        w: &Word<C>,
    ) -> Option<(Word<C>, Complex<f64>, usize)> {
        Some((*w, Complex::new(1.0, 0.0), 1))
    }
}
