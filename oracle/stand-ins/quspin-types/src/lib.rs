// SPDX-FileCopyrightText: 2026 The PPVM Authors
// SPDX-License-Identifier: Apache-2.0

//! Stand-in for `quspin-types`: the trait that the published matrix implements, and its number
//! type.
//!
//! Signatures only, read off the published files; nothing is computed here but a number's
//! conversion, so nothing can be distorted.

use ndarray::{ArrayView2, ArrayViewMut2};
use num::Complex;
use std::ops::Range;
use std::sync::atomic::AtomicU64;

#[derive(Debug)]
pub enum QuSpinError {
    RuntimeError(String),
}

/// A number that a matrix may have: `f64` or `Complex<f64>`.
pub trait ExpmComputation: Copy {
    type Real;
    type Atomic;

    /// Ours: lets a caller outside the published files hand a real vector to a matrix of any
    /// number.
    fn of_real(re: f64) -> Self;

    /// Ours: the real part, to read such a vector.
    fn real(self) -> f64;
}

impl ExpmComputation for f64 {
    type Real = f64;
    type Atomic = AtomicU64;

    fn of_real(re: f64) -> Self {
        re
    }

    fn real(self) -> f64 {
        self
    }
}

impl ExpmComputation for Complex<f64> {
    type Real = f64;
    type Atomic = [AtomicU64; 2];

    fn of_real(re: f64) -> Self {
        Complex::new(re, 0.0)
    }

    fn real(self) -> f64 {
        self.re
    }
}

pub trait LinearOperator<T: ExpmComputation> {
    fn dim(&self) -> usize;

    fn parallel_hint(&self) -> bool;

    fn dot(&self, overwrite: bool, input: &[T], output: &mut [T]) -> Result<(), QuSpinError>;

    fn trace(&self) -> T;

    fn onenorm(&self, shift: T) -> T::Real;

    fn dot_transpose(
        &self,
        overwrite: bool,
        input: &[T],
        output: &mut [T],
    ) -> Result<(), QuSpinError>;

    fn dot_many(
        &self,
        overwrite: bool,
        input: ArrayView2<'_, T>,
        output: ArrayViewMut2<'_, T>,
    ) -> Result<(), QuSpinError>;

    fn dot_chunk(
        &self,
        overwrite: bool,
        input: &[T],
        output_chunk: &mut [T],
        row_start: usize,
    ) -> Result<(), QuSpinError>;

    fn dot_transpose_chunk(
        &self,
        input: &[T],
        output: &[T::Atomic],
        rows: Range<usize>,
    ) -> Result<(), QuSpinError>;
}
