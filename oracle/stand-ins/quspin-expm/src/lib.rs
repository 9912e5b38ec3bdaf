// SPDX-FileCopyrightText: 2026 The PPVM Authors
// SPDX-License-Identifier: Apache-2.0

//! Stand-in for `quspin-expm`: where the real one sums a Taylor series, this one answers questions about
//! the published matrix, the shift and the degree that it is handed.
//!
//! Document 01 leaves the series out and keeps the matrix, its product and the degree, which are
//! private to the published files. Here is the only place from where they can be reached. The
//! distortion is whole: `pc_step` and all else that exponentiates gives no meaningful answer.

use ndarray::ArrayViewMut1;
use quspin_types::{ExpmComputation, LinearOperator, QuSpinError};
use std::cell::{Cell, RefCell};
use std::time::Instant;

/// The degree m and the number of steps s that an exponential was asked for.
#[derive(Clone, Copy, Debug, PartialEq, Eq)]
pub struct Degree {
    pub m: usize,
    pub s: usize,
}

/// A vector x, and perhaps one that M x is added to.
#[derive(Clone, Debug, Default)]
pub struct Product {
    pub input: Vec<f64>,
    pub start: Option<Vec<f64>>,
}

/// What is asked about the matrix M of the next exponential.
#[derive(Clone, Debug, Default)]
pub struct Questions {
    pub products: Vec<Product>,
    /// Whether all entries are asked for: those of column j are the product with the j-th unit vector.
    pub entries: bool,
}

/// What an exponential was handed, and what the questions about its matrix found.
#[derive(Clone, Debug)]
pub struct Seen {
    pub mu: f64,
    pub degree: Degree,
    pub products: Vec<Vec<f64>>,
    /// Row, column and value, by column, then row.
    pub entries: Vec<(usize, usize, f64)>,
    /// How long the products took.
    pub seconds: Vec<f64>,
}

thread_local! {
    static QUESTIONS: RefCell<Questions> = RefCell::default();
    static SEEN: Cell<Option<Seen>> = const { Cell::new(None) };
}

/// Makes `call`. Also tells what its last exponential was handed, if there was one.
pub fn watch<R>(questions: Questions, call: impl FnOnce() -> R) -> (R, Option<Seen>) {
    QUESTIONS.set(questions);
    SEEN.set(None);
    let answer = call();
    QUESTIONS.take();
    (answer, SEEN.take())
}

pub struct ExpmOp<Op> {
    op: Op,
    mu: f64,
    degree: Degree,
}

impl<Op> ExpmOp<Op> {
    pub fn from_parts<T>(op: Op, _t: T, mu: T, s: usize, m: usize, _tol: T::Real) -> Self
    where
        T: ExpmComputation,
        Op: LinearOperator<T>,
    {
        Self {
            op,
            mu: mu.real(),
            degree: Degree { m, s },
        }
    }

    /// Leaves the vector as it is.
    pub fn apply<T>(&self, vector: ArrayViewMut1<'_, T>) -> Result<(), QuSpinError>
    where
        T: ExpmComputation,
        Op: LinearOperator<T>,
    {
        let dim = vector.0.len();
        let questions = QUESTIONS.take();
        let mut seen = Seen {
            mu: self.mu,
            degree: self.degree,
            products: Vec::new(),
            entries: Vec::new(),
            seconds: Vec::new(),
        };
        for product in &questions.products {
            let (output, seconds) = self.product::<T>(dim, product)?;
            seen.products.push(output);
            seen.seconds.push(seconds);
        }
        for column in 0..if questions.entries { dim } else { 0 } {
            let mut product = Product {
                input: vec![0.0; dim],
                start: None,
            };
            product.input[column] = 1.0;
            let (output, _) = self.product::<T>(dim, &product)?;
            let entries = output.into_iter().enumerate().filter(|(_, x)| *x != 0.0);
            seen.entries
                .extend(entries.map(|(row, x)| (row, column, x)));
        }
        SEEN.set(Some(seen));
        Ok(())
    }

    /// The product, and how long it took.
    fn product<T>(&self, dim: usize, product: &Product) -> Result<(Vec<f64>, f64), QuSpinError>
    where
        T: ExpmComputation,
        Op: LinearOperator<T>,
    {
        let vector =
            |reals: &[f64]| -> Vec<T> { reals.iter().map(|&re| T::of_real(re)).collect() };
        let input = vector(&product.input);
        let mut output = match &product.start {
            Some(start) => vector(start),
            None => vector(&vec![0.0; dim]),
        };
        let clock = Instant::now();
        self.op.dot(product.start.is_none(), &input, &mut output)?;
        let seconds = clock.elapsed().as_secs_f64();
        Ok((output.into_iter().map(T::real).collect(), seconds))
    }
}
