// SPDX-FileCopyrightText: 2026 The PPVM Authors
// SPDX-License-Identifier: Apache-2.0

//! Stand-in for `ndarray`: the names of three views.
//!
//! The published files hand over one vector to be changed in place and only name the other two, so
//! nothing can be distorted.

use std::marker::PhantomData;

/// A vector lent for writing.
pub struct ArrayViewMut1<'a, T>(pub &'a mut [T]);

impl<'a, T> From<&'a mut [T]> for ArrayViewMut1<'a, T> {
    fn from(slice: &'a mut [T]) -> Self {
        Self(slice)
    }
}

/// Never made: it stands in signatures only.
pub struct ArrayView2<'a, T>(PhantomData<&'a T>);

/// Never made: it stands in signatures only.
pub struct ArrayViewMut2<'a, T>(PhantomData<&'a mut T>);
