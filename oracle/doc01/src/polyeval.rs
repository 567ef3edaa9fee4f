//! Document 01's polynomial in the place of the crate's `polyeval`: Horner's rule from the highest coefficient, product
//! and sum rounded apart.

use crate::hooks::{is_theirs, Theirs};
use num_traits::Float;

/// The crate's own, to see what this rule alone changes.
mod theirs {
    include!(concat!(env!("OUT_DIR"), "/polyeval.rs"));
}

pub(crate) fn polyeval<T: Float>(x: T, coefficients: &[T]) -> T {
    if is_theirs(Theirs::Polynomial) {
        return theirs::polyeval(x, coefficients);
    }
    let (&highest, rest) = coefficients.split_last().expect("a polynomial has a coefficient");
    rest.iter().rev().fold(highest, |sum, &coefficient| sum * x + coefficient)
}
