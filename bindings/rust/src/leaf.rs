//! The leaves: plain functions on f64, the same bits on every machine. Which NaN a leaf gives is left open.

use crate::symbols;

// Each reads numbers and writes nothing, so that a call is safe.

/// The square root, rounded once.
pub fn sqrt(x: f64) -> f64 {
    unsafe { symbols::gatewren_sqrt(x) }
}

/// a times b plus c, rounded once.
pub fn mul_add(a: f64, b: f64, c: f64) -> f64 {
    unsafe { symbols::gatewren_mul_add(a, b, c) }
}

/// The power -3/2, rounded once.
pub fn pow_neg_3_2(a: f64) -> f64 {
    unsafe { symbols::gatewren_pow_neg_3_2(a) }
}

/// The arc tangent, within one unit; at every finite number and both infinities.
pub fn atan(x: f64) -> f64 {
    unsafe { symbols::gatewren_atan(x) }
}

/// The natural logarithm, within one unit; at every finite number above zero, and 1 gives +0. A zero of either sign gives
/// -infinity, +infinity itself, a number below zero NaN.
pub fn ln(x: f64) -> f64 {
    unsafe { symbols::gatewren_ln(x) }
}

/// The natural logarithm of 1 + x, within one unit; for x from -3/4 to 3/4, else NaN.
pub fn ln_1p(x: f64) -> f64 {
    unsafe { symbols::gatewren_ln_1p(x) }
}
