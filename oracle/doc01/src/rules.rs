//! The rules for `atan`, `ln` and `ln_1p`: THIS FILE IS WHERE THEY STAND for the oracle. Document 01 lets the team fix
//! one whole-number rule for each; a change of rule is a change here and nowhere else, and `make-list` then rewrites the
//! rows marked ` s`. Request 2026-02 has `ln` at every number above zero; the entries never ask it below 1.
//!
//! All is fixed point in u128, and every step rounds down. The two series are summed by short polynomials, one for each
//! sixty-fourth of the range (`rows`).

mod rows;

use rows::{Row, EULER, ODD};

/// floor(2^62·π/2) and floor(2^63·ln 2).
const HALF_PI: u128 = 0x6487_ED51_10B4_611A;
const LN_2: u128 = 0x58B9_0BFB_E8E7_BCD5;

/// The sum at x/2^64, at 2^63: Horner's rule over the row of x's piece, in 4 times the distance from where the piece begins.
fn value(rows: &[Row], x: u128) -> u128 {
    let d = 4 * (x & ((1 << 58) - 1));
    rows[(x >> 58) as usize].iter().rev().fold(0, |h, &c| u128::from(c) + (d * h >> 64))
}

/// The f64 nearest y·2^k, for a y of one word and a normal result: one rounding, then an exact scaling.
fn nearest(y: u128, k: i32) -> f64 {
    let word = u64::try_from(y).expect("one word");
    word as f64 * f64::from_bits(((1023 + k) as u64) << 52)
}

/// m and e with |a| = m·2^(e-52), 2^52 <= m < 2^53, for a normal a.
fn split(a: f64) -> (u128, i32) {
    let bits = a.abs().to_bits();
    (u128::from(bits & ((1 << 52) - 1) | 1 << 52), (bits >> 52) as i32 - 1023)
}

/// The same of a subnormal number too, which is normal when 2^64 times as large.
fn split_any(a: f64) -> (u128, i32) {
    if a.abs() >= f64::MIN_POSITIVE {
        return split(a);
    }
    let (m, e) = split(a * 18_446_744_073_709_551_616.0);
    (m, e - 64)
}

/// Euler's series for t = tau·2^-(62+j), 0 <= t <= 1; the sum is at 2^(62+j) as well.
fn euler_sum(tau: u128, j: i32) -> u128 {
    let u = tau * tau >> (63 + 2 * j);
    let f = (u << 62) / ((1 << 61) + u);
    let p = tau * ((1 << 62) - f) >> 62;
    p * value(&EULER, 4 * f) >> 63
}

pub fn atan(t: f64) -> f64 {
    let size = t.abs();
    if t.is_nan() || size < 1.0 / 134_217_728.0 {
        return t;
    }
    let (m, e) = split(size);
    let result = if e >= 63 {
        nearest(HALF_PI, -62)
    } else if size == 1.0 {
        nearest(euler_sum(1 << 62, 0), -62)
    } else if size < 1.0 {
        let j = -e - 1;
        nearest(euler_sum(m << 9, j), -62 - j)
    } else {
        let tau = ((1 << 114) / m) >> e;
        nearest(HALF_PI - euler_sum(tau, 0), -62)
    };
    result.copysign(t)
}

/// T(s) for s = sg·2^-(62+j), at the scale of sg.
fn odd_sum(sg: u128, j: i32) -> u128 {
    let w = (sg * sg).checked_shr((60 + 2 * j) as u32).unwrap_or(0);
    sg * value(&ODD, w) >> 63
}

/// 2T(a/(2+a)) for a from -3/4 up to 1, of size 2^-54 at least.
fn near_one(a: f64) -> f64 {
    let (m, e) = split(a);
    let j = -e - 1;
    let c = (m << 7) >> j;
    let d = if a < 0.0 { (1 << 61) - c } else { (1 << 61) + c };
    let sum = odd_sum((m << 69) / d, j);
    nearest(sum, -61 - j).copysign(a)
}

/// From -3/4 to 3/4; NaN elsewhere.
pub fn ln_1p(a: f64) -> f64 {
    if !(-0.75..=0.75).contains(&a) {
        return f64::NAN;
    }
    if a.abs() < 1.0 / 18_014_398_509_481_984.0 {
        return a;
    }
    near_one(a)
}

/// e ln 2 + ln(p/q) for e from 1 up and p/q from 1 to 2: T is asked at (p-q)/(p+q).
fn multiple(e: i32, p: u128, q: u128) -> f64 {
    let sum = odd_sum(((p - q) << 63) / (p + q), 1);
    let b = 32 - (e as u32).leading_zeros() as i32;
    nearest((e as u128 * LN_2 >> b) + (2 * sum >> b), b - 63)
}

/// Request 2026-02: at every number above zero. Below 1/2 it is the negative of ln(1/x), where 1/x = 2^(-e-1)·2^53/m.
pub fn ln(x: f64) -> f64 {
    if x.is_nan() || x < 0.0 {
        return f64::NAN;
    }
    if x == 0.0 {
        return f64::NEG_INFINITY;
    }
    if x == 1.0 {
        return 0.0;
    }
    if x == f64::INFINITY {
        return x;
    }
    if (0.5..2.0).contains(&x) {
        return near_one(x - 1.0);
    }
    let (m, e) = split_any(x);
    if x < 0.5 {
        -multiple(-e - 1, 1 << 53, m)
    } else {
        multiple(e, m, 1 << 52)
    }
}

#[cfg(test)]
mod tests;
