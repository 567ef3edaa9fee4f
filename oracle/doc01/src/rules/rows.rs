//! The tables of the short polynomials, worked out when first used.
//!
//! A partial sum c_0 + c_1·z + c_2·z² + .. is expanded about the start i/64 of each piece; a row holds the first twelve
//! coefficients of the expansion, the k-th at 2^63/4^k, rounded down. Each is a sum of products of small fractions. It is
//! taken in fixed point twice, once with every quotient rounded down and once with every quotient a unit up; where both
//! agree in the digits kept, these are the exact sum's.

use crate::natural::Natural;
use std::sync::LazyLock;

pub type Row = [u64; 12];

/// Euler's series, c_(n+1)/c_n = (2n+2)/(2n+3), 64 terms, pieces up to the one that starts at 1/2.
pub static EULER: LazyLock<Vec<Row>> = LazyLock::new(|| rows(|n| 2 * n + 2, 64, 33));

/// T(s)/s in s², c_(n+1)/c_n = (2n+1)/(2n+3), 44 terms, pieces below 3/8.
pub static ODD: LazyLock<Vec<Row>> = LazyLock::new(|| rows(|n| 2 * n + 1, 44, 24));

/// The fixed point of the sums.
const SCALE: u32 = 384;

fn rows(weight: fn(u64) -> u64, terms: u64, pieces: u64) -> Vec<Row> {
    (0..pieces).map(|i| std::array::from_fn(|k| entry(weight, terms, i, k as u64))).collect()
}

fn entry(weight: fn(u64) -> u64, terms: u64, i: u64, k: u64) -> u64 {
    let kept = |up| (0..SCALE - 63 + 2 * k as u32).fold(coefficient(weight, terms, i, k, up), |sum, _| sum.over(2)).word();
    assert_eq!(kept(0), kept(1), "more digits are wanted");
    kept(0)
}

/// The sum of c_n·(n over k)·(i/64)^(n-k) over n from k on, at 2^SCALE; `up` units are added to each quotient.
fn coefficient(weight: fn(u64) -> u64, terms: u64, i: u64, k: u64, up: u64) -> Natural {
    let ratio = |term: Natural, p: u64, q: u64| term.times(p).over(q).plus(Natural::one().times(up));
    let first = (0..k).fold(Natural::one().times_power(2, SCALE), |c, n| ratio(c, weight(n), 2 * n + 3));
    let next = |term: Natural, n: u64| ratio(term, weight(n) * (n + 1) * i, (2 * n + 3) * (n + 1 - k) * 64);
    (k..terms).fold((first.times(0), first), |(sum, term), n| (sum.plus(term), next(term, n))).0
}

#[cfg(test)]
mod tests {
    use super::*;

    #[test]
    fn the_first_rows_are_the_series() {
        assert_eq!(EULER[0][..3], [1 << 63, (1u64 << 63) / 6, (1u64 << 63) / 30]);
        assert_eq!(ODD[0][..4], [1 << 63, (1u64 << 63) / 12, (1u64 << 63) / 80, (1u64 << 63) / 448]);
        assert_eq!((EULER.len(), ODD.len()), (33, 24));
    }

    /// Each row ends where the next begins.
    #[test]
    fn rows_join() {
        for table in [&*EULER, &*ODD] {
            for pair in table.windows(2) {
                let end = pair[0].iter().rev().fold(0u64, |h, c| c + (h >> 4));
                assert!(pair[1][0].abs_diff(end) < 8, "{pair:?}");
            }
        }
    }
}
