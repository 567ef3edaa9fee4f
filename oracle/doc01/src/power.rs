//! a^(-3/2), for `powf(-1.5)`: the exact result rounded once (document 01, "What the leaves mean").
//!
//! The middle between the f64 of pattern b and the next above it is h = (2m + 1)·2^(l-1), where m·2^l is the value of b;
//! this holds across powers of two, for subnormals, for b = 0, and for the largest f64, above which lies +infinity.
//! a^(-3/2) > h says h²a³ < 1. The answer is the least pattern whose middle above is not below a^(-3/2); no middle equals
//! it, since h²a³ = 1 would make 2m + 1 a power of two, so 1, and 1075·2 divisible by 3.
//! The C library's power is a start only: the two loops are right from any.

use crate::natural::{parts, Natural};

const INFINITY: u64 = 0x7FF0_0000_0000_0000;

pub fn neg_three_halves(a: f64) -> f64 {
    if a.is_nan() || a < 0.0 {
        return f64::NAN;
    }
    if a == 0.0 {
        return f64::INFINITY;
    }
    if a == f64::INFINITY {
        return 0.0;
    }
    nearest(a, a.powf(-1.5).to_bits().min(INFINITY))
}

fn nearest(a: f64, start: u64) -> f64 {
    let mut b = start;
    while b > 0 && !above_middle(a, b - 1) {
        b -= 1;
    }
    while b < INFINITY && above_middle(a, b) {
        b += 1;
    }
    f64::from_bits(b)
}

/// Whether a^(-3/2) is above the middle of the patterns b and b + 1.
fn above_middle(a: f64, b: u64) -> bool {
    let (n, e) = parts(a.to_bits());
    let (m, l) = parts(b);
    let product = Natural::one().times_power(2 * m + 1, 2).times_power(n, 3);
    product.is_below_power_of_two(2 - 2 * l - 3 * e)
}

#[cfg(test)]
mod tests {
    use super::*;

    #[test]
    fn exact_powers() {
        for k in -500..=350 {
            let a = 4.0f64.powi(k);
            let shown = neg_three_halves(a).to_bits();
            let wanted = if -3 * k > 1023 { INFINITY } else { pattern_of_power_of_two(-3 * k) };
            assert_eq!(shown, wanted, "4^{k}");
        }
        assert_eq!(neg_three_halves(9.0), 1.0 / 27.0);
        assert_eq!(neg_three_halves(0.25), 8.0);
    }

    fn pattern_of_power_of_two(k: i32) -> u64 {
        match k {
            -1022.. => ((k + 1023) as u64) << 52,
            -1074..=-1023 => 1 << (k + 1074),
            _ => 0,
        }
    }

    #[test]
    fn specials() {
        assert_eq!(neg_three_halves(0.0).to_bits(), INFINITY);
        assert_eq!(neg_three_halves(-0.0).to_bits(), INFINITY);
        assert_eq!(neg_three_halves(f64::INFINITY).to_bits(), 0);
        assert!(neg_three_halves(-1.0).is_nan() && neg_three_halves(f64::NAN).is_nan());
        assert!(neg_three_halves(f64::NEG_INFINITY).is_nan());
        assert_eq!(neg_three_halves(f64::from_bits(1)).to_bits(), INFINITY);
        assert_eq!(neg_three_halves(f64::MAX).to_bits(), 0);
    }

    /// The loops mend a wrong start on either side, also over a power of two and among subnormals.
    #[test]
    fn any_start() {
        for a in [1.0, 3.0, 0.7, 4.0, 1e-200, 1e205, 3e215, 5e-206] {
            let right = neg_three_halves(a).to_bits();
            for start in [right.saturating_sub(7), right, (right + 7).min(INFINITY)] {
                assert_eq!(nearest(a, start).to_bits(), right, "{a}");
            }
        }
    }
}
