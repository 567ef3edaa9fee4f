//! The rules at their special arguments and, roughly, against the C library; the tables have their own tests.

use super::*;

#[test]
fn specials() {
    let same = |a: f64, b: f64| assert!(a.to_bits() == b.to_bits() || a.is_nan() && b.is_nan(), "{a} {b}");
    let half_pi = std::f64::consts::FRAC_PI_2;
    same(atan(0.0), 0.0);
    same(atan(-0.0), -0.0);
    same(atan(f64::INFINITY), half_pi);
    same(atan(f64::NEG_INFINITY), -half_pi);
    same(atan(f64::NAN), f64::NAN);
    same(atan(f64::from_bits(1)), f64::from_bits(1));
    same(atan(1.0), half_pi / 2.0);
    same(ln(f64::INFINITY), f64::INFINITY);
    same(ln(f64::NEG_INFINITY), f64::NAN);
    same(ln(-1.0), f64::NAN);
    same(ln(-f64::from_bits(1)), f64::NAN);
    same(ln(f64::NAN), f64::NAN);
    same(ln(0.0), f64::NEG_INFINITY);
    same(ln(-0.0), f64::NEG_INFINITY);
    same(ln(1.0), 0.0);
    same(ln(2.0), std::f64::consts::LN_2);
    same(ln(0.5), -std::f64::consts::LN_2);
    same(ln(0.25), -2.0 * std::f64::consts::LN_2);
    same(ln_1p(-0.0), -0.0);
    same(ln_1p(0.7500000000000001), f64::NAN);
    same(ln_1p(f64::NAN), f64::NAN);
}

/// About 1, where a difference in place of ln_1p's rule would have no digits left: ln(1 + d) = d - d²/2 + .. .
#[test]
fn ln_about_one() {
    let unit = f64::EPSILON;
    assert_eq!(ln(1.0 + unit), unit - unit * unit / 2.0);
    assert_eq!(ln(1.0 - unit / 2.0), -unit / 2.0 - unit * unit / 8.0);
    assert_eq!(ln(1.01), 0.009950330853168092);
}

/// The rules meet where one takes over from the other, and a power of two is a multiple of ln 2.
#[test]
fn ln_across_its_rules() {
    for border in [0.5, 1.0, 2.0, f64::MIN_POSITIVE] {
        let (below, above) = (f64::from_bits(border.to_bits() - 1), f64::from_bits(border.to_bits() + 1));
        assert!(ln(below) <= ln(border) && ln(border) <= ln(above), "{border}");
    }
    for k in 1..1075 {
        let power = if k < 1023 { f64::from_bits((1023 - k) << 52) } else { f64::from_bits(1 << (1074 - k)) };
        assert!(near(ln(power), -(k as f64) * std::f64::consts::LN_2), "2^-{k}");
    }
}

/// Two units of the larger: the C library's own error included.
fn near(a: f64, b: f64) -> bool {
    (a - b).abs() <= 2.0 * f64::EPSILON * b.abs()
}

#[test]
fn near_the_c_library() {
    let mut state = 1u64;
    for i in 0..200_000 {
        state = state.wrapping_mul(6364136223846793005).wrapping_add(1442695040888963407);
        let fraction = f64::from_bits(state >> 12 | 0x3FF0_0000_0000_0000);
        let wide = f64::from_bits((state >> 1) % 0x7FF0_0000_0000_0000);
        let small = (fraction - 1.0) * 0.75 / 2.0f64.powi(i % 60);
        assert!(near(atan(wide), wide.atan()) && near(atan(-wide), -wide.atan()), "atan {wide}");
        assert!(near(atan(fraction - 1.0), (fraction - 1.0).atan()), "atan {fraction} - 1");
        assert!(near(atan(fraction), fraction.atan()), "atan {fraction}");
        assert!(near(ln_1p(small), small.ln_1p()) && near(ln_1p(-small), (-small).ln_1p()), "ln_1p {small}");
        for x in [wide, fraction, 2.0 * fraction, 0.5 * fraction, 1.0 + small, 1.0 - small, wide * 1e-300] {
            assert!(x == 0.0 || near(ln(x), x.ln()), "ln {x}");
        }
    }
}
