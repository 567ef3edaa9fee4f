//! Document 01's unit: 2^-52 times the largest power of two not above a size, and at least 2^-1074.

pub fn unit(value: f64) -> f64 {
    let field = (value.to_bits() >> 52) & 0x7FF;
    match field {
        53.. => f64::from_bits((field - 52) << 52),
        1..=52 => f64::from_bits(1 << (field - 1)),
        _ => f64::from_bits(1),
    }
}

/// How many units of `of` lie between the two.
pub fn distance(of: f64, other: f64) -> f64 {
    let whole = (of - other).abs() / unit(of);
    if whole.is_finite() {
        whole
    } else {
        f64::MAX
    }
}

#[cfg(test)]
mod tests {
    use super::*;

    #[test]
    fn units() {
        assert_eq!(unit(1.0), f64::EPSILON);
        assert_eq!(unit(-1.99), f64::EPSILON);
        assert_eq!(unit(0.99), f64::EPSILON / 2.0);
        assert_eq!(unit(0.0), f64::from_bits(1));
        assert_eq!(unit(f64::MIN_POSITIVE), f64::from_bits(1));
        assert_eq!(unit(f64::MIN_POSITIVE * 2.0), f64::from_bits(2));
        assert_eq!(unit(2.0f64.powi(-970)), f64::MIN_POSITIVE);
        assert_eq!(unit(2.0f64.powi(-971)), f64::MIN_POSITIVE / 2.0);
        assert_eq!(distance(1.0, 1.0 + 3.0 * f64::EPSILON), 3.0);
    }
}
