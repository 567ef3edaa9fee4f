//! The three start factors: 3ε, ε/4 and ε/5 (rounded first) to the power -1/8, as constants. The tests show by eighth
//! powers that each is nearest.

const START: [(f64, u64); 3] = [
    (3.0 * f64::EPSILON, 0x4053_B957_8EB0_BF54),
    (f64::EPSILON / 4.0, 0x405A_E89F_995A_D3AD),
    (f64::EPSILON / 5.0, 0x405B_AB78_E4D1_420D),
];

/// `of` to the power -1/8, for the three arguments that the Rust asks it of.
pub fn factor(of: f64) -> f64 {
    let found = START.iter().find(|(argument, _)| *argument == of);
    f64::from_bits(found.expect("a start factor is asked of 3ε, ε/4 or ε/5").1)
}

#[cfg(test)]
mod tests {
    use super::*;
    use crate::natural::{parts, Natural};

    /// Whether argument^(-1/8) is above the middle of the patterns b and b + 1: middle^8 · argument < 1.
    fn above_middle(argument: f64, b: u64) -> bool {
        let (n, e) = parts(argument.to_bits());
        let (m, l) = parts(b);
        let product = Natural::one().times_power(2 * m + 1, 8).times(n);
        product.is_below_power_of_two(8 - 8 * l - e)
    }

    #[test]
    fn factors_are_nearest_by_eighth_powers() {
        for (argument, bits) in START {
            assert!(above_middle(argument, bits - 1), "{bits:016X} is too large");
            assert!(!above_middle(argument, bits), "{bits:016X} is too small");
        }
    }
}
