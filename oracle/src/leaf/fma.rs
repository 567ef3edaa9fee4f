//! The fused multiply-add against the standard library's, which is the processor's or the C library's.

use super::{Args, Leaf};
use crate::random::Random;
use crate::shapes::{corner, fraction, moved, power_of_two, CORNERS};
use crate::symbols;

pub static LEAF: Leaf = Leaf {
    name: "mul_add",
    arity: 3,
    ours: |[a, b, c]| Some(unsafe { symbols::MUL_ADD?(a, b, c) }),
    wanted: |[a, b, c]| a.mul_add(b, c),
    standard: |[a, b, c]| a.mul_add(b, c),
    fixed,
    case,
};

fn fixed() -> Vec<Args> {
    let pairs = CORNERS.into_iter().flat_map(|a| CORNERS.map(|b| [a, b]));
    pairs.flat_map(|[a, b]| CORNERS.map(|c| [a, b, c].map(f64::from_bits))).collect()
}

fn case(random: &mut Random) -> [f64; 3] {
    match random.below(8) {
        0 => [0; 3].map(|_| f64::from_bits(random.word())),
        1 => {
            let mut args = [0; 3].map(|_| f64::from_bits(random.word()));
            args[random.below(3) as usize] = corner(random);
            args
        }
        2 | 3 => cancelling(random),
        // A product of every size to the addend, and sums near the ends of the range.
        4 | 5 => with_gap(random, -800, 800),
        6 => with_gap(random, -1080, -960),
        _ => with_gap(random, 990, 1024),
    }
}

/// A significand of few or many digits, of either sign.
fn significand(random: &mut Random) -> f64 {
    let kept = random.between(0, 52);
    let cut = f64::from_bits(fraction(random).to_bits() >> kept << kept);
    if random.coin() {
        cut
    } else {
        -cut
    }
}

/// The product of two numbers that itself lies about 2^low to 2^high, and an addend up to 120 powers off.
fn with_gap(random: &mut Random, low: i64, high: i64) -> [f64; 3] {
    let k = random.between(low, high);
    let (i, gap) = (k / 2 + random.between(-20, 20), random.between(-120, 120));
    let c = power_of_two((k + gap).clamp(-1074, 1023));
    [significand(random) * power_of_two(i), significand(random) * power_of_two(k - i), significand(random) * c]
}

/// An addend that takes away nearly all of the product.
fn cancelling(random: &mut Random) -> [f64; 3] {
    let k = if random.coin() { random.between(-1060, -900) } else { random.between(-900, 1000) };
    let i = k / 2 + random.between(-20, 20);
    let a = significand(random) * power_of_two(i);
    let b = significand(random) * power_of_two(k - i);
    let off = 1 << random.between(0, 40);
    [a, b, moved(-(a * b), random.between(-off, off))]
}
