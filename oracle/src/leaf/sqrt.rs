//! The root against the processor's.

use super::{one_argument, Leaf};
use crate::random::Random;
use crate::shapes::{moved, power_of_two, wide};
use crate::symbols;

pub static LEAF: Leaf = Leaf {
    name: "sqrt",
    arity: 1,
    ours: |[a, ..]| Some(unsafe { symbols::SQRT?(a) }),
    wanted: |[a, ..]| a.sqrt(),
    standard: |[a, ..]| a.sqrt(),
    fixed: || one_argument(&[0, 1, 2, (1 << 51) - 1, 1 << 51, (1 << 51) + 1, (1 << 52) - 2, (1 << 52) - 1]),
    case: |random| [case(random), 0.0, 0.0],
};

fn case(random: &mut Random) -> f64 {
    match random.below(6) {
        0 => f64::from_bits(random.word()),
        1 => wide(random),
        // Squares and their neighbours.
        2 => {
            let k = (random.word() >> random.between(37, 63)) as f64;
            moved(k * k * power_of_two(2 * random.between(-500, 480)), random.between(-2, 2))
        }
        3 | 4 => beside_middle(random),
        // Subnormals of every length.
        _ => f64::from_bits(random.word() >> random.between(12, 63)),
    }
}

/// Significands c and middles: c² + c lies just below (c + 1/2)²; the numbers about it have roots about that middle.
fn beside_middle(random: &mut Random) -> f64 {
    let c = u128::from(random.word() >> 12 | 1 << 52);
    let n = ((c * c + c) >> 52) as u64;
    let beside = n + random.below(3) - 1;
    // Below 2^53 the number is exact; from there on it has one more digit than fits, so that it is rounded here.
    beside as f64 * power_of_two(2 * random.between(-530, 480))
}
