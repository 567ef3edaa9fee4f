//! The power -3/2 against the exact one of whole numbers.

use super::{one_argument, Leaf};
use crate::random::Random;
use crate::shapes::{moved, scaled, wide};
use crate::symbols;
use doc01::neg_three_halves;

pub static LEAF: Leaf = Leaf {
    name: "pow",
    arity: 1,
    ours: |[a, ..]| Some(unsafe { symbols::POW?(a) }),
    wanted: |[a, ..]| neg_three_halves(a),
    standard: |[a, ..]| a.powf(-1.5),
    fixed: || one_argument(&[0, 1, 2, 1 << 51, (1 << 52) - 2, (1 << 52) - 1]),
    case: |random| [case(random), 0.0, 0.0],
};

fn case(random: &mut Random) -> f64 {
    match random.below(8) {
        0 => f64::from_bits(random.word()),
        1 => wide(random),
        2 => scaled(random, -10, 9),
        // The answer near a power of two, also among subnormals and at the overflow.
        3 | 4 => {
            let k = random.between(-1080, 1030) as f64;
            moved((-k / 1.5).exp2(), random.between(-4, 4))
        }
        // Answers that are subnormal, overflow or vanish.
        5 => scaled(random, 680, 718),
        6 => scaled(random, -684, -681),
        _ => f64::from_bits(random.word() >> random.between(12, 63)),
    }
}
