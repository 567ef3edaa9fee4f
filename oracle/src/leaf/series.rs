//! `atan`, `ln` and `ln_1p` against the rules.

use super::{Args, Leaf};
use crate::random::Random;
use crate::shapes::{corner, moved, power_of_two, scaled, wide, CORNERS};
use crate::symbols;
use doc01::rules;

pub static ATAN: Leaf = Leaf {
    name: "atan",
    arity: 1,
    ours: |[a, ..]| Some(unsafe { symbols::ATAN?(a) }),
    wanted: |[a, ..]| rules::atan(a),
    standard: |[a, ..]| a.atan(),
    fixed,
    case: |random| signed(random, |random| of_any_size(random)),
};

pub static LN: Leaf = Leaf {
    name: "ln",
    arity: 1,
    ours: |[a, ..]| Some(unsafe { symbols::LN?(a) }),
    wanted: |[a, ..]| rules::ln(a),
    standard: |[a, ..]| a.ln(),
    fixed,
    case: |random| [above_zero(random), 0.0, 0.0],
};

pub static LN_1P: Leaf = Leaf {
    name: "ln_1p",
    arity: 1,
    ours: |[a, ..]| Some(unsafe { symbols::LN_1P?(a) }),
    wanted: |[a, ..]| rules::ln_1p(a),
    standard: |[a, ..]| a.ln_1p(),
    fixed,
    case: |random| signed(random, |random| to_three_quarters(random)),
};

/// Of either sign: the corners, each power of two and the numbers about it, and those about 3/4 and 1.
fn fixed() -> Vec<Args> {
    let powers = (-1075..1025).flat_map(|k| (-3..4).map(move |off| moved(power_of_two(k), off)));
    let borders = [0.75, 1.0].into_iter().flat_map(|at| (-99..100).map(move |off| moved(at, off)));
    let all = CORNERS.map(f64::from_bits).into_iter().chain(powers).chain(borders);
    all.flat_map(|a| [[a, 0.0, 0.0], [-a, 0.0, 0.0]]).collect()
}

fn signed(random: &mut Random, size: impl Fn(&mut Random) -> f64) -> Args {
    let a = size(random);
    [if random.coin() { a } else { -a }, 0.0, 0.0]
}

/// All exponents alike, and more where the sums are long: about 1 and to the ends of each range.
fn of_any_size(random: &mut Random) -> f64 {
    match random.below(8) {
        0 => f64::from_bits(random.word()),
        1 => wide(random),
        2 => scaled(random, -60, -1),
        3 => scaled(random, 0, 70),
        4 => scaled(random, -6, 5),
        5 => scaled(random, -2, -1),
        6 => scaled(random, 0, 3),
        _ => corner(random),
    }
}

/// Mostly above zero, where `ln` has a value: a part to each of its rules, and to the places where they meet.
fn above_zero(random: &mut Random) -> f64 {
    match random.below(12) {
        0 => of_any_size(random),
        1 => scaled(random, 1, 3),
        2 => scaled(random, 1, 70),
        3 => scaled(random, 1, 1023),
        4 | 5 => scaled(random, 0, 0),
        6 | 7 => scaled(random, -1, -1),
        8 => scaled(random, -1022, -2),
        9 => within_2_40_of_one(random),
        10 => subnormal(random),
        _ => {
            let power = power_of_two(random.between(-1074, 1023));
            moved(power, random.between(-9, 9))
        }
    }
}

fn subnormal(random: &mut Random) -> f64 {
    let digits = random.between(1, 52);
    f64::from_bits(1 + random.below((1 << digits) - 1))
}

/// Below 1 the numbers lie twice as dense as above it.
fn within_2_40_of_one(random: &mut Random) -> f64 {
    let reach = 1 << random.between(0, 12);
    moved(1.0, random.between(-2 * reach, reach))
}

/// Mostly up to 3/4, where `ln_1p` has a value.
fn to_three_quarters(random: &mut Random) -> f64 {
    match random.below(8) {
        0 => of_any_size(random),
        1 => moved(0.75, random.between(-(1 << 20), 9)),
        2 => scaled(random, -60, -2),
        3 => scaled(random, -1074, -2),
        _ => 0.75 * (scaled(random, 0, 0) - 1.0),
    }
}
