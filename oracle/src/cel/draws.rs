//! Calls of cel by chance, in the shapes that its branches ask for, and whether a value lies near a zero.

use crate::call::{Call, Entry};
use crate::random::Random;
use crate::shapes::{self, close, moderate, moved, power_of_two, scaled, wide};

/// A call in one of many shapes: in half of them as the other entries' are, elsewhere aimed. Each argument is below zero in some.
pub fn draw(random: &mut Random) -> Call {
    let mut args = [0.0; 4];
    match random.below(16) {
        shape @ 0..=7 => {
            let shape = if shape < 4 { 0 } else { random.below(15) };
            shapes::fill(random, shape, &mut args);
        }
        8 => args = [moved(1.0, random.between(-9, 9)), moderate(random), moderate(random), moderate(random)],
        9 => args = [scaled(random, -1074, 1022), moderate(random), moderate(random), moderate(random)],
        10 => args = [scaled(random, 505, 512), scaled(random, -3, 3), moderate(random), moderate(random)],
        11 => args = [0; 4].map(|_| wide(random)),
        12 => args = beside_square(random),
        13 => args = [any(random), 1.0, 1.0, if random.coin() { 1.0 } else { moderate(random) }],
        14 => args = with_infinite(random),
        _ => args = [scaled(random, -60, 60), any(random), any(random), any(random)],
    }
    for (place, arg) in args.iter_mut().enumerate() {
        let below_zero = if place == 1 { random.coin() } else { random.below(4) == 0 };
        *arg = if below_zero { -*arg } else { *arg };
    }
    Call::new(Entry::CEL, &args)
}

fn any(random: &mut Random) -> f64 {
    if random.coin() {
        moderate(random)
    } else {
        wide(random)
    }
}

/// p about kc^2, where the third kind becomes a simpler one; its sign is drawn later.
fn beside_square(random: &mut Random) -> [f64; 4] {
    let kc = if random.coin() { moderate(random) } else { scaled(random, -500, 500) };
    [kc, close(random, kc * kc), moderate(random), if random.coin() { kc * kc } else { moderate(random) }]
}

/// One or two infinite arguments, in some calls a kc that overflows beside them, and in a few a NaN.
fn with_infinite(random: &mut Random) -> [f64; 4] {
    let kc = random.below(3) == 0;
    let mut args = [if kc { scaled(random, 500, 1022) } else { moderate(random) }, any(random), any(random), any(random)];
    for _ in 0..1 + random.below(2) {
        args[random.below(4) as usize] = f64::INFINITY;
    }
    if random.below(8) == 0 {
        args[random.below(4) as usize] = f64::NAN;
    }
    args
}

/// Cel is a mean of a and b; here it is near a zero if below a sixteenth of what it would be with every part taken by its size.
/// For p below zero these are the parts of the Rust's reduction.
pub fn cancels(call: &Call, value: f64) -> bool {
    let &[kc, p, a, b] = call.args() else { return false };
    let (a, b) = (a.abs(), b.abs());
    let sized = if p > 0.0 {
        untouched::bulirsch::cel(kc, p, a, b)
    } else {
        let (g, square) = (1.0 - p, kc * kc);
        let root = ((square - p) / g).sqrt();
        let first = (a + b) / g;
        let second = (b + a * p.abs()) * (1.0 - square).abs() / (g * g * root) + first * root;
        untouched::bulirsch::cel(kc, root * root, first, second * root)
    };
    sized.is_ok_and(|sized| sized.is_finite() && value.abs() < sized / 16.0)
}

/// How far from 1 and how long the arguments are, for a choice of the smallest: their exponents' sizes and their digits after the
/// first, and an infinity is as 2^8; a sign counts as a digit.
pub fn size(call: &Call) -> u64 {
    let of = |arg: &f64| {
        let bits = arg.abs().to_bits();
        let (field, digits) = ((bits >> 52) as i64, bits << 12);
        let length = if digits == 0 { 0 } else { 64 - u64::from(digits.trailing_zeros()) };
        let exponent = match field {
            0x7FF => 8,
            0 if digits == 0 => 8,
            0 => 1022 + u64::from(digits.leading_zeros()),
            _ => (field - 1023).unsigned_abs(),
        };
        exponent + length + u64::from(arg.is_sign_negative())
    };
    call.args().iter().map(of).sum()
}

/// Few simple arguments beside powers of two as kc, where something changes, so that the smallest calls are met whatever chance has
/// drawn.
pub fn simple() -> Vec<Call> {
    let few = [1.0, 2.0, 0.5, f64::INFINITY, -1.0, -2.0, f64::NEG_INFINITY];
    let mut calls = Vec::new();
    for k in (-20..20)
        .chain(500..530)
        .chain([-1074, -1022, -180, -179, -178, -177, -176, -175, 175, 176, 177, 178, 179, 180, 1023, 1024])
    {
        for way in 0..few.len().pow(3) {
            let rest = [1, few.len(), few.len().pow(2)].map(|by| few[way / by % few.len()]);
            calls.push(Call::new(Entry::CEL, &[power_of_two(k), rest[0], rest[1], rest[2]]));
        }
    }
    calls
}

#[cfg(test)]
mod tests {
    use super::*;
    use doc01::{Answer, Road, Way};
    use std::collections::BTreeMap;

    /// Every answer that cel can have comes often.
    #[test]
    fn every_answer_is_drawn() {
        let mut random = Random::new(3);
        let mut answers = BTreeMap::new();
        for _ in 0..40_000 {
            let call = draw(&mut random);
            let kind = match call.judged().answer {
                Answer::Value(_, Way { road: Road::Loop, rounds, .. }) => {
                    assert_eq!(rounds, doc01::cel_passes(call.args()[0]), "kc alone decides the passes");
                    0
                }
                Answer::Value(..) => 100,
                Answer::Refused(number) => number,
            };
            *answers.entry(kind).or_insert(0) += 1;
        }
        assert_eq!(answers.keys().copied().collect::<Vec<u32>>(), [0, 1, 4, 6, 19, 20, 100], "{answers:?}");
        assert!(answers.values().all(|&times| times >= 100), "{answers:?}");
    }

    #[test]
    fn zeros_and_sizes() {
        let call = |args: [f64; 4]| Call::new(Entry::CEL, &args);
        let value = |call: &Call| call.untouched().expect("a value");
        let plain = call([0.5, 1.0, 1.0, 1.0]);
        assert!(!cancels(&plain, value(&plain)));
        let third = call([0.5, -0.5, 1.0, 2.0]);
        assert!(!cancels(&third, value(&third)) && cancels(&third, 0.0));
        let near = call([1.0, 1.0, 1.0, -1.0 - f64::EPSILON]);
        assert!(cancels(&near, value(&near)));
        assert_eq!(size(&plain), 1);
        assert_eq!(size(&call([1.0, -3.0, f64::INFINITY, 1.0])), 1 + 1 + 1 + 8);
    }
}
