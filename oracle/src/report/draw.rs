//! Lists of calls whose values make sums of every kind: of every size and sign, cancelling, overflowing, subnormal, half-way between
//! two doubles; and calls that are refused with every number that an entry gives.

use crate::aims;
use crate::call::{Call, Entry};
use crate::random::Random;
use crate::shapes::{self, fraction, moderate, power_of_two, scaled, LARGEST};

pub const KINDS: [&str; 8] = [
    "any calls",
    "cel of every size",
    "cancelling",
    "overflowing",
    "half-way",
    "border of infinity",
    "subnormal",
    "powers of two",
];

/// A list of the kind with this number. Some calls of any entry stand among the others of most lists.
pub fn list(random: &mut Random, kind: usize) -> Vec<Call> {
    let mut calls = match kind {
        0 => (0..random.below(250)).map(|_| any(random)).collect(),
        1 => (0..random.below(200)).map(|_| sized(random, -1074, 1022)).collect(),
        2 => cancelling(random),
        3 => overflowing(random),
        4 => half_way(random),
        5 => border(random),
        6 => (0..random.below(60)).map(|_| sized(random, -1074, -1021)).collect(),
        _ => powers(random),
    };
    if random.coin() {
        calls.extend((0..random.below(20)).map(|_| any(random)));
    }
    random.shuffle(&mut calls);
    calls
}

fn any(random: &mut Random) -> Call {
    match random.below(8) {
        0 => {
            let below_zero = random.coin();
            aims::draw(random, below_zero)
        }
        1 => with_nan(random),
        _ => {
            let entry = random.pick(&Entry::ALL);
            shapes::draw(random, entry)
        }
    }
}

/// NaNs with any digits, of either sign: a list hands them over as they are.
fn with_nan(random: &mut Random) -> Call {
    let entry = random.pick(&Entry::ALL);
    let mut args: Vec<f64> = shapes::draw(random, entry).args().to_vec();
    let place = random.below(args.len() as u64) as usize;
    args[place] = f64::from_bits(random.pick(&[0, 1 << 63]) | LARGEST + 2 + random.below(1 << 51));
    Call::new(entry, &args)
}

/// cel(1, 1, a, a) is about a times pi / 2, of a's sign and in a's place; elsewhere kc and p are moderate and b is near a.
fn cel(random: &mut Random, a: f64) -> Call {
    match random.coin() {
        true => Call::new(Entry::CEL, &[1.0, 1.0, a, a]),
        false => Call::new(Entry::CEL, &[moderate(random), moderate(random), a, a * fraction(random) / 2.0]),
    }
}

fn sized(random: &mut Random, low: i64, high: i64) -> Call {
    let size = scaled(random, low, high);
    let sign = random.pick(&[1.0, -1.0]);
    cel(random, sign * size)
}

/// The same value with the other sign: every step of cel is odd in a and b together.
fn opposite(call: &Call) -> Call {
    let &[kc, p, a, b] = call.args() else { panic!("a call of cel") };
    Call::new(Entry::CEL, &[kc, p, -a, -b])
}

/// Values and their opposites, in full or but for a few, with or without something far smaller beside them.
fn cancelling(random: &mut Random) -> Vec<Call> {
    let high = random.between(-1000, 1022);
    let low = if random.coin() { high } else { random.between(-1074, high) };
    let values: Vec<Call> = (0..1 + random.below(80)).map(|_| sized(random, low, high)).collect();
    let opposites: Vec<Call> = values.iter().map(opposite).collect();
    let mut calls = [values, opposites].concat();
    match random.below(4) {
        0 => {}
        1 => drop(calls.pop()),
        2 => calls.push(sized(random, -1074, low)),
        _ => calls.extend((0..random.below(9)).map(|_| sized(random, -1074, -900))),
    }
    calls
}

/// Values near the largest: all of one sign, so that their sum overflows, or of both, so that it overflows on the way in some orders.
fn overflowing(random: &mut Random) -> Vec<Call> {
    let sign = random.pick(&[1.0, -1.0]);
    let mixed = random.below(3) > 0;
    (0..1 + random.below(120))
        .map(|_| {
            let size = scaled(random, 1020, 1022);
            let other = mixed && random.coin();
            Call::new(Entry::CEL, &[1.0, 1.0, if other { -sign * size } else { sign * size }, sign * size])
        })
        .collect()
}

/// Two values of one sign whose exponents are neighbours make, every other time, a sum half-way between two doubles; beside them
/// nothing, what cancels, or something so small that it only says which side.
fn half_way(random: &mut Random) -> Vec<Call> {
    let (size, sign) = (scaled(random, -1060, 1000), random.pick(&[1.0, -1.0]));
    let mut calls = vec![cel(random, sign * size), cel(random, sign * size / 2.0)];
    if random.coin() {
        let far = sized(random, -1074, 1022);
        calls.extend([opposite(&far), far]);
    }
    match random.below(3) {
        0 => calls.push(sized(random, -1074, -1070)),
        1 => {
            let tiny = sized(random, -1074, -1000);
            calls.extend([opposite(&tiny), tiny]);
        }
        _ => {}
    }
    calls
}

/// RD(x, x, x) is x to the power -3/2, exactly a power of two whose exponent is three times another. 14 of each from 2^969 to 2^1020
/// are together 2^1024 - 2^970, half-way between the largest double and 2^1024; then one more or less of any size, or none.
fn border(random: &mut Random) -> Vec<Call> {
    let power = |k: i64| Call::new(Entry::RD, &[power_of_two(-2 * k / 3); 3]);
    let mut calls: Vec<Call> = (323..=340).flat_map(|j| vec![power(3 * j); 14]).collect();
    match random.below(4) {
        0 => {}
        1 => {
            let gone = random.below(calls.len() as u64) as usize;
            calls.remove(gone);
        }
        2 => calls.push(power(3 * random.between(-340, 340))),
        // the lowest is put in smaller coins, but for the last of them
        _ => {
            let at = random.below(14) as usize;
            calls.remove(at);
            let to = if random.below(20) == 0 { random.between(-340, 322) } else { random.between(300, 322) };
            calls.extend((to..323).flat_map(|j| vec![power(3 * j); 7]));
            if random.coin() {
                calls.push(power(3 * to));
            }
        }
    }
    calls
}

/// Closed forms at powers of four: RF, RC and RG have powers of two of every exponent near 0, RD and RJ those of a wider range. Chosen
/// so that the sum is often one power and the half of its last place, with or without more.
fn powers(random: &mut Random) -> Vec<Call> {
    let entry = random.pick(&[Entry::RF, Entry::RC, Entry::RG]);
    let power = |k: i64| {
        let x = power_of_two(if entry == Entry::RG { 2 * k } else { -2 * k });
        Call::new(entry, &vec![x; entry.arity()])
    };
    let top = random.between(-300, 500);
    let mut calls = vec![power(top), power(top - 53)];
    for by in [52, 53, 54, 60, 100] {
        if random.below(3) == 0 {
            calls.push(power(top - by));
        }
    }
    let three = random.pick(&[Entry::RD, Entry::RJ]);
    for _ in 0..random.below(40) {
        let x = power_of_two(2 * random.between(-340, 340));
        calls.push(Call::new(three, &vec![x; three.arity()]));
    }
    calls
}

#[cfg(test)]
mod tests {
    use super::super::exact::{Dropped, Exact, INFINITE};
    use super::*;
    use doc01::Answer;
    use std::collections::BTreeSet;

    fn value(call: &Call) -> Option<f64> {
        match call.judged().answer {
            Answer::Value(bits, _) => Some(f64::from_bits(bits)),
            Answer::Refused(_) => None,
        }
    }

    fn sum(calls: &[Call]) -> Exact {
        let mut sum = Exact::ZERO;
        calls.iter().filter_map(value).for_each(|value| sum.add(value));
        sum
    }

    /// The border is met exactly, and lists on both sides of it are drawn.
    #[test]
    fn infinity() {
        let mut random = Random::new(1);
        let sums: Vec<Exact> = (0..60).map(|_| sum(&border(&mut random))).collect();
        assert!(sums.iter().any(|sum| sum.dropped() == Dropped::Half && sum.rounded() == INFINITE));
        assert!(sums.iter().any(|sum| sum.dropped() == Dropped::Other && sum.rounded() == INFINITE));
        assert!(sums.iter().any(|sum| sum.dropped() == Dropped::Other && sum.rounded() == LARGEST));
    }

    #[test]
    fn opposites_and_halves() {
        let mut random = Random::new(2);
        for _ in 0..2000 {
            let call = sized(&mut random, -1074, 1022);
            assert_eq!(value(&opposite(&call)).map(f64::to_bits), value(&call).map(|value| (-value).to_bits()));
        }
        let halves = (0..200).filter(|_| sum(&half_way(&mut random)).dropped() == Dropped::Half).count();
        let zeros = (0..200).filter(|_| sum(&cancelling(&mut random)).rounded() == 0).count();
        assert!(halves > 20 && zeros > 20, "{halves} {zeros}");
    }

    /// Every number that a list's answers can have.
    #[test]
    fn refusals() {
        let mut random = Random::new(3);
        let mut met = BTreeSet::new();
        for call in (0..100).flat_map(|_| list(&mut random, 0)) {
            if let Answer::Refused(number) = call.judged().answer {
                met.insert(number);
            }
        }
        assert_eq!(met.into_iter().collect::<Vec<u32>>(), [1, 2, 3, 4, 5, 6, 7, 8, 10, 19, 20]);
    }
}
