//! Calls of RJ that are aimed at what is rare by chance, and which aims a call has met.

use crate::call::{Call, Entry};
use crate::random::Random;
use crate::shapes::{self, moved, power_of_two};
use doc01::{Answer, Judged};
use untouched::carlson::{elliprc, elliprf, elliprj};

/// A call with p's sign as asked; a few p are zeros, infinities and NaN.
pub fn draw(random: &mut Random, below_zero: bool) -> Call {
    let mut args = if below_zero { aimed_below(random) } else { aimed_above(random) };
    args[3] = if below_zero { -args[3].abs() } else { args[3].abs() };
    Call::new(Entry::RJ, &args)
}

fn aimed_above(random: &mut Random) -> [f64; 4] {
    match random.below(8) {
        0..=2 => any(random),
        3 => p_near(random),
        4 => small_products(random),
        5 => extreme(random),
        6 => closed_forms(random),
        _ => far_p(random),
    }
}

fn aimed_below(random: &mut Random) -> [f64; 4] {
    match random.below(16) {
        0..=3 => any(random),
        4 | 5 => {
            let q = if random.coin() { shapes::moderate(random) } else { shapes::wide(random) };
            shapes::near_zero_of_rj(random, q)
        }
        6 | 7 => p_near(random),
        8 | 9 => small_products(random),
        10 | 11 => extreme(random),
        12 | 13 => deep(random),
        14 => endless(random),
        _ => closed_forms(random),
    }
}

fn any(random: &mut Random) -> [f64; 4] {
    let call = shapes::draw(random, Entry::RJ);
    call.args().try_into().expect("RJ has four arguments")
}

/// p within a few patterns, or some digits, of one of the others.
fn p_near(random: &mut Random) -> [f64; 4] {
    let mut args = any(random);
    let beside = args[random.below(3) as usize];
    args[3] = shapes::close(random, beside);
    args
}

/// A largest argument that is not rescaled, and another so small that their product is subnormal or nearly so.
fn small_products(random: &mut Random) -> [f64; 4] {
    let k = random.between(-127, 126);
    let large = shapes::fraction(random) * power_of_two(k);
    let small = shapes::fraction(random) * power_of_two((random.between(-1080, -1015) - k).max(-1074));
    let mut args = [large, small, 0.0, 0.0];
    for arg in &mut args[2..] {
        *arg = match random.below(4) {
            0 => shapes::scaled(random, -1074, k),
            1 => large * shapes::scaled(random, -9, -1),
            2 => small * shapes::scaled(random, -4, 9),
            _ => shapes::scaled(random, -600, -400).min(large),
        };
    }
    random.shuffle(&mut args);
    args
}

/// Arguments at the far ends of the range.
pub fn extreme(random: &mut Random) -> [f64; 4] {
    [0; 4].map(|_| match random.below(8) {
        0 => 0.0,
        1 | 2 => f64::from_bits(1 + random.below(40)),
        3 => shapes::scaled(random, -1070, -1000),
        4 => shapes::scaled(random, -130, -126),
        5 => shapes::scaled(random, 126, 130),
        6 => shapes::moderate(random),
        _ => shapes::wide(random),
    })
}

/// p so far above the others that these are rescaled a second time, after p is gone: four calls deep if p is rescaled too.
fn deep(random: &mut Random) -> [f64; 4] {
    let top = if random.coin() { random.between(128, 1000) } else { random.between(-700, -128) };
    let gap = random.between(126, 300);
    let small = |random: &mut Random| shapes::fraction(random) * power_of_two((top - gap - random.between(0, 20)).max(-1074));
    let zero = random.below(8) == 0;
    let mut xyz = [small(random), small(random), if zero { 0.0 } else { small(random) }];
    random.shuffle(&mut xyz);
    [xyz[0], xyz[1], xyz[2], shapes::fraction(random) * power_of_two(top)]
}

/// No. 10 and its border: z times the sum of the others is rounded to zero, and is p of the next call.
fn endless(random: &mut Random) -> [f64; 4] {
    let mut few = || f64::from_bits(random.below(9));
    let (x, y, q) = (few(), few(), few());
    let patterns = (x + y + q).to_bits().max(1) as f64;
    let border = 0.5 / patterns;
    let z = match random.below(3) {
        0 => moved(border, random.between(-2, 2)),
        1 => border * shapes::fraction(random) / 2.0,
        _ => border * shapes::scaled(random, -120, 2),
    };
    let mut xyz = [x, y, z];
    random.shuffle(&mut xyz);
    [xyz[0], xyz[1], xyz[2], q]
}

/// Equal arguments among x, y, z, p, and p / y about 1.2, where closed forms give way to duplication.
fn closed_forms(random: &mut Random) -> [f64; 4] {
    let y = if random.coin() { shapes::moderate(random) } else { shapes::wide(random) };
    let other = y * shapes::scaled(random, -4, 3);
    let p = match random.below(4) {
        0 => y,
        1 => other,
        2 => moved(y * if random.coin() { 1.2 } else { 1.0 / 1.2 }, random.between(-2, 2)),
        _ => y * shapes::scaled(random, -2, 1),
    };
    let mut xyz = [y, y, if random.coin() { y } else { other }];
    random.shuffle(&mut xyz);
    [xyz[0], xyz[1], xyz[2], p]
}

/// p far above or below the others, to where the cap of 100 rounds is spent.
fn far_p(random: &mut Random) -> [f64; 4] {
    let p = shapes::scaled(random, -1074, 1022);
    [shapes::moderate(random), shapes::moderate(random), shapes::moderate(random), p]
}

/// The names of the aims that a call has met.
pub fn met(call: &Call, judged: &Judged) -> Vec<&'static str> {
    let &[x, y, z, p] = call.args() else { return Vec::new() };
    let (xyz, q) = ([x, y, z], p.abs());
    let refused_10 = judged.answer == Answer::Refused(10);
    let near = |a: f64| a > 0.0 && a.is_finite() && (q - a).abs() <= a / 1024.0;
    let tests = [
        ("p above zero", p > 0.0),
        ("p below zero", p < 0.0),
        ("within 2^-25 of the zero", p < 0.0 && beside_zero(xyz, q)),
        ("no. 10", refused_10),
        ("four deep and answered", judged.depth == 4 && !refused_10),
        ("a subnormal product", has_small_product([x, y, z, q])),
        ("p within 2^-10 of x, y or z", xyz.into_iter().any(near)),
    ];
    tests.into_iter().filter(|(_, met)| *met).map(|(name, _)| name).collect()
}

/// Near RJ(2q, 2q, 3q, -q) = 0.
fn beside_zero(mut xyz: [f64; 3], q: f64) -> bool {
    xyz.sort_by(f64::total_cmp);
    q.is_finite() && xyz.into_iter().zip([2.0, 2.0, 3.0]).all(|(a, by)| (a - by * q).abs() <= q * power_of_two(-25))
}

/// Two arguments above zero have a product below the least normal number.
fn has_small_product(args: [f64; 4]) -> bool {
    let small = |a: f64, b: f64| a > 0.0 && b > 0.0 && a * b < f64::MIN_POSITIVE;
    (0..4).any(|i| (0..i).any(|j| small(args[i], args[j])))
}

/// RJ with p below zero is a sum of three parts over z - p, which cancel near RJ's zero; here that is said of a value
/// below a sixteenth of the largest part, after the arguments' largest is made 1.
pub fn cancels(call: &Call, value: f64) -> bool {
    let &[x, y, z, p] = call.args() else { return false };
    if p >= 0.0 {
        return false;
    }
    let scale = x.max(y).max(z).max(-p);
    let mut xyz = [x, y, z].map(|a| a / scale);
    xyz.sort_by(f64::total_cmp);
    let ([x, y, z], q) = (xyz, -p / scale);
    let inner = (z * (x + y + q) - x * y) / (z + q);
    // With another p the untouched crate might not end.
    if inner.is_nan() || inner <= 0.0 {
        return false;
    }
    let pq = inner * q;
    let part_rj = (inner - z) * elliprj(x, y, z, inner).unwrap_or(0.0);
    let part_rf = 3.0 * elliprf(x, y, z).unwrap_or(0.0);
    let part_rc = 3.0 * (x * y * z / (x * y + pq)).sqrt() * elliprc(x * y + pq, pq).unwrap_or(0.0);
    let scaled = value * scale * scale.sqrt();
    scaled.abs() * (z + q) < part_rj.abs().max(part_rf).max(part_rc) / 16.0
}

#[cfg(test)]
mod tests {
    use super::*;

    /// Each aim is met often enough to be worth its share, on either side of zero.
    #[test]
    fn aims_are_met() {
        let mut random = Random::new(5);
        let mut counts = std::collections::BTreeMap::new();
        for i in 0..40_000 {
            let call = draw(&mut random, i % 2 == 0);
            for aim in met(&call, &call.judged()) {
                *counts.entry(aim).or_insert(0) += 1;
            }
        }
        assert_eq!(counts.len(), 7, "{counts:?}");
        assert!(counts.values().all(|&times| times >= 200), "{counts:?}");
    }

    #[test]
    fn stated_aims() {
        let call = Call::parse("RJ 0000000000000000 0000000000000001 3FD0000000000000 8000000000000001").unwrap();
        let judged = call.judged();
        assert_eq!(judged.answer, Answer::Refused(10));
        assert_eq!(met(&call, &judged), ["p below zero", "no. 10", "a subnormal product", "p within 2^-10 of x, y or z"]);
        let zero = Call::new(Entry::RJ, &[3.0, 2.0, 2.0, -1.0]);
        assert_eq!(met(&zero, &zero.judged()), ["p below zero", "within 2^-25 of the zero"]);
    }
}
