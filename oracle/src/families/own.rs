//! What only one or two of RC, RF, RD and RG have.

use crate::call::{Call, Entry};
use crate::random::Random;
use crate::shapes::{self, moved, power_of_two};

/// y around x, x/2 (where logarithms change) and 0, on both sides of zero.
pub fn rc(random: &mut Random) -> Vec<Call> {
    let mut calls = Vec::new();
    for k in [0, 126, -126, 700] {
        let x = shapes::fraction(random) * power_of_two(k);
        let near = [x, x / 2.0].map(|y| [-2, -1, 0, 1, 2].map(|off| moved(y, off)));
        let far = [1, 3, 10, 27, 60, 200, 500].map(|j| [x * power_of_two(j), x * power_of_two(-j)]);
        let sizes = near.concat().into_iter().chain(far.concat());
        calls.extend(sizes.flat_map(|y| [y, -y]).map(|y| Call::new(Entry::RC, &[x, y])));
    }
    calls.extend([1.0, 0.3, 1e200, 1e-200].map(|y| Call::new(Entry::RC, &[0.0, y])));
    calls
}

/// One argument zero, of either sign and in each place: the AGM of RF and RG, to the ratios where RF's cap is spent.
pub fn one_zero(random: &mut Random, entry: Entry) -> Vec<Call> {
    let mut calls = Vec::new();
    let ratios = (0..1060).step_by(40).chain(770..792).map(|k| k as i64);
    for (i, k) in ratios.enumerate() {
        let top = random.pick(&[0, 60, 1000]);
        let zero = if random.coin() { 0.0 } else { -0.0 };
        let mut args = [zero, shapes::fraction(random) * power_of_two(top), shapes::fraction(random) * power_of_two(top - k)];
        if random.coin() {
            args.swap(1, 2);
        }
        args.rotate_left(i % 3);
        calls.push(Call::new(entry, &args));
    }
    for place in 0..3 {
        let y = shapes::moderate(random);
        for off in [0, 1, -3, 1 << 30] {
            let mut args = [0.0, y, moved(y, off)];
            args.rotate_left(place);
            calls.push(Call::new(entry, &args));
        }
    }
    calls
}

/// RD takes the AGM for x = 0 and y <= 16z only; x alone is asked for zero, but x and y change places if x = z.
pub fn rd(random: &mut Random) -> Vec<Call> {
    let mut calls = one_zero(random, Entry::RD);
    for k in [0, 3, -60, 120, 600, -600, -1060, 1018] {
        let z = shapes::fraction(random) * power_of_two(k);
        let y = 16.0 * z;
        for off in [-1, 0, 1] {
            calls.push(Call::new(Entry::RD, &[0.0, moved(y, off), z]));
            calls.push(Call::new(Entry::RD, &[moved(y, off), 0.0, z]));
        }
        let other = z * shapes::scaled(random, -2, 1);
        for args in [[0.0, z, z], [z, 0.0, z], [-0.0, z, z], [z, other, z], [other, z, z], [other, other, z], [0.0, other, z]] {
            calls.push(Call::new(Entry::RD, &args));
        }
    }
    // Both others far below z, so that the largest of the signed differences is small or below zero.
    for k in (0..60).step_by(4) {
        let z = shapes::moderate(random);
        let small = z * power_of_two(-k);
        calls.push(Call::new(Entry::RD, &[small, small * shapes::fraction(random), z]));
        calls.push(Call::new(Entry::RD, &[z, z * shapes::fraction(random), small]));
    }
    calls
}
