//! Arguments by chance, in the shapes that the entries' branches ask for.

use crate::call::{Call, Entry};
use crate::cel;
use crate::random::Random;

pub const LARGEST: u64 = 0x7FEF_FFFF_FFFF_FFFF;

/// Where something changes: zeros, the ends of the subnormal and normal ranges, the rescaling limits and their
/// neighbours, one and its neighbours, infinities, NaN, and numbers below zero.
#[rustfmt::skip]
pub const CORNERS: [u64; 28] = [
    0x0000_0000_0000_0000, 0x8000_0000_0000_0000, 0x0000_0000_0000_0001, 0x000F_FFFF_FFFF_FFFF, 0x0010_0000_0000_0000,
    0x37EF_FFFF_FFFF_FFFF, 0x37F0_0000_0000_0000, 0x37F0_0000_0000_0001, 0x37F0_0000_0000_0002, 0x3C10_0000_0000_0000,
    0x3FE0_0000_0000_0000, 0x3FEF_FFFF_FFFF_FFFF, 0x3FF0_0000_0000_0000, 0x3FF0_0000_0000_0001, 0x4000_0000_0000_0000,
    0x4008_0000_0000_0000, 0x4010_0000_0000_0000, 0x47EF_FFFF_FFFF_FFFE, 0x47EF_FFFF_FFFF_FFFF, 0x47F0_0000_0000_0000,
    0x7FE0_0000_0000_0000, 0x7FEF_FFFF_FFFF_FFFF, 0x7FF0_0000_0000_0000, 0x7FF8_0000_0000_0000, 0xBFF0_0000_0000_0000,
    0x8000_0000_0000_0001, 0xFFEF_FFFF_FFFF_FFFF, 0xFFF0_0000_0000_0000,
];

/// 2^k, also among the subnormals; 0 below them and +infinity above the largest.
pub fn power_of_two(k: i64) -> f64 {
    f64::from_bits(match k {
        1024.. => 0x7FF0_0000_0000_0000,
        -1022..=1023 => ((k + 1023) as u64) << 52,
        -1074..=-1023 => 1 << (k + 1074),
        _ => 0,
    })
}

/// The number `by` patterns on; kept finite and on its side of zero.
pub fn moved(value: f64, by: i64) -> f64 {
    let sign = value.to_bits() & 1 << 63;
    let size = (value.to_bits() ^ sign) as i64;
    f64::from_bits(sign | size.saturating_add(by).clamp(0, LARGEST as i64) as u64)
}

/// 1 to 2.
pub fn fraction(random: &mut Random) -> f64 {
    f64::from_bits(random.word() >> 12 | 0x3FF0_0000_0000_0000)
}

/// Log-uniform from 2^low to 2^(high+1).
pub fn scaled(random: &mut Random, low: i64, high: i64) -> f64 {
    fraction(random) * power_of_two(random.between(low, high))
}

/// About [1e-3, 1e3].
pub fn moderate(random: &mut Random) -> f64 {
    scaled(random, -10, 9)
}

/// Any positive finite number, every exponent alike.
pub fn wide(random: &mut Random) -> f64 {
    f64::from_bits(1 + random.below(LARGEST))
}

/// `base` moved by some patterns: one, a few, or a good part of its digits.
pub fn close(random: &mut Random, base: f64) -> f64 {
    let reach = 1 << random.between(0, 42);
    moved(base, random.between(-reach, reach))
}

pub fn corner(random: &mut Random) -> f64 {
    f64::from_bits(random.pick(&CORNERS))
}

/// Near RJ(2q, 2q, 3q, -q) = 0, where the Rust takes a Taylor expansion within 2^-28 of q.
pub fn near_zero_of_rj(random: &mut Random, q: f64) -> [f64; 4] {
    let reach = random.between(-33, -25);
    let mut off = || q * power_of_two(reach) * (fraction(random) - 1.5) * 2.0;
    let mut xyz = [2.0 * q + off(), 2.0 * q + off(), 3.0 * q + off()];
    random.shuffle(&mut xyz);
    [xyz[0], xyz[1], xyz[2], -q]
}

/// A call in one of many shapes; RC's y and RJ's p are below zero in half of them. Cel, whose arguments are of three kinds, has its
/// own shapes besides.
pub fn draw(random: &mut Random, entry: Entry) -> Call {
    if entry == Entry::CEL {
        return cel::draws::draw(random);
    }
    let shape = random.below(16);
    if entry == Entry::RJ && shape == 15 {
        let q = if random.coin() { moderate(random) } else { wide(random) };
        return Call::new(entry, &near_zero_of_rj(random, q));
    }
    let mut args = vec![0.0; entry.arity()];
    fill(random, shape, &mut args);
    if matches!(entry, Entry::RC | Entry::RJ) && random.coin() {
        let last = args.len() - 1;
        args[last] = -args[last];
    }
    Call::new(entry, &args)
}

pub fn fill(random: &mut Random, shape: u64, args: &mut [f64]) {
    let base = if random.coin() { moderate(random) } else { wide(random) };
    for arg in args.iter_mut() {
        *arg = match shape {
            0..=4 => moderate(random),
            5 => wide(random),
            6 => scaled(random, -130, 129),
            7 => base * scaled(random, -6, 5),
            8 => base * scaled(random, -60, 59),
            9 => close(random, base),
            10 => corner(random),
            11 => random.between(1, 9) as f64,
            _ => moderate(random),
        };
    }
    let (i, j) = (random.below(args.len() as u64) as usize, random.below(args.len() as u64) as usize);
    match shape {
        12 => args[i] = args[j],
        13 => args[i] = if random.coin() { 0.0 } else { -0.0 },
        14 => args[i] = if random.coin() { corner(random) } else { close(random, args[j]) },
        _ => {}
    }
}
