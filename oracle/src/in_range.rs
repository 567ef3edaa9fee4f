//! Calls that demand 3 speaks of: every argument zero, or of size 2^-64 to 2^64, and RJ's p above zero.

use crate::call::{Call, Entry};
use crate::random::Random;
use crate::shapes::{self, moved, power_of_two};

/// The range's ends, as exponents of two.
pub const END: i64 = 64;

/// The k that keep a call of nothing but zeros, of which any would do, go so far either way.
const FURTHEST: i64 = 64;

fn within(arg: f64) -> bool {
    arg == 0.0 || (power_of_two(-END)..=power_of_two(END)).contains(&arg.abs())
}

/// Whether demand 3 speaks of the call.
pub fn asked(call: &Call) -> bool {
    let p_above_zero = call.entry != Entry::RJ || call.args()[3] > 0.0;
    p_above_zero && call.args().iter().all(|&arg| within(arg))
}

/// The least and the greatest k by whose power of four the call may be multiplied.
pub fn fitting(call: &Call) -> (i64, i64) {
    let sizes = || call.args().iter().map(|arg| arg.abs().to_bits()).filter(|&size| size != 0);
    let floor = |size: u64| (size >> 52) as i64 - 1023;
    let ceiling = |size: u64| floor(size) + i64::from(size << 12 != 0);
    match (sizes().min(), sizes().max()) {
        // k from (-END - floor) / 2 rounded up to (END - ceiling) / 2 rounded down
        (Some(least), Some(most)) => (-(END + floor(least)).div_euclid(2), (END - ceiling(most)).div_euclid(2)),
        _ => (-FURTHEST, FURTHEST),
    }
}

/// The nearest size in the range, with the argument's sign.
fn clipped(arg: f64) -> f64 {
    arg.abs().clamp(power_of_two(-END), power_of_two(END)).copysign(arg)
}

/// Log-uniform over the range.
fn size(random: &mut Random) -> f64 {
    shapes::scaled(random, -END, END - 1)
}

fn zero(random: &mut Random) -> f64 {
    random.pick(&[0.0, -0.0])
}

/// At an end of the range, or next to it inside.
fn end(random: &mut Random) -> f64 {
    let by = random.pick(&[0, 0, 1, 2]);
    if random.coin() {
        moved(power_of_two(-END), by)
    } else {
        moved(power_of_two(END), -by)
    }
}

/// A call in one of many shapes; RC's y is below zero in half of them.
pub fn draw(random: &mut Random, entry: Entry) -> Call {
    let mut args = vec![0.0; entry.arity()];
    fill(random, &mut args);
    let last = args.len() - 1;
    if entry == Entry::RC && random.coin() {
        args[last] = -args[last];
    }
    if entry == Entry::RJ {
        args[last] = if args[last] == 0.0 { size(random) } else { args[last].abs() };
    }
    Call::new(entry, &args)
}

fn fill(random: &mut Random, args: &mut [f64]) {
    let (shape, base) = (random.below(16), size(random));
    for arg in args.iter_mut() {
        *arg = clipped(match shape {
            0 | 1 => size(random),
            2..=4 => base * shapes::scaled(random, -6, 5),
            5 | 6 => base * shapes::scaled(random, -30, 29),
            7 | 8 => shapes::close(random, base),
            9 => base,
            10 => base * random.between(1, 9) as f64,
            _ => shapes::moderate(random),
        });
    }
    let (i, j) = (random.below(args.len() as u64) as usize, random.below(args.len() as u64) as usize);
    match random.below(16) {
        0..=3 => args[i] = zero(random),
        4 | 5 => args[i] = args[j],
        6 | 7 => args[i] = clipped(shapes::close(random, args[j])),
        8 => args[i] = end(random),
        // refused by most
        9 => args[i] = -args[i],
        10 => {
            args[i] = zero(random);
            args[j] = zero(random);
        }
        11 => args.iter_mut().for_each(|arg| *arg = zero(random)),
        _ => {}
    }
}
