//! Calls for the bench profile: in size and out of it, and all that it refuses; and what a call holds.

use crate::call::{Call, Entry};
use crate::in_range::{self, END};
use crate::profile::judge::below_zero;
use crate::random::Random;
use crate::shapes::{self, close, fraction, moved, power_of_two};

/// The ends of the range.
fn ends() -> [f64; 2] {
    [power_of_two(-END), power_of_two(END)]
}

/// Many are in size and nothing else; others have one to three arguments of another kind.
pub fn draw(random: &mut Random, entry: Entry) -> Call {
    let mut args = match random.below(8) {
        0..=4 => in_range::draw(random, entry).args().to_vec(),
        5 => shapes::draw(random, entry).args().to_vec(),
        6 => (0..entry.arity()).map(|_| near_an_end(random)).collect(),
        _ => {
            let base = near_an_end(random);
            (0..entry.arity()).map(|_| close(random, base)).collect()
        }
    };
    if random.below(8) < 3 {
        for _ in 0..random.between(1, 3) {
            let (i, j) = (random.below(args.len() as u64) as usize, random.below(args.len() as u64) as usize);
            args[i] = special(random, args[j]);
        }
    }
    if entry == Entry::RJ && random.below(8) == 0 {
        args[3] = -args[3];
    }
    Call::new(entry, &args)
}

/// Inside the range, within some powers of two of an end.
fn near_an_end(random: &mut Random) -> f64 {
    let inward = power_of_two(random.pick(&[0, 1, 4, 10, 20])) * fraction(random);
    let [least, most] = ends();
    if random.coin() {
        least * inward
    } else {
        most / inward
    }
}

fn special(random: &mut Random, other: f64) -> f64 {
    let end = random.pick(&ends());
    let size = match random.below(10) {
        0 => 0.0,
        1 => end,
        2 => moved(end, if end > 1.0 { 1 } else { -1 }),
        3 => moved(end, if end > 1.0 { -1 } else { 1 }),
        4 if random.coin() => shapes::scaled(random, END, 1023),
        4 => shapes::scaled(random, -1022, -END - 1),
        5 => f64::from_bits(1 + random.below((1 << 52) - 1)),
        6 => f64::INFINITY,
        7 => f64::from_bits(0x7FF0_0000_0000_0001 + random.below((1 << 52) - 1)),
        8 => other,
        _ => close(random, other),
    };
    if random.below(4) == 0 {
        -size
    } else {
        size
    }
}

pub const MET: [&str; 22] = [
    "all in size",
    "+0",
    "-0",
    "an end of the range",
    "the neighbour beyond an end",
    "the neighbour within an end",
    "a finite size outside",
    "a subnormal number",
    "+infinity",
    "-infinity",
    "NaN",
    "an argument below zero",
    "zeros too many",
    "two equal, not zero",
    "two nearly equal",
    "all in size, wide as the range",
    "RC's y below zero, in size",
    "RC's y -0",
    "RJ's p below zero, in size",
    "RJ's p below zero, out of size",
    "RJ's p -infinity",
    "RJ's p -0",
];

/// Which of these a call has.
pub fn met(call: &Call) -> [bool; MET.len()] {
    let args = call.args();
    let any = |test: &dyn Fn(f64) -> bool| args.iter().any(|&arg| test(arg));
    let next_to = |inward: i64| {
        let [least, most] = ends();
        move |arg: f64| arg.abs() == moved(least, inward) || arg.abs() == moved(most, -inward)
    };
    let inside = |arg: f64| arg == 0.0 || (ends()[0]..=ends()[1]).contains(&arg.abs());
    let pair = |test: &dyn Fn(f64, f64) -> bool| (0..args.len()).any(|i| (0..i).any(|j| test(args[i], args[j])));
    let (own, last) = match call.entry {
        Entry::RC | Entry::RD | Entry::RJ | Entry::CEL => (&args[..args.len() - 1], args[args.len() - 1]),
        Entry::RF | Entry::RG => (args, f64::NAN),
    };
    let of = |entry: Entry, is: bool| call.entry == entry && is;
    let minus_zero = |arg: f64| arg.to_bits() == 1 << 63;
    let sizes = || args.iter().map(|arg| arg.abs()).filter(|&size| size > 0.0);
    let all_in = args.iter().all(|&arg| inside(arg));
    [
        all_in,
        any(&|arg| arg.to_bits() == 0),
        any(&minus_zero),
        any(&next_to(0)),
        any(&next_to(-1)),
        any(&next_to(1)),
        any(&|arg| arg.is_finite() && !inside(arg)),
        any(&f64::is_subnormal),
        any(&|arg| arg == f64::INFINITY),
        any(&|arg| arg == f64::NEG_INFINITY),
        any(&f64::is_nan),
        // of RC and RJ others than those that may be
        own.iter().any(|&arg| below_zero(arg)) || of(Entry::RD, below_zero(last)),
        call.entry != Entry::RG && own.iter().filter(|&&arg| arg == 0.0).count() > 1,
        pair(&|a, b| a == b && a != 0.0),
        pair(&|a, b| a != b && (a - b).abs() < a.abs() * power_of_two(-30)),
        all_in && sizes().any(|size| size < 2.0 * ends()[0]) && sizes().any(|size| size > ends()[1] / 2.0),
        of(Entry::RC, last < 0.0 && inside(last)),
        of(Entry::RC, minus_zero(last)),
        of(Entry::RJ, last < 0.0 && inside(last)),
        of(Entry::RJ, last < 0.0 && !inside(last)),
        of(Entry::RJ, last == f64::NEG_INFINITY),
        of(Entry::RJ, minus_zero(last)),
    ]
}

#[cfg(test)]
mod tests {
    use super::*;

    /// Each thing is met at each entry that can have it.
    #[test]
    fn all_is_met() {
        for entry in Entry::CARLSON {
            let mut random = Random::new(9);
            let mut times = [0; MET.len()];
            for _ in 0..20_000 {
                times.iter_mut().zip(met(&draw(&mut random, entry))).for_each(|(times, is)| *times += u32::from(is));
            }
            for (name, times) in MET.iter().zip(times) {
                let owner = Entry::CARLSON.into_iter().find(|owner| name.starts_with(&format!("{owner:?}'s")));
                let none = owner.is_some_and(|owner| owner != entry)
                    || *name == "zeros too many" && matches!(entry, Entry::RC | Entry::RG);
                assert!(none == (times == 0) && (none || times >= 20), "{entry:?}: {name} {times} times");
            }
        }
    }
}
