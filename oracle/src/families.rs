//! The calls of the fixed list, family by family. All is decided by the fixed seeds, so that the list is the same
//! wherever it is made.

mod cel;
mod own;
mod rj;

use crate::call::{Call, Entry};
use crate::examples;
use crate::random::Random;
use crate::shapes::{self, moved, power_of_two, CORNERS};

/// Every call of the list, in its order; a call may come up twice.
pub fn all() -> Vec<Call> {
    let mut calls = stated();
    for (i, entry) in Entry::ALL.into_iter().enumerate() {
        let mut random = Random::new(1000 + i as u64);
        calls.extend(orders(entry));
        calls.extend(corners(&mut random, entry));
        calls.extend(every_exponent(&mut random, entry));
        calls.extend(equal(&mut random, entry));
        // cel does not rescale
        if entry != Entry::CEL {
            calls.extend(borders(&mut random, entry));
        }
        calls.extend(ratios(&mut random, entry));
        calls.extend(by_chance(&mut random, entry));
        calls.extend(match entry {
            Entry::RC => own::rc(&mut random),
            Entry::RF | Entry::RG => own::one_zero(&mut random, entry),
            Entry::RD => own::rd(&mut random),
            Entry::RJ => rj::calls(&mut random),
            Entry::CEL => cel::calls(&mut random),
        });
    }
    calls
}

/// The settled examples, the printed ones, and calls that were found out about the Rust.
fn stated() -> Vec<Call> {
    let examples = examples::SETTLED.iter().chain(&examples::PRINTED);
    let mut calls: Vec<Call> = examples.map(|&(entry, args, _)| Call::new(entry, args)).collect();
    let found = [
        // Below zero without end in the Rust: no. 10.
        "RJ 0000000000000000 0000000000000001 3FD0000000000000 8000000000000001",
        // `elliprc1p` below -1.
        "RJ 3CD9B2444830BB2C 000183D84E785834 536C652C0FC16C21 0000000000000003",
        // All 100 rounds.
        "RJ 3FF0000000000000 4000000000000000 4008000000000000 4C00000000000000",
        // `atan` of +infinity in a call that has a value.
        "RC 000000000000000C 3FD0000000000000",
        // Closed with two rescalings, those of its RC; and the expansion after one.
        "RJ 0000000000000000 000000000000000D 000000000000000D 37E0000000000000",
        "RJ 7FE555555562B9D6 7FE5555555555559 7FEFFFFFFFFFFFFF FFD5555555555559",
        // Cel: an infinite p whose zero the steps give, with the sign of a; one below zero and an infinite kc, where the rule does.
        "CEL 3FE0000000000000 7FF0000000000000 BFF0000000000000 3FF0000000000000",
        "CEL 3FE0000000000000 7FF0000000000000 3FF0000000000000 3FF0000000000000",
        "CEL 3FE0000000000000 FFF0000000000000 3FF0000000000000 3FF0000000000000",
        "CEL 7FF0000000000000 3FF0000000000000 3FF0000000000000 3FF0000000000000",
        "CEL FFF0000000000000 3FF0000000000000 BFF0000000000000 3FF0000000000000",
        // Large kc: the last value, which is a zero; no. 6, which the Rust says too; no. 6, where the Rust says 0.
        "CEL 5FB0000000000000 3FF0000000000000 3FF0000000000000 3FF0000000000000",
        "CEL 5FC0000000000000 3FF0000000000000 3FF0000000000000 3FF0000000000000",
        "CEL 5FD0000000000000 3FF0000000000000 3FF0000000000000 3FF0000000000000",
        // An infinite a or b, where the Rust hands out an infinity; two infinite; a NaN before them; a zero before a NaN.
        "CEL 3FE0000000000000 3FF0000000000000 FFF0000000000000 3FF0000000000000",
        "CEL 3FE0000000000000 3FF0000000000000 3FF0000000000000 7FF0000000000000",
        "CEL 3FE0000000000000 3FF0000000000000 7FF0000000000000 7FF0000000000000",
        "CEL 3FE0000000000000 7FF8000000000000 7FF0000000000000 7FF0000000000000",
        "CEL 8000000000000000 7FF8000000000000 7FF0000000000000 7FF0000000000000",
    ];
    calls.extend(found.iter().map(|line| Call::parse(line).expect("a call")));
    calls
}

/// Every way to place these few, for the orders of the refusals.
fn orders(entry: Entry) -> Vec<Call> {
    let few = [1.0, f64::NAN, -1.0, 0.0, f64::INFINITY];
    let ways = few.len().pow(entry.arity() as u32);
    let digit = |way: usize, place: usize| few[way / few.len().pow(place as u32) % few.len()];
    (0..ways).map(|way| Call::new(entry, &(0..entry.arity()).map(|place| digit(way, place)).collect::<Vec<f64>>())).collect()
}

/// Each corner in each place among moderate numbers, then all places by chance; for RC every pair.
fn corners(random: &mut Random, entry: Entry) -> Vec<Call> {
    let mut calls = Vec::new();
    if entry == Entry::RC {
        for x in CORNERS {
            calls.extend(CORNERS.map(|y| Call::new(entry, &[f64::from_bits(x), f64::from_bits(y)])));
        }
        return calls;
    }
    for corner in CORNERS {
        for place in 0..entry.arity() {
            let mut args = several(entry, || shapes::moderate(random));
            args[place] = f64::from_bits(corner);
            calls.push(Call::new(entry, &args));
        }
    }
    for _ in 0..100 {
        calls.push(Call::new(entry, &several(entry, || shapes::corner(random))));
    }
    calls
}

/// The arguments of a call next to one another in size, going through all exponent fields for RF, every other elsewhere.
fn every_exponent(random: &mut Random, entry: Entry) -> Vec<Call> {
    let places = entry.arity() as u64;
    let step = if entry == Entry::RF { 1 } else { 2 };
    let mut calls = Vec::new();
    for first in (0..2047).step_by((places * step) as usize) {
        let mut args: Vec<f64> = (0..places).map(|i| of_field(random, (first + i * step).min(2046))).collect();
        random.shuffle(&mut args);
        calls.push(Call::new(entry, &args));
    }
    calls
}

fn of_field(random: &mut Random, field: u64) -> f64 {
    f64::from_bits(field << 52 | random.word() >> 12)
}

/// Equal and nearly equal arguments, in every place, at sizes that are rescaled and not.
fn equal(random: &mut Random, entry: Entry) -> Vec<Call> {
    let mut calls = Vec::new();
    for k in [0, 1, -60, 130, -130, 1000, -1000, -1040] {
        let base = shapes::fraction(random) * power_of_two(k);
        calls.push(Call::new(entry, &several(entry, || base)));
        for off in [1, -1, 5, 1 << 20, 1 << 33] {
            let place = random.below(entry.arity() as u64) as usize;
            let mut args = several(entry, || base);
            args[place] = moved(base, off);
            calls.push(Call::new(entry, &args));
        }
        for other in 0..entry.arity() {
            let mut args = several(entry, || base);
            args[other] = base * shapes::scaled(random, -3, 2);
            calls.push(Call::new(entry, &args));
        }
        calls.push(Call::new(entry, &several(entry, || shapes::close(random, base))));
    }
    calls
}

/// The rescaling limits in each place, and scales by which another argument just does or does not become zero.
fn borders(random: &mut Random, entry: Entry) -> Vec<Call> {
    let (limit, reciprocal) = (f64::from_bits(0x47EF_FFFF_FFFF_FFFF), f64::from_bits(0x37F0_0000_0000_0001));
    let mut calls = Vec::new();
    for place in 0..entry.arity() {
        for border in [limit, reciprocal] {
            for off in [-1, 0, 1, 2] {
                let scale = moved(border, off);
                let mut args = several(entry, || scale * shapes::scaled(random, -20, -1));
                args[place] = scale;
                calls.push(Call::new(entry, &args));
            }
        }
        for k in [130, 500, 1000, 1023] {
            for smallest in [power_of_two(k - 1074), power_of_two(k - 1075), moved(power_of_two(k - 1075), 1)] {
                let mut args = several(entry, || power_of_two(k) * shapes::scaled(random, -9, -1));
                args[place] = power_of_two(k);
                args[(place + 1) % entry.arity()] = smallest;
                calls.push(Call::new(entry, &args));
            }
        }
    }
    calls
}

/// Arguments further and further apart, to where caps are spent; closer where RF's are (2^780 and 2^813).
fn ratios(random: &mut Random, entry: Entry) -> Vec<Call> {
    let far = (0..1100).step_by(25);
    let mut calls = Vec::new();
    for k in far.chain((776..784).step_by(2)).chain((806..822).step_by(2)) {
        let ends = [random.between(-40, 40), 500, -500];
        let top = random.pick(&ends);
        let mut args = several(entry, || shapes::scaled(random, top - k.max(1), top));
        args[0] = shapes::fraction(random) * power_of_two(top);
        args[1] = shapes::fraction(random) * power_of_two(top - k);
        random.shuffle(&mut args);
        calls.push(Call::new(entry, &args));
    }
    calls
}

/// Calls of all shapes, as `diff` draws them.
fn by_chance(random: &mut Random, entry: Entry) -> Vec<Call> {
    (0..160).map(|_| shapes::draw(random, entry)).collect()
}

fn several(entry: Entry, mut argument: impl FnMut() -> f64) -> Vec<f64> {
    (0..entry.arity()).map(|_| argument()).collect()
}
