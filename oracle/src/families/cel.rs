//! What only cel has. No family spends all of its passes: kc alone decides how many are begun, and 13 are the most (`cel`).

use crate::call::{Call, Entry};
use crate::random::Random;
use crate::shapes::{self, close, moderate, moved, power_of_two};

pub fn calls(random: &mut Random) -> Vec<Call> {
    let mut calls = every_kc(random);
    calls.extend(near_one(random));
    calls.extend(large_kc(random));
    calls.extend(p_is_one(random));
    calls.extend(beside_square(random));
    calls.extend(below_zero(random));
    calls.extend(infinite(random));
    calls
}

fn call(args: [f64; 4]) -> Call {
    Call::new(Entry::CEL, &args)
}

fn signed(random: &mut Random) -> f64 {
    let size = moderate(random);
    if random.coin() {
        size
    } else {
        -size
    }
}

/// kc from 2^-1074 to 2^1023, so that every number of passes comes, and every kind of overflow.
fn every_kc(random: &mut Random) -> Vec<Call> {
    let mut calls = Vec::new();
    for k in (-1074..1024).step_by(9).chain([1023]) {
        calls.push(call([power_of_two(k), 1.0, 1.0, 1.0]));
        let kc = shapes::fraction(random) * power_of_two(k);
        calls.push(call([kc, signed(random), signed(random), signed(random)]));
    }
    calls
}

/// One pass, two, three: kc next to 1 and to the places where the test just does or does not hold (2^-26).
fn near_one(random: &mut Random) -> Vec<Call> {
    let mut calls = Vec::new();
    for border in [1.0, 1.0 - power_of_two(-26), 1.0 + power_of_two(-26), 1.0 - power_of_two(-12), 1.0 + power_of_two(-12)] {
        for off in [-2, -1, 0, 1, 2] {
            calls.push(call([moved(border, off), 1.0, 1.0, 1.0]));
            calls.push(call([moved(-border, off), signed(random), signed(random), signed(random)]));
        }
    }
    calls
}

/// Where products and sums overflow: first to a zero, then to no. 6.
fn large_kc(random: &mut Random) -> Vec<Call> {
    let mut calls = Vec::new();
    for k in 500..516 {
        for off in [-1, 0, 1] {
            calls.push(call([moved(power_of_two(k), off), 1.0, 1.0, 1.0]));
        }
        let kc = shapes::fraction(random) * power_of_two(k);
        calls.extend(
            [[kc, 1.0, 1.0, 1.0], [-kc, 2.0, -1.0, 1.0], [kc, -1.0, 1.0, 1.0], [kc, power_of_two(k), 1.0, 1.0]].map(call),
        );
        calls.push(call([kc, signed(random), signed(random), signed(random)]));
    }
    calls
}

/// Which the Rust gives to cel1 and cel2, and we do not.
fn p_is_one(random: &mut Random) -> Vec<Call> {
    let mut calls = Vec::new();
    for _ in 0..20 {
        let kc = moderate(random);
        calls.extend([[kc, 1.0, 1.0, 1.0], [kc, 1.0, 1.0, kc * kc], [kc, 1.0, 0.0, 1.0], [kc, 1.0, 0.0, -0.0]].map(call));
        calls.push(call([kc, 1.0, signed(random), signed(random)]));
    }
    calls
}

/// p at kc^2 and near it, and at the negatives.
fn beside_square(random: &mut Random) -> Vec<Call> {
    let mut calls = Vec::new();
    for k in [0, -1, 3, -40, 60, -250, 250, -530, 500] {
        let kc = shapes::fraction(random) * power_of_two(k);
        let square = kc * kc;
        let near = [square, moved(square, 1), moved(square, -1), close(random, square), close(random, square)];
        for p in near.into_iter().flat_map(|p| [p, -p]) {
            calls.push(call([kc, p, moderate(random), moderate(random)]));
        }
    }
    calls
}

/// Principal values: p of every size below zero, and a and b that cancel in the reduction.
fn below_zero(random: &mut Random) -> Vec<Call> {
    let mut calls = Vec::new();
    for k in (-1074..1024).step_by(42) {
        let kc = moderate(random);
        calls.push(call([kc, -power_of_two(k), signed(random), signed(random)]));
        calls.push(call([kc, -shapes::fraction(random) * power_of_two(k), 1.0, 1.0]));
    }
    for _ in 0..60 {
        let (kc, p, a) = (moderate(random), -moderate(random), moderate(random));
        calls.extend([[kc, p, a, a], [kc, p, a, a * p], [kc, p, a, close(random, a)], [1.0, p, a, signed(random)]].map(call));
    }
    calls
}

/// Every way to place infinities of either sign among moderate arguments and beside a kc that overflows.
fn infinite(random: &mut Random) -> Vec<Call> {
    let mut calls = Vec::new();
    for way in 0..81 {
        let kc = if way % 2 == 0 { moderate(random) } else { power_of_two(510 + way) };
        let mut args = [kc, signed(random), signed(random), signed(random)];
        for (place, arg) in args.iter_mut().enumerate() {
            match way / 3i64.pow(place as u32) % 3 {
                1 => *arg = f64::INFINITY,
                2 => *arg = f64::NEG_INFINITY,
                _ => {}
            }
        }
        calls.push(call(args));
    }
    calls
}
