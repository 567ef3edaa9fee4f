//! What only RJ has.

use crate::aims;
use crate::call::{Call, Entry};
use crate::random::Random;
use crate::shapes::{self, moved, power_of_two};
use doc01::Answer;

pub fn calls(random: &mut Random) -> Vec<Call> {
    let mut calls = taylor(random);
    calls.extend(special_cases(random));
    calls.extend(far_p(random));
    calls.extend(below_zero(random));
    calls.extend(deep(random));
    calls
}

fn call(args: [f64; 4]) -> Call {
    Call::new(Entry::RJ, &args)
}

/// Around RJ(2q, 2q, 3q, -q) = 0: at it, just inside and outside of both radii, and by chance.
fn taylor(random: &mut Random) -> Vec<Call> {
    let mut calls = Vec::new();
    for k in [0, 2, -30, 125, -129, 600, -600, -1020, 1020, -1070] {
        let q = shapes::fraction(random) * power_of_two(k);
        calls.push(call([2.0 * q, 2.0 * q, 3.0 * q, -q]));
        for radius in [q * power_of_two(-28), q * power_of_two(-26)] {
            for off in [-9, 0, 9] {
                let mut xyz = [2.0 * q, 2.0 * q, 3.0 * q];
                xyz[random.below(3) as usize] += moved(radius, off);
                random.shuffle(&mut xyz);
                calls.push(call([xyz[0], xyz[1], xyz[2], -q]));
            }
        }
        calls.extend((0..8).map(|_| call(shapes::near_zero_of_rj(random, q))));
    }
    calls
}

/// Equal arguments among x, y, z and p, and p/x or p/y around 1.2, where closed forms give way to duplication.
fn special_cases(random: &mut Random) -> Vec<Call> {
    let mut calls = Vec::new();
    for k in [0, 5, -600] {
        let y = shapes::fraction(random) * power_of_two(k);
        let x = y * shapes::scaled(random, -4, -1);
        let z = y * shapes::scaled(random, 1, 4);
        let near = [1.2, 1.0 / 1.2].map(|by| [-2, -1, 0, 1, 2].map(|off| moved(by * y, off))).concat();
        for p in near.into_iter().chain([y, y * 1.1, y * 1.3, y / 2.0, y * 3.0, x, z]) {
            calls.extend([[y, y, y, p], [x, y, y, p], [z, y, y, p], [y, y, z, p], [y, x, y, p]].map(call));
        }
        calls.extend([[x, y, z, z], [x, y, z, x], [x, y, z, y], [x, z, y, z]].map(call));
        calls.extend([[0.0, y, y, y], [0.0, y, y, z], [0.0, y, z, z], [y, 0.0, y, z]].map(call));
    }
    calls
}

/// p far above and far below the others: every part of `elliprc1p`, and the cap of 100 rounds.
fn far_p(random: &mut Random) -> Vec<Call> {
    let mut calls = Vec::new();
    for k in (-1060..1020).step_by(20).chain(180..200) {
        let xyz = [shapes::moderate(random), shapes::moderate(random), shapes::moderate(random)];
        let zero_too = random.below(4) == 0;
        calls.push(call([if zero_too { 0.0 } else { xyz[0] }, xyz[1], xyz[2], power_of_two(k)]));
    }
    for _ in 0..60 {
        let base = shapes::moderate(random);
        calls.push(call([0; 4].map(|_| base * shapes::scaled(random, -2, 1))));
    }
    calls
}

/// The reduction for p below zero, moderate and far, with a zero and with equal arguments among x, y and z.
fn below_zero(random: &mut Random) -> Vec<Call> {
    let mut calls = Vec::new();
    for i in 0..240 {
        let reach = [9, 9, 60, 130, 500][i % 5];
        let mut args = [0; 4].map(|_| shapes::scaled(random, -reach, reach));
        match i % 8 {
            1 => args[random.below(3) as usize] = 0.0,
            2 => args[0] = args[1],
            3 => args = [args[0], args[0], args[0], args[3]],
            _ => {}
        }
        args[3] = -args[3];
        calls.push(call(args));
    }
    calls
}

/// Calls found by chance that go three and four deep, need a fifth (no. 10), or end without a finite result below zero.
fn deep(random: &mut Random) -> Vec<Call> {
    let mut wanted = [30, 30, 30, 20];
    let mut calls = Vec::new();
    for _ in 0..4_000_000 {
        let candidate = extreme(random);
        let judged = candidate.judged();
        let kind = match (judged.answer, judged.depth) {
            (Answer::Refused(10), _) => 0,
            (_, 4) => 1,
            (_, 3) => 2,
            (Answer::Refused(6), _) => 3,
            _ => continue,
        };
        if wanted[kind] > 0 {
            wanted[kind] -= 1;
            calls.push(candidate);
        }
        if wanted == [0; 4] {
            break;
        }
    }
    assert_eq!(wanted, [0; 4], "no. 10, four deep, three deep, no. 6: so many were not found");
    calls
}

/// p below zero, and arguments at the far ends of the range.
fn extreme(random: &mut Random) -> Call {
    let [x, y, z, p] = aims::extreme(random);
    call([x, y, z, -p])
}
