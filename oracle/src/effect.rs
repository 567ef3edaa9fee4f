//! `effect`: what the polynomial alone, and the power alone, change in RJ: document 01's RJ against the same with that one
//! rule left to the crate. The smallest input is looked for among small whole numbers.

use crate::call::{Call, Entry};
use crate::random::Random;
use crate::shapes;
use crate::units::distance;
use doc01::{with, Answer, Theirs};

const RULES: [(Theirs, &str); 2] = [(Theirs::Polynomial, "the polynomial"), (Theirs::Power, "the power")];

pub fn run(n: u64, seed: u64) -> bool {
    println!("{n} calls of RJ, seed {seed}");
    for (theirs, name) in RULES {
        let mut random = Random::new(seed);
        let (mut values, mut differ, mut over, mut most) = (0u64, 0u64, [0u64; 3], (0.0, None));
        for _ in 0..n {
            let call = shapes::draw(&mut random, Entry::RJ);
            let Some((ours, other)) = both(&call, theirs) else { continue };
            values += 1;
            let units = distance(ours, other);
            differ += u64::from(units > 0.0);
            for (level, count) in [1.0, 4.0, 16.0].into_iter().zip(&mut over) {
                *count += u64::from(units > level);
            }
            if units > most.0 {
                most = (units, Some(call));
            }
        }
        let part = 100.0 * differ as f64 / values.max(1) as f64;
        println!("{name} alone: {differ} of {values} values differ ({part:.3} %), over 1, 4, 16 units: {over:?}");
        if let (units, Some(call)) = most {
            println!("  largest {units:.0} units at {call}");
        }
        match smallest(theirs) {
            Some((call, ours, other)) => {
                println!("  smallest input {:?}: {:016X}, with the crate's {:016X}", call.args(), ours.to_bits(), other.to_bits())
            }
            None => println!("  no whole numbers up to {TOP} differ"),
        }
    }
    true
}

/// The value by document 01, and with one rule left to the crate; the rounds and refusals do not depend on either.
fn both(call: &Call, theirs: Theirs) -> Option<(f64, f64)> {
    let value = |answer| match answer {
        Answer::Value(bits, _) => Some(f64::from_bits(bits)),
        Answer::Refused(_) => None,
    };
    let ours = value(call.judged().answer)?;
    Some((ours, value(with(theirs, || call.judged()).answer)?))
}

const TOP: u32 = 64;

/// The first by the largest of the four, then in order: x, y, z from 0 and p from 1, of either sign.
fn smallest(theirs: Theirs) -> Option<(Call, f64, f64)> {
    (1..=TOP).find_map(|top| {
        let parts = (0..=top)
            .flat_map(|x| (0..=top).flat_map(move |y| (0..=top).flat_map(move |z| (1..=top).map(move |p| [x, y, z, p]))));
        parts.filter(|all| all.contains(&top)).find_map(|[x, y, z, p]| {
            [1.0, -1.0].into_iter().find_map(|sign| {
                let call = Call::new(Entry::RJ, &[f64::from(x), f64::from(y), f64::from(z), sign * f64::from(p)]);
                let (ours, other) = both(&call, theirs)?;
                (ours != other).then_some((call, ours, other))
            })
        })
    })
}
