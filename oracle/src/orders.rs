//! `orders`: request 2026-13 run. A triple of numbers, no NaN and no -0 among them, in all six orders through the proved RG: the
//! whole answer is the same, value, count, road and rescalings, or refusal.

use crate::call::{shown, Call, Entry};
use crate::gatewren;
use crate::random::Random;
use crate::shapes::{self, close, moderate, power_of_two, scaled, wide};
use doc01::Answer;
use std::collections::BTreeMap;
use std::time::Instant;

pub const ORDERS: [[usize; 3]; 6] = [[0, 1, 2], [0, 2, 1], [1, 0, 2], [1, 2, 0], [2, 0, 1], [2, 1, 0]];

/// What request 2026-13 speaks of.
fn plain(arg: f64) -> bool {
    !arg.is_nan() && arg.to_bits() != 1 << 63
}

/// Triples by what is special in them; the place is by chance.
const SHAPES: [(&str, fn(&mut Random) -> [f64; 3]); 9] = [
    ("by chance", by_chance),
    ("two equal", |random| some(random, 2, |_, other| other)),
    ("three equal", |random| some(random, 3, |_, other| other)),
    ("next to others", |random| several(random, close)),
    ("zeros", |random| several(random, |_, _| 0.0)),
    ("infinities", |random| several(random, |random, _| f64::INFINITY.copysign(random.pick(&[1.0, -1.0])))),
    ("below zero", |random| several(random, |_, other| -other)),
    ("subnormal", |random| several(random, |random, _| f64::from_bits(random.below(1 << 52)))),
    ("rescaled", rescaled),
];

/// As the entries' other runs draw them.
fn by_chance(random: &mut Random) -> [f64; 3] {
    let call = shapes::draw(random, Entry::RG);
    [call.args()[0], call.args()[1], call.args()[2]]
}

fn positive(random: &mut Random) -> [f64; 3] {
    let base = if random.coin() { 1.0 } else { scaled(random, -500, 500) };
    [0; 3].map(|_| if random.below(4) == 0 { wide(random) } else { base * moderate(random) })
}

/// So many of three become what `make` says of the first.
fn some(random: &mut Random, many: usize, make: fn(&mut Random, f64) -> f64) -> [f64; 3] {
    let mut args = positive(random);
    let other = args[0];
    args[..many].iter_mut().for_each(|arg| *arg = make(random, other));
    random.shuffle(&mut args);
    args
}

fn several(random: &mut Random, make: fn(&mut Random, f64) -> f64) -> [f64; 3] {
    let many = 1 + random.below(3) as usize;
    some(random, many, make)
}

/// The scale beyond the limits, the others down to where division by it would lose them.
fn rescaled(random: &mut Random) -> [f64; 3] {
    let top = if random.coin() { random.between(126, 1023) } else { random.between(-1074, -127) };
    let mut args = [0; 3].map(|_| power_of_two(top - random.between(0, 60)) * shapes::fraction(random));
    match random.below(4) {
        0 => args[0] = power_of_two(top - random.between(1060, 1080)),
        1 => args[0] = 0.0,
        2 => args[0] = args[1],
        _ => {}
    }
    random.shuffle(&mut args);
    args
}

/// No NaN and no -0.
fn draw(random: &mut Random, make: fn(&mut Random) -> [f64; 3]) -> [f64; 3] {
    loop {
        let args = make(random);
        if args.iter().all(|&arg| plain(arg)) {
            return args;
        }
    }
}

const EXAMPLES: usize = 3;

#[derive(Default)]
struct Tally {
    triples: u64,
    wrong: u64,
    values: u64,
    rescaled: u64,
    roads: BTreeMap<String, u64>,
    refusals: BTreeMap<u32, u64>,
    examples: Vec<String>,
}

impl Tally {
    /// False where RG is not linked.
    fn take(&mut self, args: [f64; 3]) -> bool {
        let calls = ORDERS.map(|order| Call::new(Entry::RG, &order.map(|place| args[place])));
        let answers: Vec<Answer> = calls.iter().filter_map(gatewren::answer).collect();
        if answers.len() < ORDERS.len() {
            return false;
        }
        self.count(answers[0]);
        if let Some(other) = answers.iter().position(|answer| *answer != answers[0]) {
            self.wrong += 1;
            if self.examples.len() < EXAMPLES {
                let said = |i: usize| format!("{} = {}", calls[i], shown(answers[i]));
                self.examples.push(format!("{}, {}", said(0), said(other)));
            }
        }
        true
    }

    fn count(&mut self, answer: Answer) {
        self.triples += 1;
        match answer {
            Answer::Value(_, way) => {
                self.values += 1;
                self.rescaled += u64::from(way.rescalings > 0);
                *self.roads.entry(format!("{:?}", way.road).to_lowercase()).or_default() += 1;
            }
            Answer::Refused(number) => *self.refusals.entry(number).or_default() += 1,
        }
    }

    fn print(&self, name: &str) {
        let roads = self.roads.iter().map(|(road, times)| format!("{road}: {times}"));
        let refused = self.refusals.iter().map(|(number, times)| format!("{number}: {times}"));
        print!("{name:<16}{:>9}{:>8}{:>9}{:>10}", self.triples, self.wrong, self.values, self.rescaled);
        println!("   {}", roads.chain(refused).collect::<Vec<String>>().join(", "));
    }
}

/// N triples in all, an equal part of them in each shape; what does not divide goes to the first.
pub fn run(n: u64, seed: u64) -> bool {
    let (start, parts) = (Instant::now(), SHAPES.len() as u64);
    let mut tallies = Vec::new();
    for (i, (name, make)) in SHAPES.into_iter().enumerate() {
        let mut random = Random::new(seed.wrapping_mul(1_000_003).wrapping_add(i as u64));
        let mut tally = Tally::default();
        for _ in 0..n / parts + if i == 0 { n % parts } else { 0 } {
            if !tally.take(draw(&mut random, make)) {
                println!("RG is NOT linked: `tools/build gatewren` first");
                return false;
            }
        }
        tallies.push((name, tally));
    }
    println!("RG in six orders  triples  differ   values  rescaled   by road, and refused by number");
    tallies.iter().for_each(|(name, tally)| tally.print(name));
    let (all, wrong) = tallies.iter().fold((0, 0), |(all, wrong), (_, it)| (all + it.triples, wrong + it.wrong));
    println!("{all} triples in all, {wrong} differ; seed {seed}, {:.0} s", start.elapsed().as_secs_f64());
    tallies.iter().flat_map(|(_, tally)| &tally.examples).for_each(|example| println!("DIFFERS: {example}"));
    wrong == 0
}

#[cfg(test)]
mod tests {
    use super::*;
    use std::collections::BTreeSet;

    #[test]
    fn six_orders() {
        let distinct: BTreeSet<[usize; 3]> = ORDERS.into_iter().collect();
        assert_eq!(distinct.len(), 6);
        assert!(ORDERS.iter().all(|order| (0..3).all(|place| order.contains(&place))));
    }

    /// Every triple keeps to the request's premise, and each shape holds what its name says.
    #[test]
    fn triples_are_plain() {
        for (name, make) in SHAPES {
            let mut random = Random::new(7);
            let special = |args: &[f64; 3]| match name {
                "two equal" => args.iter().any(|arg| args.iter().filter(|other| *other == arg).count() >= 2),
                "three equal" => args[0] == args[1] && args[1] == args[2],
                "zeros" => args.contains(&0.0),
                "infinities" => args.iter().any(|arg| arg.is_infinite()),
                "below zero" => args.iter().any(|arg| *arg < 0.0),
                "subnormal" => args.iter().any(|arg| arg.is_subnormal()),
                _ => true,
            };
            for _ in 0..10_000 {
                let args = draw(&mut random, make);
                assert!(args.iter().all(|&arg| plain(arg)) && special(&args), "{name} {args:?}");
            }
        }
    }
}
