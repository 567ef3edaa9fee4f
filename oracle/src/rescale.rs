//! `units`: demand 3 run. Pairs of calls of the proved library, the second with every argument times 4^k: both are refused
//! alike, or have one count, one road and as many rescalings, and the second value is exactly the first times a power of two.

use crate::call::{shown, Call, Entry};
use crate::gatewren;
use crate::in_range::{self, asked, fitting};
use crate::random::Random;
use crate::shapes::power_of_two;
use doc01::Answer;
use std::collections::BTreeMap;
use std::time::Instant;

/// By how many powers of two the value grows where the arguments grow by one power of four.
fn weight(entry: Entry) -> i64 {
    match entry {
        Entry::RC | Entry::RF => -1,
        Entry::RD | Entry::RJ => -3,
        Entry::RG => 1,
        Entry::CEL => unreachable!("demand 3 does not speak of cel"),
    }
}

/// Exact: the arguments are zeros, or normal before and after.
pub fn scaled(call: &Call, k: i64) -> Call {
    let args: Vec<f64> = call.args().iter().map(|arg| arg * power_of_two(2 * k)).collect();
    Call::new(call.entry, &args)
}

/// The bits of `value` times 2^by, by its exponent field; nothing where it or the result is not normal, or no number.
fn times(value: u64, by: i64) -> Option<u64> {
    let field = |bits: u64| (bits >> 52 & 0x7FF) as i64;
    if value << 1 == 0 {
        return Some(value);
    }
    let normal = |field: i64| (1..=2046).contains(&field);
    (normal(field(value)) && normal(field(value) + by)).then(|| value.wrapping_add_signed(by << 52))
}

pub fn alike(entry: Entry, k: i64, first: Answer, second: Answer) -> bool {
    match (first, second) {
        (Answer::Refused(one), Answer::Refused(other)) => one == other,
        (Answer::Value(v, way), Answer::Value(w, again)) => way == again && times(v, weight(entry) * k) == Some(w),
        _ => false,
    }
}

const EXAMPLES: usize = 5;

#[derive(Default)]
struct Tally {
    pairs: u64,
    values: u64,
    zeros: u64,
    refusals: BTreeMap<u32, u64>,
    rounds: u32,
    furthest: i64,
    wrong: u64,
    examples: Vec<String>,
}

impl Tally {
    /// False where the entry is not linked.
    fn take(&mut self, call: &Call, k: i64) -> bool {
        let other = scaled(call, k);
        assert!(asked(call) && asked(&other), "{call} times 4^{k} is not for demand 3");
        let (Some(first), Some(second)) = (gatewren::answer(call), gatewren::answer(&other)) else {
            return false;
        };
        self.pairs += 1;
        self.furthest = self.furthest.max(k.abs());
        match first {
            Answer::Value(bits, way) => {
                self.values += 1;
                self.zeros += u64::from(bits << 1 == 0);
                self.rounds = self.rounds.max(way.rounds);
            }
            Answer::Refused(number) => *self.refusals.entry(number).or_default() += 1,
        }
        if !alike(call.entry, k, first, second) {
            self.wrong += 1;
            if self.examples.len() < EXAMPLES {
                self.examples.push(format!("{call} = {}, times 4^{k} {other} = {}", shown(first), shown(second)));
            }
        }
        true
    }

    fn print(&self, entry: Entry) {
        let refused: Vec<String> = self.refusals.iter().map(|(number, times)| format!("{number}: {times}")).collect();
        print!("{:<6}{:>10}{:>8}{:>10}{:>9}", format!("{entry:?}"), self.pairs, self.wrong, self.values, self.zeros);
        println!("{:>8}{:>8}   {}", self.rounds, self.furthest, refused.join(", "));
    }
}

/// N pairs in all, an equal part of them for each entry; what does not divide goes to the last.
pub fn run(n: u64, seed: u64) -> bool {
    let start = Instant::now();
    let mut tallies = Vec::new();
    for (i, entry) in Entry::CARLSON.into_iter().enumerate() {
        let mut random = Random::new(seed.wrapping_mul(1_000_003).wrapping_add(i as u64));
        let mut tally = Tally::default();
        let rest = if i + 1 == Entry::CARLSON.len() { n % Entry::CARLSON.len() as u64 } else { 0 };
        for _ in 0..n / Entry::CARLSON.len() as u64 + rest {
            let (call, k) = pair(&mut random, entry);
            if !tally.take(&call, k) {
                println!("{entry:?} is NOT linked: `tools/build gatewren` first");
                return false;
            }
        }
        tallies.push((entry, tally));
    }
    println!("entry      pairs  differ    values    zeros  rounds   |k| to   refused, by number");
    tallies.iter().for_each(|(entry, tally)| tally.print(*entry));
    let (all, wrong) = tallies.iter().fold((0, 0), |(all, wrong), (_, it)| (all + it.pairs, wrong + it.wrong));
    println!("{all} pairs in all, {wrong} differ; seed {seed}, {:.0} s", start.elapsed().as_secs_f64());
    tallies.iter().flat_map(|(_, tally)| &tally.examples).for_each(|example| println!("DIFFERS: {example}"));
    wrong == 0
}

/// A call in range and a k that keeps it there. 0 is left out: nothing is asked by it.
fn pair(random: &mut Random, entry: Entry) -> (Call, i64) {
    loop {
        let call = in_range::draw(random, entry);
        let (low, high) = fitting(&call);
        let k = random.between(low, high);
        if k != 0 {
            return (call, k);
        }
    }
}

#[cfg(test)]
mod tests {
    use super::*;
    use doc01::{Road, Way};

    #[test]
    fn times_powers() {
        assert_eq!(times(1.5f64.to_bits(), -3), Some(0.1875f64.to_bits()));
        assert_eq!(times((-1.5f64).to_bits(), 1), Some((-3.0f64).to_bits()));
        assert_eq!(times((-0.0f64).to_bits(), 5), Some((-0.0f64).to_bits()));
        assert_eq!(times(1.0f64.to_bits(), 1024), None);
        assert_eq!(times(1.0f64.to_bits(), -1023), None);
        assert_eq!(times(1, 1), None);
    }

    #[test]
    fn alike_is_strict() {
        let by = |road, rescalings, v: f64, rounds| Answer::Value(v.to_bits(), Way { rounds, road, rescalings });
        let value = |v, rounds| by(Road::Duplication, 0, v, rounds);
        assert!(alike(Entry::RD, 1, value(8.0, 4), value(1.0, 4)));
        assert!(alike(Entry::RG, 1, value(8.0, 4), value(16.0, 4)));
        assert!(!alike(Entry::RF, 1, value(8.0, 4), value(1.0, 4)));
        assert!(!alike(Entry::RD, 1, value(8.0, 4), value(1.0, 5)));
        assert!(!alike(Entry::RD, 1, value(8.0, 4), value(1.0 + f64::EPSILON, 4)));
        assert!(!alike(Entry::RC, 1, value(0.0, 0), value(-0.0, 0)));
        assert!(!alike(Entry::RD, 1, value(8.0, 4), by(Road::Agm, 0, 1.0, 4)));
        assert!(!alike(Entry::RD, 1, value(8.0, 4), by(Road::Duplication, 1, 1.0, 4)));
        assert!(alike(Entry::RC, 1, Answer::Refused(2), Answer::Refused(2)));
        assert!(!alike(Entry::RC, 1, Answer::Refused(2), Answer::Refused(4)));
        assert!(!alike(Entry::RC, 1, value(1.0, 0), Answer::Refused(4)));
    }

    /// Every pair keeps to demand 3's premise, before and after.
    #[test]
    fn pairs_stay_in_range() {
        let mut random = Random::new(5);
        for entry in Entry::CARLSON {
            for _ in 0..20_000 {
                let (call, k) = pair(&mut random, entry);
                assert!(asked(&call) && asked(&scaled(&call, k)), "{call} {k}");
                let (low, high) = fitting(&call);
                let out = |k| call.args().iter().all(|arg| *arg == 0.0) || !asked(&scaled(&call, k));
                assert!(out(low - 1) && out(high + 1), "{call} {low} {high}");
            }
        }
    }
}
