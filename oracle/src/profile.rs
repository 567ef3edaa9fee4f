//! `profile`: request 2026-14 run. Calls by chance through the proved bench profile, in every order of the sorted arguments and,
//! where all are in size, times powers of four: one answer in every order, the judge's, and the same in another unit.

pub mod draw;
mod judge;

use crate::call::{shown, Call, Entry};
use crate::gatewren;
use crate::in_range::fitting;
use crate::orders::ORDERS;
use crate::random::Random;
use crate::rescale::{alike, scaled};
use doc01::Answer;
use draw::{met, MET};
use std::collections::BTreeMap;
use std::time::Instant;

pub use judge::judged;

/// The call in every order of the arguments that the profile sorts, as it is first.
fn reordered(call: &Call) -> Vec<Call> {
    let orders: &[[usize; 3]] = match call.entry {
        Entry::RC | Entry::CEL => &[[0, 1, 2]],
        Entry::RD => &[[0, 1, 2], [1, 0, 2]],
        Entry::RF | Entry::RG | Entry::RJ => &ORDERS,
    };
    let in_order = |order: &[usize; 3]| {
        let mut args = call.args().to_vec();
        args.iter_mut().zip(order).for_each(|(arg, &from)| *arg = call.args()[from]);
        Call::new(call.entry, &args)
    };
    orders.iter().map(in_order).collect()
}

/// The furthest k either way that keep a call in size, and one by chance; 0 is left out, and there may be none.
fn powers(random: &mut Random, call: &Call) -> Vec<i64> {
    let (low, high) = if judge::in_size(call.args()) { fitting(call) } else { (0, 0) };
    let mut powers = vec![low, random.between(low, high), high];
    powers.dedup();
    powers.retain(|&k| k != 0);
    powers
}

const EXAMPLES: usize = 3;

#[derive(Default)]
struct Tally {
    calls: u64,
    values: u64,
    rescaled: u64,
    rounds: u32,
    roads: BTreeMap<String, u64>,
    refusals: BTreeMap<u32, u64>,
    /// How many were tried, and how many differ.
    orders: [u64; 2],
    judged: [u64; 2],
    scalings: [u64; 2],
    met: [u64; MET.len()],
    /// 6 to 10 among the answers in all orders and units.
    late: BTreeMap<u32, u64>,
    first_late: Option<String>,
    examples: Vec<String>,
}

impl Tally {
    fn take(&mut self, random: &mut Random, call: &Call) {
        let wanted = judged(call);
        self.calls += 1;
        self.met.iter_mut().zip(met(call)).for_each(|(times, is)| *times += u64::from(is));
        let said = self.ask(call);
        self.count(said);
        self.judged[0] += 1;
        if said != Some(wanted) {
            self.judged[1] += 1;
            self.example(|| format!("{call} = {}, not {}", told(said), shown(wanted)));
        }
        for other in reordered(call).iter().skip(1) {
            let again = self.ask(other);
            self.orders[0] += 1;
            if again != said {
                self.orders[1] += 1;
                self.example(|| format!("{call} = {}, {other} = {}", told(said), told(again)));
            }
        }
        for k in powers(random, call) {
            let other = scaled(call, k);
            let again = self.ask(&other);
            self.scalings[0] += 1;
            let same = said.zip(again).is_some_and(|(first, second)| alike(call.entry, k, first, second));
            if !same {
                self.scalings[1] += 1;
                self.example(|| format!("{call} = {}, times 4^{k} {other} = {}", told(said), told(again)));
            }
        }
    }

    fn ask(&mut self, call: &Call) -> Option<Answer> {
        let said = gatewren::by_profile(call);
        if let Some(Answer::Refused(number @ 6..=10)) = said {
            *self.late.entry(number).or_default() += 1;
            self.first_late.get_or_insert_with(|| format!("{call} = refused {number}"));
        }
        said
    }

    fn count(&mut self, said: Option<Answer>) {
        match said {
            Some(Answer::Value(_, way)) => {
                self.values += 1;
                self.rescaled += u64::from(way.rescalings > 0);
                self.rounds = self.rounds.max(way.rounds);
                *self.roads.entry(format!("{:?}", way.road).to_lowercase()).or_default() += 1;
            }
            Some(Answer::Refused(number)) => *self.refusals.entry(number).or_default() += 1,
            None => {}
        }
    }

    fn example(&mut self, text: impl FnOnce() -> String) {
        if self.examples.len() < EXAMPLES {
            self.examples.push(text());
        }
    }

    fn differ(&self) -> u64 {
        self.orders[1] + self.judged[1] + self.scalings[1]
    }

    fn print(&self, entry: Entry) {
        let roads = self.roads.iter().map(|(road, times)| format!("{road}: {times}"));
        let refused = self.refusals.iter().map(|(number, times)| format!("{number}: {times}"));
        print!("{:<6}{:>10}{:>8}", format!("{entry:?}"), self.calls, self.judged[1]);
        print!("{:>11}{:>8}{:>11}{:>8}", self.orders[0], self.orders[1], self.scalings[0], self.scalings[1]);
        print!("{:>10}{:>10}{:>8}", self.values, self.rescaled, self.rounds);
        println!("   {}", roads.chain(refused).collect::<Vec<String>>().join(", "));
    }
}

fn told(said: Option<Answer>) -> String {
    said.map_or("no answer, or a refusal that wrote".to_string(), shown)
}

/// N calls in all, an equal part of them for each entry; what does not divide goes to the last.
pub fn run(n: u64, seed: u64) -> bool {
    if !gatewren::has_profile() {
        println!("the profile is NOT linked: `tools/build gatewren` first");
        return false;
    }
    let start = Instant::now();
    let mut tallies = Vec::new();
    for (i, entry) in Entry::CARLSON.into_iter().enumerate() {
        let mut random = Random::new(seed.wrapping_mul(1_000_003).wrapping_add(i as u64));
        let mut tally = Tally::default();
        let rest = if i + 1 == Entry::CARLSON.len() { n % Entry::CARLSON.len() as u64 } else { 0 };
        for _ in 0..n / Entry::CARLSON.len() as u64 + rest {
            let call = draw::draw(&mut random, entry);
            tally.take(&mut random, &call);
        }
        tallies.push((entry, tally));
    }
    print(&tallies);
    let (all, wrong) = tallies.iter().fold((0, 0), |(all, wrong), (_, it)| (all + it.calls, wrong + it.differ()));
    println!("{all} calls in all, {wrong} differ; seed {seed}, {:.0} s", start.elapsed().as_secs_f64());
    tallies.iter().flat_map(|(_, tally)| &tally.examples).for_each(|example| println!("DIFFERS: {example}"));
    wrong == 0
}

fn print(tallies: &[(Entry, Tally)]) {
    println!(
        "entry      calls  differ     orders  differ  times 4^k  differ    values  rescaled  rounds   by road, and refused by number"
    );
    tallies.iter().for_each(|(entry, tally)| tally.print(*entry));
    print!("\n{:<32}", "calls with");
    tallies.iter().for_each(|(entry, _)| print!("{:>10}", format!("{entry:?}")));
    println!();
    for (i, name) in MET.iter().enumerate() {
        print!("{name:<32}");
        tallies.iter().for_each(|(_, tally)| print!("{:>10}", tally.met[i]));
        println!();
    }
    print!("\n{:<32}", "6, 7, 8, 9, 10 in any answer");
    for (_, tally) in tallies {
        let late: Vec<String> = tally.late.iter().map(|(number, times)| format!("{number}: {times}")).collect();
        print!("{:>10}", if late.is_empty() { "none".to_string() } else { late.join(", ") });
    }
    println!();
    tallies.iter().filter_map(|(_, tally)| tally.first_late.as_ref()).for_each(|first| println!("first: {first}"));
    println!();
}

#[cfg(test)]
mod tests {
    use super::*;
    use crate::in_range::asked;
    use std::collections::BTreeSet;

    #[test]
    fn every_order() {
        for (entry, many) in [(Entry::RC, 1), (Entry::RF, 6), (Entry::RD, 2), (Entry::RG, 6), (Entry::RJ, 6)] {
            let args = &[1.0, 2.0, 3.0, 4.0][..entry.arity()];
            let calls = reordered(&Call::new(entry, args));
            let distinct: BTreeSet<String> = calls.iter().map(Call::to_string).collect();
            assert_eq!((calls.len(), distinct.len()), (many, many));
            assert_eq!(calls[0].args(), args);
            for call in calls {
                let mut sorted = call.args().to_vec();
                sorted.sort_by(f64::total_cmp);
                assert_eq!(sorted, args);
                assert!(entry != Entry::RD || call.args()[2] == 3.0);
                assert!(entry != Entry::RJ || call.args()[3] == 4.0);
            }
        }
    }

    /// A power keeps every argument in size, and there is one unless the call is as wide as the range.
    #[test]
    fn powers_keep_in_size() {
        let mut random = Random::new(3);
        for entry in Entry::CARLSON {
            for _ in 0..20_000 {
                let call = draw::draw(&mut random, entry);
                let powers = powers(&mut random, &call);
                assert!(powers.iter().all(|&k| judge::in_size(scaled(&call, k).args())), "{call}");
                assert!(judge::in_size(call.args()) || powers.is_empty(), "{call}");
                assert!(!asked(&call) || fitting(&call) == (0, 0) || !powers.is_empty(), "{call}");
            }
        }
    }
}
