//! `cel`: request 2026-09 run. Document 02's cel against the Rust of the same tolerance and cap, rule by rule, and against the
//! untouched crate; against RF where both are K; how many passes are begun; and where a large kc overflows.

pub mod draws;

use crate::call::{Call, Entry};
use crate::random::Random;
use crate::shapes::{moved, power_of_two, scaled};
use crate::tally::{Largest, Tally};
use crate::units::distance;
use doc01::{cel_as_written, cel_passes, of_unfinished_cel, Answer, Road};
use std::collections::BTreeMap;
use std::time::Instant;

pub fn run(n: u64, seed: u64) -> bool {
    let start = Instant::now();
    let mut random = Random::new(seed);
    let (mut written, mut own, mut tally, mut most) = (Table::default(), Table::default(), Tally::default(), Most::default());
    // These are not counted; they are there for the smallest inputs.
    for call in draws::simple() {
        written.take(&call, 0, as_written(&call));
        own.take(&call, 0, by_the_crate(&call));
    }
    for _ in 0..n {
        let call = draws::draw(&mut random);
        written.take(&call, 1, as_written(&call));
        own.take(&call, 1, by_the_crate(&call));
        tally.entry(&call);
        most.take(call.args()[0]);
    }
    println!("cel, {n} calls, seed {seed}");
    println!("\n(a) the Rust with the tolerance 2^-26 and the cap 30");
    written.print();
    let outside = written.outside();
    println!("outside of the documented rules: {outside}");
    println!("\n(b) the untouched crate, with 1e-8 and 10 passes, and without cel1 and cel2, which the text lacks");
    own.print();
    let it = &tally.untouched;
    println!("other bits in {} of {} values, over 1, 4, 16, 256 units: {:?}", it.differ, tally.values, it.over);
    println!("largest difference {}", shown(&it.largest));
    println!("largest difference near a zero {}", shown(&it.largest_near_zero));
    println!("\nlibgatewren.a: {} calls, {} differ", tally.library.asked, tally.library.wrong);
    first_kind(n / 100, &mut random);
    passes(&most);
    overflow();
    println!("\n{:.0} s", start.elapsed().as_secs_f64());
    outside == 0 && tally.library.wrong == 0
}

/// Cel's answer in words: what it is by.
fn rule(answer: Answer) -> String {
    match answer {
        Answer::Value(_, way) if way.road == Road::Loop => "a value of the loop".to_string(),
        Answer::Value(..) => "0, by an infinite kc or p".to_string(),
        Answer::Refused(number) => format!("refused {number}"),
    }
}

fn said(it: Result<f64, u32>) -> String {
    match it {
        Ok(value) if value.is_infinite() => "an infinity".to_string(),
        Ok(value) if value.to_bits() == 0 => "0".to_string(),
        Ok(_) => "other bits".to_string(),
        Err(number) => format!("refused {number}"),
    }
}

fn same(answer: Answer, other: Result<f64, u32>) -> bool {
    match (answer, other) {
        (Answer::Value(bits, _), Ok(value)) => value.to_bits() == bits,
        (Answer::Refused(number), Err(other)) => number == other,
        _ => false,
    }
}

const SAME: &str = "the same";
const OUTSIDE: &str = "OUTSIDE";

/// What the Rust says by its own tests, and by which of its differences.
fn as_written(call: &Call) -> String {
    let &[kc, p, a, b] = call.args() else { unreachable!("cel has four arguments") };
    let (wanted, rust) = (call.judged().answer, cel_as_written(kc, p, a, b));
    if same(wanted, rust) {
        return SAME.to_string();
    }
    // Its tests in document 02's order, with an infinity for 20.
    let tested = |kc: f64| match (of_unfinished_cel(kc, p, a, b), rust) {
        (Answer::Refused(20), Ok(value)) => value == if a.is_infinite() { a } else { b },
        (answer, rust) => same(answer, rust),
    };
    let why = match wanted {
        Answer::Value(_, way) if way.road == Road::Loop => OUTSIDE,
        _ if tested(kc) => "for an infinite a or b",
        _ if tested(f64::INFINITY) => "its kc is infinite in the end",
        _ if tested(f64::NAN) => "its kc is NaN in the end",
        _ => OUTSIDE,
    };
    format!("{}: {why}", said(rust))
}

fn by_the_crate(call: &Call) -> String {
    let (wanted, other) = (call.judged().answer, call.untouched());
    if same(wanted, other) {
        SAME.to_string()
    } else {
        said(other)
    }
}

/// What another says where document 02 has this rule: how often, and of the smallest call.
#[derive(Default)]
struct Table(BTreeMap<String, BTreeMap<String, (u64, Option<Call>)>>);

impl Table {
    fn take(&mut self, call: &Call, times: u64, other: String) {
        let (count, smallest) = self.0.entry(rule(call.judged().answer)).or_default().entry(other).or_default();
        *count += times;
        let key = |call: &Call| (draws::size(call), call.bits());
        if smallest.as_ref().is_none_or(|held| key(call) < key(held)) {
            *smallest = Some(*call);
        }
    }

    fn outside(&self) -> u64 {
        self.0.values().flatten().filter(|(other, _)| other.ends_with(OUTSIDE)).map(|(_, (count, _))| count).sum()
    }

    fn print(&self) {
        println!("{:<28}{:<44}{:>10}   smallest input found", "document 02", "the other", "calls");
        for (rule, others) in &self.0 {
            for (other, (count, smallest)) in others {
                let input = smallest.filter(|_| other != SAME).map_or(String::new(), |call| call.to_string());
                println!("{}", format!("{rule:<28}{other:<44}{count:>10}   {input}").trim_end());
            }
        }
    }
}

fn shown(it: &Largest) -> String {
    let call = |bits: [u64; 4]| Call::new(Entry::CEL, &bits.map(f64::from_bits));
    it.args.map_or("none".to_string(), |args| format!("{:.0} units at {}", it.units, call(args)))
}

fn value(answer: Answer) -> Option<f64> {
    match answer {
        Answer::Value(bits, _) => Some(f64::from_bits(bits)),
        Answer::Refused(_) => None,
    }
}

/// cel(kc, 1, 1, 1) and RF(0, kc^2, 1) are both K. A kc of 26 digits has an exact square.
fn first_kind(n: u64, random: &mut Random) {
    println!("\n(c) cel(kc, 1, 1, 1) beside RF(0, kc^2, 1), kc of 26 digits");
    for (name, end) in [("kc from 2^-10 to 2^10", 10), ("kc from 2^-300 to 2^300", 300)] {
        let (mut both, mut differ, mut largest) = (0u64, 0u64, (0.0, 0.0));
        for _ in 0..n / 2 {
            let kc = f64::from_bits(scaled(random, -end, end - 1).to_bits() >> 27 << 27);
            let (cel, rf) = (doc01::cel(kc, 1.0, 1.0, 1.0), doc01::rf(0.0, kc * kc, 1.0));
            let (Some(cel), Some(rf)) = (value(cel.answer), value(rf.answer)) else { continue };
            both += 1;
            differ += u64::from(cel != rf);
            let units = distance(rf, cel);
            if units > largest.0 {
                largest = (units, kc);
            }
        }
        let (units, kc) = (largest.0, largest.1.to_bits());
        println!("{name:<28}{both} of {} points have both, {differ} differ, at most {units:.0} units, kc {kc:016X}", n / 2);
    }
}

/// The most passes of any call drawn.
#[derive(Default)]
struct Most {
    passes: u32,
    all: BTreeMap<u32, u64>,
}

impl Most {
    fn take(&mut self, kc: f64) {
        let passes = cel_passes(kc);
        self.passes = self.passes.max(passes);
        *self.all.entry(passes).or_default() += 1;
    }
}

/// The first pattern from `low` on, up to `high`, for which it holds, if it does so from there on.
fn first(low: f64, high: f64, holds: impl Fn(f64) -> bool) -> Option<f64> {
    let (mut low, mut high) = (low.to_bits(), high.to_bits());
    while low < high {
        let middle = low + (high - low) / 2;
        if holds(f64::from_bits(middle)) {
            high = middle;
        } else {
            low = middle + 1;
        }
    }
    holds(f64::from_bits(low)).then(|| f64::from_bits(low))
}

const CAP: u32 = 30;

/// From 1 outward the passes grow: downward to the smallest kc, upward to where it overflows, after which there are fewer. About a
/// border, by a part in 2^20, roundings decide, and both counts come.
fn passes(drawn: &Most) {
    println!("\n(d) passes begun: kc alone decides how many");
    let powers: Vec<f64> = (-1074..1024).map(power_of_two).collect();
    let beside = powers.iter().flat_map(|&kc| [-1, 0, 1].map(|off| cel_passes(moved(kc, off))));
    let most = beside.max().unwrap_or(0).max(drawn.passes);
    let all: Vec<String> = drawn.all.iter().map(|(passes, times)| format!("{passes}: {times}")).collect();
    println!("of the calls drawn (0: a zero kc): {}", all.join(", "));
    println!("the most, at powers of two, their neighbours and the calls drawn: {most}");
    let (below, above) = powers.split_at(1074);
    let nearest = [below.iter().rev().find(|&&kc| cel_passes(kc) == most), above.iter().find(|&&kc| cel_passes(kc) == most)];
    for &kc in nearest.into_iter().flatten() {
        let call = Call::new(Entry::CEL, &[kc, 1.0, 1.0, 1.0]);
        println!("  nearest to 1 among the powers of two {call} = {}", crate::call::shown(call.judged().answer));
    }
    println!("{:<8}{:>24}{:>24}", "passes", "from about this kc down", "from about this kc up");
    let top = nearest[1].copied().unwrap_or(1.0);
    for passes in 2..=most {
        let below = first(f64::from_bits(1), 1.0, |kc| cel_passes(kc) < passes);
        let above = first(1.0, top, |kc| cel_passes(kc) >= passes);
        let text =
            |kc: Option<f64>| kc.map_or("-".to_string(), |kc| if passes == 2 { format!("{kc}") } else { format!("{kc:.5e}") });
        println!("{passes:<8}{:>24}{:>24}", text(below), text(above));
    }
    println!("all {CAP} passes: {}", if most >= CAP { "met" } else { "not met" });
}

/// By p = a = b = 1.
fn overflow() {
    println!("\n(e) large kc, p = a = b = 1");
    let stage = |kc: f64| match (doc01::cel(kc, 1.0, 1.0, 1.0).answer, cel_as_written(kc, 1.0, 1.0, 1.0)) {
        (Answer::Value(bits, _), _) if bits << 1 != 0 => 0,
        (Answer::Value(..), _) => 1,
        (_, Err(_)) => 2,
        _ => 3,
    };
    let names = ["0, a finite result that stands", "refused 6, and so says the Rust", "refused 6, where the Rust says 0"];
    for (i, name) in names.into_iter().enumerate() {
        match first(1.0, f64::MAX, |kc| stage(kc) > i) {
            Some(kc) => println!("{name:<36}from {:016X}, {kc:e}", kc.to_bits()),
            None => println!("{name:<36}never"),
        }
    }
}

#[cfg(test)]
mod tests {
    use super::*;

    fn with(args: [f64; 4]) -> String {
        as_written(&Call::new(Entry::CEL, &args))
    }

    #[test]
    fn the_rust_and_its_reasons() {
        let inf = f64::INFINITY;
        assert_eq!(with([0.5, 1.0, 1.0, 1.0]), SAME);
        assert_eq!(with([0.5, 0.0, 1.0, 1.0]), SAME);
        assert_eq!(with([power_of_two(510), 1.0, 1.0, 1.0]), "0: its kc is infinite in the end");
        assert_eq!(with([0.5, 1.0, -inf, 1.0]), "an infinity: for an infinite a or b");
        assert_eq!(with([power_of_two(600), 1.0, inf, 1.0]), "refused 19: its kc is infinite in the end");
    }

    #[test]
    fn a_border_is_found() {
        assert_eq!(first(1.0, 8.0, |x| x > 3.0), Some(f64::from_bits(3.0f64.to_bits() + 1)));
        assert_eq!(first(1.0, 8.0, |x| x > 9.0), None);
        assert_eq!(first(1.0, 8.0, |_| true), Some(1.0));
    }

    /// No kc that was looked at begins more than 13 passes.
    #[test]
    fn passes_stay_far_below_the_cap() {
        let most = (-1074..1024).map(|k| cel_passes(power_of_two(k))).max();
        assert_eq!(most, Some(13));
        assert_eq!(cel_passes(1.0), 1);
    }
}
