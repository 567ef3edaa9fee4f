//! `report`: request 2026-05 run. Lists of every kind through the library, against the oracle's counts and sums; the same jobs
//! in other orders, and cut into parts whose reports are joined in any order; lists that are refused; and 18, by calls that are
//! planted in the words.

use super::draw::{self, KINDS};
use super::exact::{Dropped, Exact, INFINITE};
use super::{too_many, Report, Words, BLOCK, LAST, MOST_CALLS, TOO_MANY, WORDS};
use crate::call::Call;
use crate::lists::{number, read, written, Job};
use crate::random::Random;
use crate::symbols;
use crate::tables::{job, judged, spoilt};
use doc01::Answer;
use std::collections::BTreeMap;
use std::time::Instant;

const SUM: usize = LAST as usize + 3;
const EXAMPLES: usize = 3;

/// What the library says of a list, and what it leaves. It reads the bytes and writes the words, which live for the call.
fn add(words: &mut Words, list: &[u8], null: bool) -> u32 {
    let ask = symbols::REPORT_LIST.expect("it is linked");
    let bytes = if null && list.is_empty() { std::ptr::null() } else { list.as_ptr() };
    unsafe { ask(words.as_mut_ptr(), bytes, list.len()) }
}

fn join(words: &mut Words, other: &Words) -> u32 {
    let ask = symbols::REPORT_JOIN.expect("it is linked");
    unsafe { ask(words.as_mut_ptr(), other.as_ptr()) }
}

#[derive(Default)]
struct Tally {
    lists: u64,
    jobs: u64,
    values: u64,
    refusals: BTreeMap<u32, u64>,
    kinds: BTreeMap<&'static str, u64>,
    sums: BTreeMap<&'static str, u64>,
    /// What was asked, and how often the answer was another than it must be.
    asked: BTreeMap<&'static str, [u64; 2]>,
    examples: Vec<String>,
}

impl Tally {
    fn check(&mut self, what: &'static str, good: bool, shown: impl FnOnce() -> String) {
        let counts = self.asked.entry(what).or_default();
        counts[0] += 1;
        if !good {
            counts[1] += 1;
            if self.examples.len() < EXAMPLES {
                self.examples.push(format!("{what}: {}", shown()));
            }
        }
    }

    /// The sums that a report holds, by what is hard about them. `largest` is the longest value of each function, in bits.
    fn sorted(&mut self, report: &Report, largest: &[usize; 6]) {
        for (part, &largest) in report.0.iter().zip(largest).filter(|(part, _)| part.calls > 0) {
            let (bits, dropped) = (part.sum.rounded(), part.sum.dropped());
            let mut met = vec![match bits & !(1 << 63) {
                0 => "zero",
                size if size < 1 << 52 => "subnormal",
                INFINITE => "infinite",
                _ => "normal",
            }];
            met.extend((bits >> 63 == 1).then_some("below zero"));
            met.extend((dropped == Dropped::Half).then_some("half-way between two doubles"));
            met.extend((dropped == Dropped::Nothing).then_some("a double as it stands"));
            met.extend((largest > part.sum.length() + 64).then_some("64 bits or more cancelled"));
            met.extend((part.sum.length() > 2098).then_some("longer than any double"));
            met.into_iter().for_each(|name| *self.sums.entry(name).or_default() += 1);
        }
    }

    /// All that can be read off a report, also of functions and numbers that there are not.
    fn parts(&mut self, words: &Words, report: &Report, random: &mut Random) {
        let (calls, refused) = (symbols::REPORT_CALLS.expect("linked"), symbols::REPORT_REFUSED.expect("linked"));
        let (rounds, most) = (symbols::REPORT_ROUNDS.expect("linked"), symbols::REPORT_MOST.expect("linked"));
        let sum = symbols::REPORT_SUM.expect("linked");
        let at = words.as_ptr();
        let other = random.pick(&[0, 7, 8, 64, 257, 1 << 31, u32::MAX]);
        for function in (1..=6).chain([other]) {
            // each reads the words, which live for the call
            let said = unsafe { (calls(at, function), rounds(at, function), most(at, function), sum(at, function).to_bits()) };
            let part = (function as usize).checked_sub(1).and_then(|i| report.0.get(i));
            let must = part.map_or((0, 0, 0, 0), |part| (part.calls, part.rounds, part.most as u32, part.sum.rounded()));
            self.check("parts of a report", said == must, || format!("function {function}: {said:X?}, not {must:X?}"));
            let number = random.pick(&[0, 28, 29, 30, 64, 256, 1 << 31, u32::MAX]);
            for number in (1..=LAST).chain([number]) {
                let said = unsafe { refused(at, function, number) };
                let must = part.and_then(|part| part.refused.get(&number)).copied().unwrap_or(0);
                self.check("tallies", said == must, || format!("function {function}, number {number}: {said}, not {must}"));
            }
        }
    }

    /// One list in full: its report, that of another order, that of its parts.
    fn take(&mut self, random: &mut Random, kind: usize) {
        let calls: Vec<Call> = draw::list(random, kind);
        let mut jobs: Vec<Job> = calls.iter().map(job).collect();
        let (mut report, mut largest) = (Report::empty(), [0; 6]);
        for ((function, _), call) in jobs.iter().zip(&calls) {
            let answer = call.judged().answer;
            report.add(*function, answer);
            match answer {
                Answer::Value(bits, _) => {
                    self.values += 1;
                    let mut value = Exact::ZERO;
                    value.add(f64::from_bits(bits));
                    let longest = &mut largest[*function as usize - 1];
                    *longest = value.length().max(*longest);
                }
                Answer::Refused(number) => *self.refusals.entry(number).or_default() += 1,
            }
        }
        self.lists += 1;
        self.jobs += jobs.len() as u64;
        *self.kinds.entry(KINDS[kind]).or_default() += 1;
        self.sorted(&report, &largest);
        let must = report.words();

        let mut words = [0; WORDS];
        let said = add(&mut words, &written(&jobs), random.coin());
        self.check("a list", said == 0 && words == must, || shown(said, &words, &must, &jobs));
        self.parts(&words, &report, random);

        random.shuffle(&mut jobs);
        let mut words = [0; WORDS];
        let said = add(&mut words, &written(&jobs), random.coin());
        self.check("its jobs in another order", said == 0 && words == must, || shown(said, &words, &must, &jobs));

        let parts = split(random, &jobs);
        let mut words = [0; WORDS];
        let said = parts.iter().map(|part| add(&mut words, &written(part), random.coin())).max().unwrap_or(0);
        self.check("its parts one after another", said == 0 && words == must, || shown(said, &words, &must, &jobs));
        self.joined(random, &parts, &must);
        self.refused(random, &jobs, &report);
        self.over(random, &jobs);
    }

    /// Each part's report by itself, then any two joined until one is left.
    fn joined(&mut self, random: &mut Random, parts: &[&[Job]], must: &Words) {
        let mut said = 0;
        let mut reports: Vec<Words> = parts
            .iter()
            .map(|part| {
                let mut words = [0; WORDS];
                said |= add(&mut words, &written(part), random.coin());
                words
            })
            .collect();
        while reports.len() > 1 {
            let one = reports.swap_remove(random.below(reports.len() as u64) as usize);
            let other = random.below(reports.len() as u64) as usize;
            said |= join(&mut reports[other], &one);
        }
        self.check("its parts' reports joined", said == 0 && reports[0] == *must, || shown(said, &reports[0], must, parts[0]));
    }

    /// A list with a fault, onto a report that holds something: its own number, and every word as it was; or, where the fault left a
    /// sound list, its report.
    fn refused(&mut self, random: &mut Random, jobs: &[Job], report: &Report) {
        if jobs.is_empty() {
            return;
        }
        let (_, list) = spoilt(random, jobs);
        let before = report.words();
        let mut words = before;
        let said = add(&mut words, &list, random.coin());
        match read(&list) {
            (_, Some((_, number))) => {
                let name = ["refused 14", "refused 15", "refused 16"][number as usize - 14];
                self.check(name, said == number && words == before, || shown(said, &words, &before, jobs));
            }
            (jobs, None) => {
                let mut both = report.clone();
                jobs.iter().for_each(|job| both.add(job.0, judged(job)));
                let must = both.words();
                self.check("a changed list that is sound", said == 0 && words == must, || shown(said, &words, &must, &jobs));
            }
        }
    }

    /// 18, on the calls of all functions together: in words whose calls are planted about the border, a list's and another report's.
    fn over(&mut self, random: &mut Random, jobs: &[Job]) {
        let few = &jobs[..jobs.len().min(random.below(6) as usize)];
        let mut report = planted(random, few.len() as u128);
        let must = if too_many(report.calls(), few.len() as u128) { TOO_MANY } else { 0 };
        let (before, mut words) = (report.words(), report.words());
        let mut list = written(few);
        let bad = random.below(8) == 0;
        if bad {
            // the list's own refusals come before it
            list.extend(number(7));
        }
        let said = add(&mut words, &list, false);
        if bad {
            self.check("16 before 18", said == 16 && words == before, || shown(said, &words, &before, few));
        } else if must == TOO_MANY {
            self.check("18 of a list", said == must && words == before, || shown(said, &words, &before, few));
        } else {
            few.iter().for_each(|job| report.add(job.0, judged(job)));
            let after = report.words();
            self.check("a list that just fits", said == 0 && words == after, || shown(said, &words, &after, few));
        }

        let (one, calls) = (planted(random, 0), random.below(9));
        let two = planted(random, if calls == 0 { 0 } else { one.calls() });
        let (before, mut words) = (one.words(), one.words());
        let said = join(&mut words, &two.words());
        if too_many(one.calls(), two.calls()) {
            self.check("18 of a join", said == TOO_MANY && words == before, || shown(said, &words, &before, &[]));
        } else {
            let mut both = one;
            both.join(&two);
            let after = both.words();
            self.check("a join that just fits", said == 0 && words == after, || shown(said, &words, &after, &[]));
        }
    }

    /// The sum's rounding at words that are planted: near a power of two or half-way, at both ends, of either sign.
    fn rounding(&mut self, random: &mut Random) {
        let mut words = [0; WORDS];
        let function = random.below(6) as usize;
        let limbs = planted_sum(random);
        words[function * BLOCK + SUM..(function + 1) * BLOCK].copy_from_slice(&limbs);
        let sum = symbols::REPORT_SUM.expect("linked");
        let said = unsafe { sum(words.as_ptr(), function as u32 + 1) }.to_bits();
        let exact = Exact::of_words(&limbs);
        self.check("sums planted", said == exact.rounded(), || {
            format!("{said:X}, not {:X}, of {}", exact.rounded(), exact.hex())
        });
    }
}

/// Calls about the number that leaves room for `more`, spread over the functions, and anything in the other places.
fn planted(random: &mut Random, more: u128) -> Report {
    let mut report = Report::empty();
    let about = MOST_CALLS.saturating_sub(more) as u64;
    let mut left = match random.below(8) {
        0 => random.below(1 << 40),
        1 => random.below(about + 1),
        2 => about / 2 + random.below(3),
        _ => (about + random.below(5)).saturating_sub(2),
    };
    for i in 0..6 {
        let part = &mut report.0[i];
        part.calls = if i == 5 { left } else { random.pick(&[0, left / 3, left / 2]) };
        left -= part.calls;
        part.rounds = random.below(1 << 40);
        part.most = random.below(134);
        for _ in 0..random.below(4) {
            part.refused.insert(1 + random.below(LAST.into()) as u32, random.below(1 << 32));
        }
        part.sum.add(f64::from_bits(random.word() & !(1 << 62)));
    }
    random.shuffle(&mut report.0);
    // calls so many that a sum of 64 bits would come round
    if random.below(20) == 0 {
        let many = random.pick(&[u64::MAX, 1 << 63, (1 << 63) - 1, u64::MAX - about, 1 << 32]);
        report.0[random.below(6) as usize].calls = many;
        report.0[random.below(6) as usize].calls = many;
    }
    report
}

/// Few bits set, or all but few, from some place on, of either sign.
fn planted_sum(random: &mut Random) -> [u64; 34] {
    let mut sum = Exact::ZERO;
    let top = random.between(0, 2174);
    let mut bits = vec![top];
    for by in [1, 51, 52, 53, 54] {
        if random.coin() {
            bits.push(top - by);
        }
    }
    if random.below(3) == 0 {
        bits.extend((top - 53..top).filter(|_| random.below(8) > 0));
    }
    (0..random.below(3)).for_each(|_| bits.push(random.between(0, top)));
    for bit in bits.into_iter().filter(|&bit| bit >= 0) {
        let mut one = [0; 34];
        one[bit as usize / 64] = 1 << (bit % 64);
        sum.join(&Exact::of_words(&one));
    }
    let limbs = sum.words();
    if random.coin() {
        return limbs;
    }
    // what is missing to zero
    let mut carry = true;
    limbs.map(|limb| {
        let (limb, over) = (!limb).overflowing_add(carry.into());
        carry = over;
        limb
    })
}

/// Cut between jobs at a few places; some parts are empty.
fn split<'a>(random: &mut Random, jobs: &'a [Job]) -> Vec<&'a [Job]> {
    let mut cuts: Vec<usize> = (0..random.below(7)).map(|_| random.below(jobs.len() as u64 + 1) as usize).collect();
    cuts.push(jobs.len());
    cuts.sort_unstable();
    let mut from = 0;
    cuts.into_iter().map(|to| &jobs[std::mem::replace(&mut from, to)..to]).collect()
}

/// The number, and the first word that is another.
fn shown(said: u32, words: &Words, must: &Words, jobs: &[Job]) -> String {
    let off = (0..WORDS).find(|&i| words[i] != must[i]);
    let word = off.map(|i| format!("word {} of function {}: {:X}, not {:X}", i % BLOCK, i / BLOCK + 1, words[i], must[i]));
    format!("{said}, {} in the list {:X?}", word.unwrap_or("no word is off".into()), &jobs[..jobs.len().min(20)])
}

/// N jobs in all.
pub fn run(n: u64, seed: u64) -> bool {
    if symbols::REPORT_LIST.is_none() {
        println!("gatewren_report_list is NOT linked: `tools/build gatewren` first");
        return false;
    }
    let (start, mut random, mut tally) = (Instant::now(), Random::new(seed), Tally::default());
    while tally.jobs < n {
        let kind = random.below(KINDS.len() as u64) as usize;
        tally.take(&mut random, kind);
        (0..10).for_each(|_| tally.rounding(&mut random));
    }
    println!("{:<32}{:>10}\n{:<32}{:>10}\n{:<32}{:>10}", "lists", tally.lists, "jobs", tally.jobs, "values", tally.values);
    println!("refusals in the reports");
    tally.refusals.iter().for_each(|(number, times)| println!("  {number:<30}{times:>10}"));
    println!("lists of");
    tally.kinds.iter().for_each(|(name, times)| println!("  {name:<30}{times:>10}"));
    println!("sums of a function in a list");
    tally.sums.iter().for_each(|(name, times)| println!("  {name:<30}{times:>10}"));
    println!("{:<32}{:>10}{:>10}", "asked", "times", "differ");
    tally.asked.iter().for_each(|(name, [times, differ])| println!("  {name:<30}{times:>10}{differ:>10}"));
    println!("seed {seed}, {:.0} s", start.elapsed().as_secs_f64());
    tally.examples.iter().for_each(|example| println!("DIFFERS: {example}"));
    tally.asked.values().all(|[_, differ]| *differ == 0)
}
