//! `swing`: document 02's request 2026-01 by its own whole-number and float steps, RF by document 01's judge, against the
//! library: periods by chance and at every border, then step logs.

use crate::gatewren::told;
use crate::random::Random;
use crate::symbols;
use doc01::Answer;
use std::collections::BTreeMap;

const MOST_LENGTH: u64 = 10_000_000;
const MOST_GRAVITY: u64 = 20_000_000;

pub fn run(n: u64, seed: u64) -> bool {
    if symbols::SWING.is_none() || symbols::STEPS.is_none() {
        eprintln!("target/staticlib/libgatewren.a has no gatewren_swing and gatewren_steps: tools/build gatewren");
        return false;
    }
    let mut random = Random::new(seed);
    let mut borders = Tally::default();
    for triple in all_borders() {
        borders.take(triple);
    }
    borders.print("periods at the borders");
    let mut chance = Tally::default();
    for _ in 0..n {
        chance.take(by_chance(&mut random));
    }
    chance.print(&format!("periods by chance, seed {seed}"));
    let logs = logs(&mut random, n / 10);
    borders.wrong + chance.wrong + logs == 0
}

/// What request 2026-01 says: 11, then 12, then the period by five rounded operations.
pub fn judged((length, height, gravity): (u64, u64, u64)) -> Answer {
    if !(1..=MOST_LENGTH).contains(&length) || !(1..=MOST_GRAVITY).contains(&gravity) {
        return Answer::Refused(11);
    }
    let twice = 2 * length;
    if height == 0 || height >= twice {
        return Answer::Refused(12);
    }
    let root = (length as f64 / gravity as f64).sqrt();
    match doc01::rf(0.0, (twice - height) as f64 / twice as f64, 1.0).answer {
        Answer::Value(bits, way) => Answer::Value((4.0 * root * f64::from_bits(bits)).to_bits(), way),
        refused => refused,
    }
}

/// The library's answer; nothing where a refusal touched a place.
fn answered((length, height, gravity): (u64, u64, u64)) -> Option<Answer> {
    // The function reads numbers and writes through four pointers, which live for the call.
    let swing = symbols::SWING?;
    told(|value, rounds, road, rescalings| unsafe { swing(length, height, gravity, value, rounds, road, rescalings) })
}

#[derive(Default)]
struct Tally {
    calls: u64,
    values: u64,
    refusals: BTreeMap<u32, u64>,
    rounds: u32,
    wrong: u64,
}

impl Tally {
    fn take(&mut self, triple: (u64, u64, u64)) {
        let answer = judged(triple);
        self.calls += 1;
        match answer {
            Answer::Value(_, way) => {
                self.values += 1;
                self.rounds = self.rounds.max(way.rounds);
            }
            Answer::Refused(number) => *self.refusals.entry(number).or_default() += 1,
        }
        let ours = answered(triple);
        if ours != Some(answer) {
            self.wrong += 1;
            if self.wrong == 1 {
                println!("  {triple:?}: {answer:?} and not {ours:?}");
            }
        }
    }

    fn print(&self, name: &str) {
        let (calls, values, rounds) = (self.calls, self.values, self.rounds);
        println!(
            "{name}: {calls} calls, {values} values (at most {rounds} rounds), refused {:?}, {} differ",
            self.refusals, self.wrong
        );
    }
}

/// Each border of L and g and its neighbours, with each border of h for that L.
fn all_borders() -> Vec<(u64, u64, u64)> {
    let lengths = [0, 1, 2, 3, MOST_LENGTH - 1, MOST_LENGTH, MOST_LENGTH + 1, 1 << 24, 1 << 53, 1 << 63, u64::MAX - 1, u64::MAX];
    let gravities = [0, 1, 2, 9_806_650, MOST_GRAVITY - 1, MOST_GRAVITY, MOST_GRAVITY + 1, 1 << 53, 1 << 63, u64::MAX];
    let mut all = Vec::new();
    for length in lengths {
        let twice = length.wrapping_mul(2);
        let near = [twice.wrapping_sub(2), twice.wrapping_sub(1), twice, twice.wrapping_add(1)];
        for height in [0, 1, 2, length, MOST_LENGTH, 2 * MOST_LENGTH, u64::MAX].into_iter().chain(near) {
            all.extend(gravities.map(|gravity| (length, height, gravity)));
        }
    }
    all
}

/// Fifteen in sixteen are in range, small numbers as often as large ones and heights near both ends among them.
pub fn by_chance(random: &mut Random) -> (u64, u64, u64) {
    fn to(random: &mut Random, most: u64) -> u64 {
        let most = if random.coin() { most } else { (most >> random.below(25)).max(1) };
        1 + random.below(most)
    }
    if random.below(16) == 0 {
        return (random.word() >> random.below(64), random.word() >> random.below(64), random.word() >> random.below(64));
    }
    let (length, gravity) = (to(random, MOST_LENGTH), to(random, MOST_GRAVITY));
    let height = to(random, 2 * length - 1);
    (length, if random.coin() { height } else { 2 * length - height }, gravity)
}

/// The new total, or nothing where it would pass 2^64 - 1.
pub fn summed(total: u64, readings: &[u16]) -> Option<u64> {
    let more: u128 = readings.windows(2).map(|pair| (i64::from(pair[1]) - i64::from(pair[0])).rem_euclid(65536) as u128).sum();
    u64::try_from(u128::from(total) + more).ok()
}

fn log_differs(total: u64, readings: &[u16]) -> bool {
    let mut kept = total;
    let Some(steps) = symbols::STEPS else { return true };
    // The function reads so many readings and writes through one pointer, which live for the call.
    let number = unsafe { steps(&mut kept, readings.as_ptr(), readings.len()) };
    (number, kept) != summed(total, readings).map_or((13, total), |sum| (0, sum))
}

/// Named logs, one of ten million readings, and logs by chance; the last are counts that rise by less than 65,536, where
/// the sum must be the steps taken. How many differ.
fn logs(random: &mut Random, n: u64) -> u64 {
    let long: Vec<u16> = (0..10_000_000u32).map(|i| (i.wrapping_mul(40_503) >> 3) as u16).collect();
    let named: [(&str, u64, &[u16]); 9] = [
        ("none", 5, &[]),
        ("one", 5, &[9]),
        ("65,535 to 0", 5, &[65_535, 0]),
        ("0 to 65,535", 5, &[0, 65_535]),
        ("equal readings", 5, &[7, 7, 7]),
        ("up to 2^64 - 1", u64::MAX - 1, &[65_535, 0]),
        ("past it", u64::MAX, &[65_535, 0]),
        ("past it and on", u64::MAX - 3, &[1, 2, 3, 4, 5, 5]),
        ("ten million readings", 0, &long),
    ];
    let mut wrong = 0;
    for (name, total, readings) in named {
        if log_differs(total, readings) {
            wrong += 1;
            println!("  the log `{name}` differs");
        }
    }
    let (mut refused, mut miscounted) = (0, 0);
    for _ in 0..n {
        let mut count = random.word() >> random.below(64);
        let (first, mut readings) = (count, vec![count as u16]);
        for _ in 0..random.below(40) {
            count = count.wrapping_add(random.below(65536) >> random.below(17));
            readings.push(count as u16);
        }
        let total = if random.coin() { random.word() >> random.below(64) } else { u64::MAX - random.below(1 << 20) };
        wrong += u64::from(log_differs(total, &readings));
        let sum = summed(total, &readings);
        refused += u64::from(sum.is_none());
        miscounted += u64::from(sum.is_some_and(|sum| sum != total.wrapping_add(count.wrapping_sub(first))));
    }
    println!("step logs: 9 named and {n} by chance ({refused} refused 13), {wrong} differ, {miscounted} not the steps taken");
    wrong + miscounted
}
