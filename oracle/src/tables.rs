//! `tables`: request 2026-11 run. Tables of claims, made of the judge's answers with faults planted in them, through the proved
//! check; what it must say is worked out here, by the oracle's own reader of lists and with whole numbers for a double's place.

use crate::call::{Call, Entry};
use crate::lists::{entry_of, number, read, written, Job, NAMES};
use crate::random::Random;
use crate::shapes::{self, fraction, moderate, power_of_two, scaled, LARGEST};
use crate::symbols;
use doc01::Answer;
use std::collections::BTreeMap;
use std::time::Instant;

const BAD_ROW: u32 = u32::MAX;
const SIGN: u64 = 1 << 63;
const INFINITE: u64 = 0x7FF0_0000_0000_0000;

/// Kind and word.
type Claim = [u64; 2];

#[derive(Clone, Copy, Debug, PartialEq, Eq)]
enum Outcome {
    Accepted,
    Refused(u32),
    Bad(u64),
}

/// How many steps a finite double lies above zero; zeros of both signs are one.
fn place(bits: u64) -> Option<i128> {
    let size = i128::from(bits & !SIGN);
    (size <= i128::from(LARGEST)).then_some(if bits & SIGN == 0 { size } else { -size })
}

/// The double at a place, kept finite.
fn at(place: i128) -> u64 {
    let size = place.unsigned_abs().min(u128::from(LARGEST)) as u64;
    size | if place < 0 { SIGN } else { 0 }
}

/// How far a claim lies from an answer, where both are finite values.
fn distance(answer: Answer, [kind, word]: Claim) -> Option<i128> {
    match answer {
        Answer::Value(ours, _) if kind == 0 => Some((place(ours)? - place(word)?).abs()),
        _ => None,
    }
}

fn met(answer: Answer, claim: Claim, tolerance: u64) -> bool {
    match answer {
        Answer::Value(..) => distance(answer, claim).is_some_and(|steps| steps <= i128::from(tolerance)),
        Answer::Refused(number) => claim == [1, u64::from(number)],
    }
}

fn own(answer: Answer) -> Claim {
    match answer {
        Answer::Value(bits, _) => [0, bits],
        Answer::Refused(number) => [1, u64::from(number)],
    }
}

/// A call as a list has it.
pub fn job(call: &Call) -> Job {
    let (function, _) = NAMES.into_iter().find(|&(_, entry)| entry == call.entry).expect("lists know every entry");
    (function, call.args().iter().map(|arg| arg.to_bits()).collect())
}

pub fn judged((function, arguments): &Job) -> Answer {
    let entry = entry_of(*function).expect("a job that was read has a known function");
    let args: Vec<f64> = arguments.iter().map(|&bits| f64::from_bits(bits)).collect();
    Call::new(entry, &args).judged().answer
}

/// The document's order: the list's own refusals, 22, the rows.
fn expected(read: &Result<Vec<Answer>, u32>, claims: &[u64], tolerance: u64) -> Outcome {
    let answers = match read {
        Ok(answers) => answers,
        Err(number) => return Outcome::Refused(*number),
    };
    if claims.len() != 2 * answers.len() {
        return Outcome::Refused(22);
    }
    let bad = |i: &usize| !met(answers[*i], [claims[2 * i], claims[2 * i + 1]], tolerance);
    (0..answers.len()).find(bad).map_or(Outcome::Accepted, |row| Outcome::Bad(row as u64))
}

/// What the library says; a text where it touched the row and should not, or where it is not linked.
fn told(list: &[u8], claims: &[u64], tolerance: u64, null: bool) -> Result<Outcome, String> {
    const MARK: u64 = 0x1234_5678_9ABC_DEF0;
    let check = symbols::CHECK_TABLE.ok_or("it is not linked")?;
    let bytes = if null && list.is_empty() { std::ptr::null() } else { list.as_ptr() };
    let words = if null && claims.is_empty() { std::ptr::null() } else { claims.as_ptr() };
    let mut row = MARK;
    // It reads the two slices, which live for the call, and writes the row.
    match unsafe { check(bytes, list.len(), words, claims.len(), tolerance, &mut row) } {
        BAD_ROW => Ok(Outcome::Bad(row)),
        number if row != MARK => Err(format!("{number}, and the row touched")),
        0 => Ok(Outcome::Accepted),
        number => Ok(Outcome::Refused(number)),
    }
}

/// Calls as the other runs draw them, and some aimed at zeros, at subnormal values of both signs, and at powers of two.
fn draw(random: &mut Random) -> Call {
    let signed = |random: &mut Random, size: f64| if random.coin() { size } else { -size };
    match random.below(16) {
        0 => Call::new(Entry::RC, &[moderate(random), signed(random, f64::INFINITY)]),
        1 => {
            let x = scaled(random, 670, 718);
            Call::new(Entry::RD, &[x, x * fraction(random), x * fraction(random)])
        }
        2 => {
            let x = scaled(random, 670, 718);
            let p = x * fraction(random);
            Call::new(Entry::RJ, &[x, x * fraction(random), x * fraction(random), signed(random, p)])
        }
        3 | 4 => {
            let (a, b) = (scaled(random, -1074, -1020), scaled(random, -1074, -1020));
            Call::new(Entry::CEL, &[moderate(random), moderate(random), signed(random, a), signed(random, b)])
        }
        5 => {
            let x = power_of_two(2 * random.between(-500, 500));
            Call::new(Entry::RF, &[x; 3])
        }
        6 => {
            let zero = signed(random, 0.0);
            Call::new(Entry::CEL, &[moderate(random), moderate(random), zero, random.pick(&[0.0, -0.0])])
        }
        _ => {
            let entry = random.pick(&Entry::ALL);
            shapes::draw(random, entry)
        }
    }
}

/// A claim of a row that must be met, whatever it is called.
fn harmless(random: &mut Random, answer: Answer, tolerance: u64) -> (&'static str, Claim) {
    match answer {
        Answer::Value(bits, _) if random.coin() => {
            let ours = place(bits).expect("our values are finite");
            let by = i128::from(if random.coin() { tolerance } else { random.word() % tolerance.saturating_add(1).max(1) });
            ("within tolerance", [0, at(ours + if random.coin() { by } else { -by })])
        }
        _ => ("none", own(answer)),
    }
}

/// A claim with a fault. Whether it is a bad one is left to `met`: at a tolerance that is wide enough some are not.
fn faulty(random: &mut Random, answer: Answer, tolerance: u64) -> (&'static str, Claim) {
    let sign = if random.coin() { 1 } else { -1 };
    match answer {
        Answer::Value(bits, _) => {
            let ours = place(bits).expect("our values are finite");
            let steps = i128::from(tolerance);
            match random.below(14) {
                0 => ("tolerance, up or down", [0, at(ours + sign * steps)]),
                1..=3 => ("tolerance + 1, up or down", [0, at(ours + sign * (steps + 1))]),
                4 => ("across zero: -x", [0, bits ^ SIGN]),
                5 => {
                    let near = i128::from(random.below(4) + (random.below(2) << 52));
                    ("across zero: other sign", [0, at(if ours < 0 { near } else { -near })])
                }
                6 => {
                    let below = ours.abs() >> 52 << 52;
                    let to = below + random.pick(&[0, -1, 1, 1 << 52, (1 << 52) - 1]);
                    ("to or across a power of two", [0, at(ours.signum() * to)])
                }
                7 => {
                    let any = random.below(1 << 52);
                    let to = random.pick(&[1, 2, (1 << 52) - 1, 1 << 52, any]);
                    ("a subnormal number", [0, at(sign * i128::from(to))])
                }
                8 if ours == 0 => ("a zero of the other sign", [0, bits ^ SIGN]),
                8 => ("a zero for a number", [0, random.pick(&[0, SIGN])]),
                9 => ("a refusal for a value", [1, random.pick(&[0, 1, 2, 6, 22, bits])]),
                10 => ("a NaN claimed", [0, nan(random)]),
                11 | 12 => ("an infinity claimed", [0, INFINITE | random.pick(&[0, SIGN])]),
                _ => ("another kind", [other_kind(random), bits]),
            }
        }
        Answer::Refused(number) => {
            let number = u64::from(number);
            match random.below(6) {
                0 | 1 => {
                    let near = [number - 1, number + 1, number % 22 + 1];
                    let far = [number + (1 << 32), number + 256, number | SIGN, u64::from(BAD_ROW)];
                    ("another refusal", [1, if random.coin() { random.pick(&near) } else { random.pick(&far) }])
                }
                2 => {
                    let any = random.below(LARGEST);
                    ("a value for a refusal", [0, random.pick(&[number, 0, any])])
                }
                3 => ("a NaN claimed", [0, nan(random)]),
                4 => ("an infinity claimed", [0, INFINITE | random.pick(&[0, SIGN])]),
                _ => ("another kind", [other_kind(random), number]),
            }
        }
    }
}

fn nan(random: &mut Random) -> u64 {
    let any = 1 + random.below((1 << 52) - 1);
    random.pick(&[0, SIGN]) | INFINITE | random.pick(&[1, 1 << 51, (1 << 52) - 1, any])
}

fn other_kind(random: &mut Random) -> u64 {
    let any = 2 + random.below(u64::MAX - 2);
    random.pick(&[2, 3, 256, 257, 1 << 32, (1 << 32) + 1, SIGN, SIGN + 1, u64::MAX, any])
}

/// First, last or any.
fn somewhere(random: &mut Random, len: usize) -> usize {
    match random.below(4) {
        0 => 0,
        1 => len - 1,
        _ => random.below(len as u64) as usize,
    }
}

/// The list's bytes with a fault at some job: cut inside it, a number not in its shortest form or too long, an unknown function, or
/// a byte changed, which may leave a sound list.
pub fn spoilt(random: &mut Random, jobs: &[Job]) -> (&'static str, Vec<u8>) {
    let mut numbers: Vec<Vec<Vec<u8>>> =
        jobs.iter().map(|(function, arguments)| [function].into_iter().chain(arguments).map(|&n| number(n)).collect()).collect();
    let row = somewhere(random, jobs.len());
    let which = random.below(numbers[row].len() as u64) as usize;
    let fault = random.below(5);
    match fault {
        1 => {
            let bytes = &mut numbers[row][which];
            if bytes.len() < 10 && random.coin() {
                *bytes.last_mut().expect("a number has bytes") |= 128;
                bytes.push(0);
            } else {
                *bytes = [vec![random.pick(&[128, 255]); 9], vec![random.pick(&[0, 2, 127, 128, 255])]].concat();
            }
        }
        2 => numbers[row][0] = number(random.pick(&[0, 7, 8, 127, 128, 257, (1 << 32) + 1, u64::MAX])),
        _ => {}
    }
    let flat = |jobs: &[Vec<Vec<u8>>]| jobs.iter().flatten().flatten().copied().collect::<Vec<u8>>();
    let mut list = flat(&numbers);
    let start = flat(&numbers[..row]).len();
    let size = flat(&numbers[row..=row]).len();
    let name = match fault {
        0 => {
            list.truncate(start + 1 + random.below(size as u64 - 1) as usize);
            "list cut"
        }
        1 => "bad number",
        2 => "unknown function",
        3 => {
            let tail = random.pick(&[1, 2, 7, 128, 129]);
            list.push(tail);
            "a byte too many"
        }
        _ => {
            list[start + random.below(size as u64) as usize] ^= 1 << random.below(8);
            "a bit changed"
        }
    };
    (name, list)
}

const EXAMPLES: usize = 3;

#[derive(Default)]
struct Tally {
    tables: u64,
    rows: u64,
    asked: u64,
    differ: u64,
    narrower: u64,
    outcomes: BTreeMap<String, u64>,
    faults: BTreeMap<&'static str, u64>,
    examples: Vec<String>,
}

impl Tally {
    fn plant(&mut self, name: &'static str) {
        *self.faults.entry(name).or_default() += 1;
    }

    /// Asks for one table at one tolerance and holds the answer to what is expected. Whether the library accepts.
    fn ask(&mut self, list: &[u8], read: &Result<Vec<Answer>, u32>, claims: &[u64], tolerance: u64, null: bool) -> bool {
        let must = expected(read, claims, tolerance);
        let said = told(list, claims, tolerance, null);
        self.asked += 1;
        let last = claims.len() as u64 / 2;
        let name = match must {
            Outcome::Accepted => String::from("accepted"),
            Outcome::Refused(number) => format!("refused {number}"),
            Outcome::Bad(0) => String::from("bad row: first"),
            Outcome::Bad(row) if row + 1 == last => String::from("bad row: last"),
            Outcome::Bad(_) => String::from("bad row: between"),
        };
        *self.outcomes.entry(name).or_default() += 1;
        if said != Ok(must) {
            self.differ += 1;
            if self.examples.len() < EXAMPLES {
                self.examples.push(format!("{said:?} for {must:?}: list {list:02X?} claims {claims:X?} tolerance {tolerance}"));
            }
        }
        said == Ok(Outcome::Accepted)
    }

    fn take(&mut self, random: &mut Random, rows: usize) {
        let calls: Vec<Call> = (0..rows).map(|_| draw(random)).collect();
        let jobs: Vec<Job> = calls.iter().map(job).collect();
        let answers: Vec<Answer> = calls.iter().map(|call| call.judged().answer).collect();
        self.tables += 1;
        self.rows += rows as u64;
        let null = random.coin();

        // Our own answers, at tolerance 0.
        let (mut list, sound) = (written(&jobs), Ok(answers.clone()));
        let ours: Vec<u64> = answers.iter().flat_map(|&answer| own(answer)).collect();
        self.ask(&list, &sound, &ours, 0, null);

        // Claims at a tolerance, some of them with faults.
        let mut tolerance = match random.below(6) {
            0 => 0,
            1 => 1,
            2 => 2 + random.below(30),
            3 => (1 << 52) - 1 + random.below(3),
            4 => u64::MAX - random.below(2),
            _ => random.word() >> random.below(64),
        };
        let many = if rows == 0 { 0 } else { random.pick(&[0, 0, 1, 1, 1, 1, 2, 4]) };
        let places: Vec<usize> = (0..many).map(|_| somewhere(random, rows)).collect();
        let mut claims = Vec::new();
        for (i, &answer) in answers.iter().enumerate() {
            let make = if places.contains(&i) { faulty } else { harmless };
            let (name, claim) = make(random, answer, tolerance);
            self.plant(name);
            claims.extend(claim);
        }
        // Often the tolerance is then set by a row's distance: just wide enough for it, or one step too narrow.
        if many > 0 && random.below(3) == 0 {
            let row = places[0];
            if let Some(steps) = distance(answers[row], [claims[2 * row], claims[2 * row + 1]]) {
                let steps = u64::try_from(steps).expect("no two doubles lie farther apart");
                tolerance = random.pick(&[steps, steps.saturating_sub(1), steps + 1]);
                self.plant("tolerance set by a row");
            }
        }
        if random.below(8) == 0 {
            let more = random.coin() || claims.is_empty();
            let words = random.pick(&[1, 2, 2, 3, 4]);
            if more {
                claims.extend((0..words).map(|_| random.below(2)));
            } else {
                claims.truncate(claims.len().saturating_sub(words));
            }
            self.plant(if more { "words too many" } else { "words too few" });
        }
        let mut read_as = sound;
        if rows > 0 && random.below(8) == 0 {
            let (name, bytes) = spoilt(random, &jobs);
            self.plant(name);
            list = bytes;
            read_as = match read(&list) {
                (_, Some((_, number))) => Err(number),
                (jobs, None) => Ok(jobs.iter().map(judged).collect()),
            };
        }
        let first = self.ask(&list, &read_as, &claims, tolerance, null);

        // A wider tolerance accepts what the narrower did, by what the library says of both.
        let any = tolerance | random.word();
        let wider = random.pick(&[tolerance.saturating_add(1), tolerance.saturating_mul(2), any, u64::MAX]);
        let second = self.ask(&list, &read_as, &claims, wider, null);
        if first && !second {
            self.narrower += 1;
        }
    }
}

fn print(title: &str, counts: impl Iterator<Item = (String, u64)>) {
    println!("{title}");
    counts.for_each(|(name, times)| println!("  {name:<28}{times:>10}"));
}

/// N rows in all, in tables of up to 40.
pub fn run(n: u64, seed: u64) -> bool {
    if symbols::CHECK_TABLE.is_none() {
        println!("gatewren_check_table is NOT linked: `tools/build gatewren` first");
        return false;
    }
    let (start, mut random, mut tally) = (Instant::now(), Random::new(seed), Tally::default());
    while tally.rows < n {
        let rows = random.below(41).min(n - tally.rows) as usize;
        tally.take(&mut random, rows);
    }
    println!("{:<30}{:>10}\n{:<30}{:>10}", "tables", tally.tables, "rows", tally.rows);
    print("outcomes, three tolerances each", tally.outcomes.iter().map(|(name, &times)| (name.clone(), times)));
    print("planted", tally.faults.iter().map(|(name, &times)| (name.to_string(), times)));
    println!("{:<30}{:>10}\n{:<30}{:>10}", "asked", tally.asked, "differ", tally.differ);
    println!("{:<30}{:>10}", "a wider tolerance refuses", tally.narrower);
    println!("seed {seed}, {:.0} s", start.elapsed().as_secs_f64());
    tally.examples.iter().for_each(|example| println!("DIFFERS: {example}"));
    tally.differ == 0 && tally.narrower == 0
}

#[cfg(test)]
mod tests {
    use super::*;

    #[test]
    fn places() {
        assert_eq!((place(0), place(SIGN), place(1), place(SIGN | 1)), (Some(0), Some(0), Some(1), Some(-1)));
        assert_eq!((place(LARGEST), place(INFINITE), place(u64::MAX)), (Some(i128::from(LARGEST)), None, None));
        let mut random = Random::new(1);
        for _ in 0..10_000 {
            let value = f64::from_bits(random.word());
            if let Some(steps) = place(value.to_bits()) {
                assert_eq!(f64::from_bits(at(steps)), value);
                assert!(f64::from_bits(at(steps + 1)) > value || value == f64::MAX);
            }
        }
    }

    #[test]
    fn outcomes() {
        let one = Call::new(Entry::RF, &[1.0; 3]).judged().answer;
        let refused = Call::new(Entry::RF, &[0.0; 3]).judged().answer;
        let read = Ok(vec![one, refused]);
        let bits = 1f64.to_bits();
        assert_eq!(expected(&read, &[0, bits, 1, 3], 0), Outcome::Accepted);
        assert_eq!(expected(&read, &[0, bits - 1, 1, 3], 1), Outcome::Accepted);
        assert_eq!(expected(&read, &[0, bits - 2, 1, 3], 1), Outcome::Bad(0));
        assert_eq!(expected(&read, &[0, bits, 1, 2], u64::MAX), Outcome::Bad(1));
        assert_eq!(expected(&read, &[0, bits | SIGN, 1, 3], 2 * bits), Outcome::Accepted);
        assert_eq!(expected(&read, &[0, bits | SIGN, 1, 3], 2 * bits - 1), Outcome::Bad(0));
        assert_eq!(expected(&read, &[0, INFINITE, 1, 3], u64::MAX), Outcome::Bad(0));
        assert_eq!(expected(&read, &[0, 0, 1], u64::MAX), Outcome::Refused(22));
        assert_eq!(expected(&Err(14), &[], 0), Outcome::Refused(14));
    }
}
