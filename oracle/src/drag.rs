//! `drag`: the bench's verdicts and decrements by exact whole numbers of 128 bits, against the library, the lines by chance and at the
//! limit's own nanosecond; `drag-files` writes lines and their answers for the programs and the bindings, `make-bench` those of
//! examples/cuts. A period is m / 2^s, so T * 2^s, m * 10^9 and LIMIT * 2^s stand side by side.

use crate::lengths;
use crate::lines::root;
use crate::random::Random;
use crate::swing;
use crate::symbols;
use doc01::Answer;
use std::fmt::Write;

/// L, h, g, T and LIMIT.
type Knee = [u64; 5];

#[derive(Clone, Copy, Debug, PartialEq)]
struct Verdict {
    passes: bool,
    below: bool,
    excess: u64,
    period: u64,
}

pub fn run(n: u64, seed: u64) -> bool {
    if symbols::DRAG.is_none() || symbols::DECAY.is_none() {
        eprintln!("target/staticlib/libgatewren.a has no gatewren_drag and gatewren_decay: tools/build gatewren");
        return false;
    }
    let mut random = Random::new(seed);
    let (mut passed, mut drags, mut refused, mut ties, mut wrong) = (0u64, 0u64, 0u64, 0u64, 0u64);
    for _ in 0..n {
        let knee = by_chance(&mut random);
        let told = judged(knee);
        match told {
            Ok(Verdict { passes: true, .. }) => passed += 1,
            Ok(_) => drags += 1,
            Err(_) => refused += 1,
        }
        ties += u64::from(on_the_limit(knee));
        if ours(knee) != Some(told) {
            wrong += 1;
            if wrong == 1 {
                println!("  {knee:?}: {told:?} and not {:?}", ours(knee));
            }
        }
    }
    println!("knees, seed {seed}: {n} lines, {passed} pass, {drags} drag, {refused} refused, {ties} on the limit's last nanosecond, {wrong} differ");
    let mut off = 0;
    for _ in 0..n / 10 {
        let (a, b) = peaks(&mut random);
        if ours_of_peaks(a, b) != Some(decayed(a, b)) {
            off += 1;
            if off == 1 {
                println!("  {a} {b}: {:?} and not {:?}", decayed(a, b), ours_of_peaks(a, b));
            }
        }
    }
    println!("peaks, seed {seed}: {} lines, {off} differ", n / 10);
    wrong + off == 0
}

/// m and s of a period in seconds: m / 2^s.
fn fraction(period: u64) -> (u128, u32) {
    (u128::from(period % (1 << 52) | 1 << 52), 1075 - (period >> 52) as u32)
}

fn judged([length, height, gravity, time, limit]: Knee) -> Result<Verdict, u32> {
    let period = match swing::judged((length, height, gravity)) {
        Answer::Value(bits, _) => bits,
        Answer::Refused(number) => return Err(number),
    };
    let (m, s) = fraction(period);
    let (ideal, taken, allowed) = (m * 1_000_000_000, u128::from(time) << s, u128::from(limit) << s);
    let apart = ideal.abs_diff(taken);
    Ok(Verdict { passes: taken <= ideal + allowed, below: taken < ideal, excess: half_even(apart, s), period })
}

/// n / 2^s to the nearest whole number, a tie to the even one.
fn half_even(n: u128, s: u32) -> u64 {
    let (whole, rest, half) = (n >> s, n & ((1 << s) - 1), 1u128 << (s - 1));
    (whole + u128::from(rest > half || rest == half && whole % 2 == 1)) as u64
}

/// Whether one nanosecond more, or one less, would change the verdict.
fn on_the_limit(knee: Knee) -> bool {
    let [length, height, gravity, time, limit] = knee;
    let at = |time| judged([length, height, gravity, time, limit]).map(|verdict| verdict.passes);
    at(time).is_ok() && (at(time.saturating_add(1)) != at(time) || at(time.saturating_sub(1)) != at(time))
}

fn decayed(a: u64, b: u64) -> Result<u64, u32> {
    let range = 1..=1 << 53;
    if range.contains(&a) && range.contains(&b) {
        return Ok(doc01::rules::ln(a as f64 / b as f64).to_bits());
    }
    Err(24)
}

/// The library's answer; nothing where a refusal touched a place or a place has a strange number.
fn ours([length, height, gravity, time, limit]: Knee) -> Option<Result<Verdict, u32>> {
    let (mut verdict, mut below, mut excess, mut period) = (77, 78, 79, -80.5);
    // The function reads numbers and writes through four pointers, which live for the call.
    let number = unsafe { symbols::DRAG?(length, height, gravity, time, limit, &mut verdict, &mut below, &mut excess, &mut period) };
    match (number, verdict, below) {
        (0, 1 | 2, 0 | 1) => Some(Ok(Verdict { passes: verdict == 1, below: below == 1, excess, period: period.to_bits() })),
        (1.., 77, 78) if (excess, period) == (79, -80.5) => Some(Err(number)),
        _ => None,
    }
}

fn ours_of_peaks(a: u64, b: u64) -> Option<Result<u64, u32>> {
    let mut decrement = -80.5;
    match unsafe { symbols::DECAY?(a, b, &mut decrement) } {
        0 => Some(Ok(decrement.to_bits())),
        number if decrement == -80.5 => Some(Err(number)),
        _ => None,
    }
}

/// Half of the times lie within two nanoseconds of the limit's border, some beside the ideal period itself, the others anywhere.
fn by_chance(random: &mut Random) -> Knee {
    let (length, height, gravity) = swing::by_chance(random);
    let limit = random.word() >> random.below(64);
    let floor = match swing::judged((length, height, gravity)) {
        Answer::Value(bits, _) => {
            let (m, s) = fraction(bits);
            (m * 1_000_000_000 >> s) as u64
        }
        Answer::Refused(_) => random.word() >> 20,
    };
    let near = random.below(5);
    match random.below(4) {
        0 | 1 => [length, height, gravity, floor.saturating_add(limit).saturating_add(near).saturating_sub(2), limit],
        2 => [length, height, gravity, (floor + near).saturating_sub(2), random.below(4)],
        _ => [length, height, gravity, random.word() >> random.below(64), limit],
    }
}

fn peaks(random: &mut Random) -> (u64, u64) {
    let one = |random: &mut Random| (random.word() >> 10) >> random.below(54);
    let a = one(random);
    let near = (a + random.below(5)).saturating_sub(2);
    (a, if random.coin() { near } else { one(random) })
}

fn verdict_line(name: &str, knee: Knee) -> String {
    match judged(knee) {
        Ok(Verdict { passes, below, excess, period }) => {
            let (word, sign) = (if passes { "pass" } else { "drags" }, if below { '-' } else { '+' });
            format!("{name} {word} {sign}{}.{:09} {period:016X}\n", excess / 1_000_000_000, excess % 1_000_000_000)
        }
        Err(number) => format!("{name} refused {number}\n"),
    }
}

/// The size of a decrement, times 10^12, to the nearest: shifted down by steps that keep what is lost in the last digit.
fn decrement_line(a: u64, b: u64) -> String {
    let bits = match decayed(a, b) {
        Ok(bits) => bits,
        Err(number) => return format!("refused {number}\n"),
    };
    let ((m, s), sign) = (fraction(bits & (u64::MAX >> 1)), if bits >> 63 == 1 { "-" } else { "" });
    let ticks = match bits << 1 {
        0 => 0,
        _ if s > 120 => 0,
        _ => half_even(m * 1_000_000_000_000, s),
    };
    format!("{bits:016X} {sign}{}.{:012}\n", ticks / 1_000_000_000_000, ticks % 1_000_000_000_000)
}

fn knee_text(name: &str, [length, height, gravity, time, limit]: Knee) -> String {
    format!("{name} {length} {height} {gravity} {time} {limit}")
}

/// The same with its two lengths in a way that `lengths` has.
fn lengths_text(name: &str, [length, height, gravity, time, limit]: Knee, way: u64) -> String {
    format!("{name} {} {} {gravity} {time} {limit}", lengths::text(length, way), lengths::text(height, way))
}

/// N good lines and their answers, as target/drag/knees.txt and knees.expected, the same with lengths in millimetres as measured.txt, and N
/// pairs of peaks, in millimetres most of them: for tools/bench-answers.
pub fn files(n: u64, seed: u64) -> bool {
    let mut random = Random::new(seed);
    let (mut text, mut measured, mut answers) = (String::new(), String::new(), String::new());
    for i in 0..n {
        let knee = by_chance(&mut random);
        let name = format!("K{i}");
        writeln!(text, "{}", knee_text(&name, knee)).expect("a text takes what is written");
        writeln!(measured, "{}", lengths_text(&name, knee, i % 4)).expect("a text takes what is written");
        answers += &verdict_line(&name, knee);
    }
    let (mut pairs, mut decrements) = (String::new(), String::new());
    for i in 0..n {
        let (a, b) = peaks(&mut random);
        writeln!(pairs, "{} {}", lengths::text(a, i % 4), lengths::text(b, i % 3)).expect("a text takes what is written");
        decrements += &decrement_line(a, b);
    }
    let folder = root().join("target/drag");
    let put = |name: &str, text: String| std::fs::write(folder.join(name), text).expect("the file can be written");
    std::fs::create_dir_all(&folder).expect("the folder can be made");
    put("knees.txt", text);
    put("measured.txt", measured);
    put("knees.expected", answers);
    put("peaks.txt", pairs);
    put("peaks.expected", decrements);
    println!("target/drag: {n} knees and {n} pairs of peaks, seed {seed}");
    true
}

/// What a line lacks or has too much.
const BAD: [&str; 17] = [
    "",
    " K 1 1 1 1 1",
    "K 1 1 1 1",
    "K 1 1 1 1 1 1",
    "K  1 1 1 1 1",
    "K 1 1 1 01 1",
    "K 1 1 1 1 1 ",
    "K 1 1 1 1 18446744073709551616",
    "K 1 1 1 -1 1",
    "K\r 1 1 1 1 1",
    "K 1 1 1 1 1\r\r",
    "a_name_of_thirty-three_bytes_long 1 1 1 1 1",
    "K 250.0001 mm 1 1 1 1",
    "K 250 mm 50 mm 9806650 mm 1 1",
    "K 250 mm 50 mm 9806650 1 mm 1",
    "K 250.5 50 mm 9806650 1 1",
    "K 250. mm 50 mm 9806650 1 1",
];

/// Enough for each bad line once.
const LINES: usize = 4 * BAD.len() + 2;

/// Knees of several blocks and their answers, and peaks likewise, with carriage returns on some; the last line lacks its newline.
fn blocks() -> [(&'static str, String, String); 2] {
    let mut random = Random::new(31);
    let (mut knees, mut verdicts, mut pairs, mut decrements) = (String::new(), String::new(), String::new(), String::new());
    for i in 0..LINES {
        if i % 4 == 3 {
            knees += BAD[i / 4];
            verdicts += "bad line\n";
        } else {
            let name = "a_name_of_thirty-two_bytes_it_is".get(..1 + random.below(32) as usize).expect("one byte a letter");
            let knee = by_chance(&mut random);
            knees += &lengths_text(name, knee, i as u64 % 6);
            verdicts += &verdict_line(name, knee);
        }
        let (a, b) = peaks(&mut random);
        let odd = i % 7 == 6;
        let [first, second] = [a, b].map(|n| lengths::text(n, i as u64 % 5));
        pairs += &if odd { format!("{first}  {second}") } else { format!("{first} {second}") };
        decrements += &if odd { "bad line\n".to_string() } else { decrement_line(a, b) };
        let end = if i == LINES - 1 { "" } else if random.coin() { "\r\n" } else { "\n" };
        knees += end;
        pairs += end;
    }
    [("drag", knees, verdicts), ("decay", pairs, decrements)]
}

pub fn make() -> bool {
    for (name, text, answers) in blocks() {
        let folder = root().join("examples/blocks");
        std::fs::write(folder.join(format!("{name}.txt")), text).expect("the file can be written");
        std::fs::write(folder.join(format!("{name}.expected")), answers).expect("the file can be written");
    }
    true
}

#[cfg(test)]
mod tests {
    use super::*;

    #[test]
    fn the_files_are_those_made_here() {
        for (name, text, answers) in blocks() {
            let read = |ending: &str| std::fs::read_to_string(root().join(format!("examples/blocks/{name}.{ending}"))).expect("the file");
            assert_eq!((read("txt"), read("expected")), (text, answers));
        }
    }

    #[test]
    fn the_issues_own_line() {
        let line = verdict_line("K17", [250_000, 50_000, 9_806_650, 1_047_000_000, 20_000_000]);
        assert_eq!(line, "K17 pass +0.017198348 3FF07A114C26A24A\n");
    }

    #[test]
    fn ties_go_to_the_even_one() {
        assert_eq!([1, 2, 3, 5, 6, 7, 9, 10, 11].map(|n| half_even(n, 2)), [0, 0, 1, 1, 2, 2, 2, 2, 3]);
    }
}
