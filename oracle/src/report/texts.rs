//! `report-text` and the reports' part of `make-blocks`: lists through the program `report_run`, and texts of reports, one after
//! another, whole and spoilt, through `join_run`, against the oracle's own writer and reader.

use super::draw::{self, KINDS};
use super::{too_many, Report, MOST_CALLS, TOO_MANY};
use crate::lines::lines;
use crate::lists::runs::{printed, there, Printed};
use crate::lists::{read, written, Job};
use crate::random::Random;
use crate::tables::{job, judged, spoilt};
use std::collections::BTreeMap;
use std::time::Instant;

fn report_of(jobs: &[Job]) -> Report {
    let mut report = Report::empty();
    jobs.iter().for_each(|job| report.add(job.0, judged(job)));
    report
}

/// What `report_run` must print: the text, or the place at which the refused job begins.
fn reported(list: &[u8]) -> Printed {
    match read(list) {
        (jobs, None) => (report_of(&jobs).text().into_bytes(), Vec::new()),
        (_, Some((place, number))) => (Vec::new(), format!("byte {place}: refused {number}\n").into_bytes()),
    }
}

/// What `join_run` must print.
fn joined(input: &[u8]) -> Printed {
    let all: Vec<&[u8]> = lines(input).collect();
    let (mut at, mut report) = (0, Report::empty());
    let no = |said: String| (Vec::new(), said.into_bytes());
    while at < all.len() {
        match Report::read(&all[at..]) {
            Ok(more) if too_many(report.calls(), more.calls()) => return no(format!("refused {TOO_MANY}\n")),
            Ok(more) => {
                report.join(&more);
                at += more.text().lines().count();
            }
            Err(good) => return no(format!("line {}: bad line\n", at + good + 1)),
        }
    }
    (report.text().into_bytes(), Vec::new())
}

fn jobs(random: &mut Random) -> Vec<Job> {
    let kind = random.below(KINDS.len() as u64) as usize;
    let mut jobs: Vec<Job> = draw::list(random, kind).iter().map(job).collect();
    // short ones too, so that some functions have no call
    if random.below(4) == 0 {
        jobs.truncate(random.below(9) as usize);
    }
    jobs
}

/// Some reports' texts, one after another.
fn texts(random: &mut Random) -> Vec<u8> {
    (0..1 + random.below(5)).flat_map(|_| report_of(&jobs(random)).text().into_bytes()).collect()
}

/// Two texts whose calls are together 2^32 - 1, or one or two more or less, whatever else they hold; in some the first has them all. What
/// comes after too many is not read.
fn many(random: &mut Random) -> Vec<u8> {
    let mut reports = [report_of(&jobs(random)), report_of(&jobs(random))];
    let all = MOST_CALLS as u64 + random.below(4) - 1;
    let first = if random.below(4) == 0 { all } else { random.below(all + 1) };
    for (report, calls) in reports.iter_mut().zip([first, all - first]) {
        report.0.iter_mut().for_each(|part| part.calls = 0);
        report.0[random.below(6) as usize].calls = calls / 2;
        report.0[random.below(6) as usize].calls += calls - calls / 2;
        let missing = calls - report.calls() as u64;
        report.0[0].calls += missing;
    }
    let after: &[u8] = if random.coin() { b"" } else { b"no line of a report\n" };
    reports.iter().flat_map(|report| report.text().into_bytes()).chain(after.iter().copied()).collect()
}

/// A text with a number at the end of what words can hold, or past it, in the place of one of its own.
fn ends(random: &mut Random) -> Vec<u8> {
    let text = report_of(&jobs(random)).text();
    let mut all: Vec<String> = text.lines().map(str::to_string).collect();
    let i = 1 + random.below(all.len() as u64 - 1) as usize;
    let (words, _) = all[i].rsplit_once(' ').expect("every line but the first has a number");
    let words = words.to_string();
    if !words.ends_with("exact") && !words.ends_with("sum") {
        let number =
            random.pick(&["18446744073709551615", "18446744073709551616", "18446744073709551621", "100000000000000000000"]);
        all[i] = format!("{words} {number}");
    } else if words.ends_with("exact") {
        let zeros = "0".repeat(543);
        let (number, sum) = match random.below(6) {
            0 => (format!("7{}", "F".repeat(543)), "7FF0000000000000"),
            1 => (format!("8{zeros}"), "7FF0000000000000"),
            2 => (format!("-8{zeros}"), "FFF0000000000000"),
            3 => (format!("-8{}1", "0".repeat(542)), "FFF0000000000000"),
            4 => (format!("1{zeros}0"), "0000000000000000"),
            _ => (format!("1{zeros}{zeros}"), "7FF0000000000000"),
        };
        let name = words.split(' ').next().expect("a name").to_string();
        all[i] = format!("{words} {number}");
        all[i + 1] = format!("{name} sum {sum}");
    }
    all.iter().flat_map(|line| format!("{line}\n").into_bytes()).collect()
}

const SPOILT: [&str; 8] = [
    "a line left out",
    "a line twice",
    "two lines changed places",
    "a byte changed",
    "a byte put in",
    "a byte left out",
    "a number longer",
    "cut somewhere",
];

/// Texts with a fault of that kind, which may yet leave reports.
fn faulty(random: &mut Random, kind: usize) -> Vec<u8> {
    let mut text = texts(random);
    let mut all: Vec<Vec<u8>> = lines(&text).map(<[u8]>::to_vec).collect();
    let i = random.below(all.len() as u64) as usize;
    match kind {
        0 => drop(all.remove(i)),
        1 => all.insert(i, all[i].clone()),
        2 => {
            let j = random.below(all.len() as u64) as usize;
            all.swap(i, j);
        }
        6 => {
            let blank = all[i].iter().rposition(|&byte| byte == b' ').expect("every line has a blank");
            let first = all[i].get(blank + 1).copied().unwrap_or(b'0');
            all[i].insert(blank + 1, random.pick(&[b'0', b'1', b'-', b'+', b' ', first]));
        }
        _ => {
            let at = random.below(text.len() as u64) as usize;
            let near = text[at] ^ 1 << random.below(8);
            let byte = random.pick(&[b'0', b'A', b'a', b' ', b'\n', b'\r', 0, 255, near]);
            match kind {
                3 => text[at] = byte,
                4 => text.insert(at, byte),
                5 => drop(text.remove(at)),
                _ => text.truncate(at),
            }
            return text;
        }
    }
    let mut text = all.join(&b'\n');
    text.push(b'\n');
    text
}

#[derive(Default)]
struct Counts(BTreeMap<&'static str, [u64; 3]>);

impl Counts {
    fn same(&mut self, name: &'static str, program: &str, input: &[u8], wanted: &Printed, random: &mut Random) {
        let counts = self.0.entry(name).or_default();
        let came_out = printed(program, input, random);
        counts[0] += 1;
        counts[1] += u64::from(!wanted.1.is_empty());
        if came_out != *wanted {
            counts[2] += 1;
            if counts[2] <= 3 {
                let show = |(output, error): &Printed| format!("{}{}", output.escape_ascii(), error.escape_ascii());
                println!("DIFFERS, {name}: {} of {}: {}, not {}", program, input.escape_ascii(), show(&came_out), show(wanted));
            }
        }
    }
}

/// N lists of each kind through `report_run`, sound and spoilt, and N texts of each kind through `join_run`.
pub fn run(n: u64, seed: u64) -> bool {
    if !there(&["report_run", "join_run"]) {
        return false;
    }
    let (start, mut random, mut counts) = (Instant::now(), Random::new(seed), Counts::default());
    for kind in 0..KINDS.len() * n as usize {
        let jobs: Vec<Job> = draw::list(&mut random, kind % KINDS.len()).iter().map(job).collect();
        let list = written(&jobs);
        counts.same("report: a list", "report_run", &list, &reported(&list), &mut random);
        if !jobs.is_empty() {
            let (_, list) = spoilt(&mut random, &jobs);
            counts.same("report: a list with a fault", "report_run", &list, &reported(&list), &mut random);
        }
    }
    for _ in 0..n {
        // the parts of a list, their texts in any order, against the whole list's
        let jobs = jobs(&mut random);
        let mut parts: Vec<Vec<u8>> =
            jobs.chunks(1 + random.below(40) as usize).map(|part| report_of(part).text().into_bytes()).collect();
        random.shuffle(&mut parts);
        if !parts.is_empty() {
            let whole = (report_of(&jobs).text().into_bytes(), Vec::new());
            counts.same("join: a list's parts", "join_run", &parts.concat(), &whole, &mut random);
        }
        let text = texts(&mut random);
        counts.same("join: texts", "join_run", &text, &joined(&text), &mut random);
        counts.same("join: no last newline", "join_run", &text[..text.len() - 1], &joined(&text), &mut random);
        let text = many(&mut random);
        counts.same("join: about 2^32 calls", "join_run", &text, &joined(&text), &mut random);
        let text = ends(&mut random);
        counts.same("join: numbers at their ends", "join_run", &text, &joined(&text), &mut random);
        for (kind, name) in SPOILT.into_iter().enumerate() {
            let text = faulty(&mut random, kind);
            counts.same(name, "join_run", &text, &joined(&text), &mut random);
        }
    }
    counts.same("join: nothing", "join_run", b"", &joined(b""), &mut random);
    println!("{:<32}{:>10}{:>10}{:>10}", "through the programs", "inputs", "refused", "differ");
    counts.0.iter().for_each(|(name, [times, refused, differ])| println!("{name:<32}{times:>10}{refused:>10}{differ:>10}"));
    println!("seed {seed}, {:.0} s", start.elapsed().as_secs_f64());
    counts.0.values().all(|[.., differ]| *differ == 0)
}

/// The inputs of `examples/cuts` for the two programs, with what each prints: a list of several blocks, and some reports' texts.
pub fn examples() -> [(&'static str, Vec<u8>, Vec<u8>); 2] {
    let mut random = Random::new(20_261_116);
    let mut list = Vec::new();
    while list.len() < 6 * 512 - 100 {
        list.extend(written(&jobs(&mut random).into_iter().take(2).collect::<Vec<Job>>()));
    }
    let mut text = Vec::new();
    while text.len() < 6 * 1024 - 100 {
        text.extend(report_of(&jobs(&mut random)).text().into_bytes());
    }
    let all = |(output, error): Printed| [output, error].concat();
    [("report.list", list.clone(), all(reported(&list))), ("join.txt", text.clone(), all(joined(&text)))]
}

#[cfg(test)]
mod tests {
    use super::*;

    #[test]
    fn about_the_border() {
        let mut random = Random::new(1);
        let said: Vec<bool> = (0..12).map(|_| joined(&many(&mut random)).1 == b"refused 18\n").collect();
        assert!(said.contains(&true) && said.contains(&false));
    }

    #[test]
    fn at_the_ends() {
        let mut random = Random::new(4);
        let said: Vec<bool> = (0..60).map(|_| joined(&ends(&mut random)).1.is_empty()).collect();
        assert!(said.contains(&true) && said.contains(&false));
    }

    /// Every fault is told in most texts, and where it is not the text is another report's.
    #[test]
    fn faults() {
        let mut random = Random::new(2);
        for kind in 0..SPOILT.len() {
            let refused = (0..12).filter(|_| joined(&faulty(&mut random, kind)).1.starts_with(b"line ")).count();
            assert!(refused > 5, "{}: {refused}", SPOILT[kind]);
        }
    }

    #[test]
    fn parts_make_the_whole() {
        let mut random = Random::new(3);
        for _ in 0..10 {
            let jobs = jobs(&mut random);
            let parts: Vec<u8> = jobs.chunks(7).rev().flat_map(|part| report_of(part).text().into_bytes()).collect();
            assert_eq!(joined(&parts).0, reported(&written(&jobs)).0);
        }
    }
}
