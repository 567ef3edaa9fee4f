//! `fuzz`: good lines, mutated lines and noise through each of the four programs that answer lines, and good lists, mutated
//! lists and noise through `unpack` (`lists/runs.rs`), against what the oracle's own readers make of them.

mod calls;
mod mutate;
pub mod numbers;

use crate::call::Entry;
use crate::lines::Program;
use crate::lists;
use crate::profile;
use crate::random::Random;
use crate::shapes;
use std::io::Write;
use std::process::Stdio;
use std::time::{Duration, Instant};

const LINES: u64 = 2000;

/// What can be made of a program's lines; the first is a line as it should be.
fn kinds(program: Program) -> Vec<&'static str> {
    let own: &[&str] = match program {
        // calls of cel are good lines of the listing, and bad ones of the profile
        Program::Listing => &calls::KINDS[..calls::KINDS.len() - 1],
        Program::Profile => &calls::KINDS,
        Program::Swing | Program::Steps => &numbers::KINDS,
    };
    [&["a good line"], &mutate::KINDS[..], own].concat()
}

/// One piece of text without its newline (some have newlines within), and its kind; a call is one of these entries'.
pub fn piece(program: Program, entries: &[Entry], random: &mut Random) -> (usize, Vec<u8>) {
    // Every other piece is a good line, so that what follows a bad line is asked for.
    let kind = if random.coin() { 0 } else { random.below(kinds(program).len() as u64) as usize };
    let line = good(program, entries, random);
    let own = 1 + mutate::KINDS.len();
    let made = match (kind, program) {
        (0, _) => line,
        (kind, _) if kind < own => {
            let another = |random: &mut Random| good(program, entries, random);
            mutate::made(random, kind - 1, line, another)
        }
        (kind, Program::Listing | Program::Profile) => calls::made(random, kind - own, line),
        (kind, _) => numbers::made(random, kind - own, line, program),
    };
    (kind, made)
}

/// A line as it should be.
pub fn good(program: Program, entries: &[Entry], random: &mut Random) -> Vec<u8> {
    match program {
        Program::Listing => calls::good(entries, random, shapes::draw),
        Program::Profile => calls::good(&Entry::CARLSON, random, profile::draw::draw),
        _ => numbers::good(random, program),
    }
}

struct Counts {
    streams: u64,
    bytes: u64,
    lines: u64,
    good: u64,
    /// How many were made of each kind, and how many of these are good lines all the same.
    kinds: Vec<(u64, u64)>,
    differ: u64,
}

impl Counts {
    fn new(program: Program) -> Counts {
        Counts { streams: 0, bytes: 0, lines: 0, good: 0, kinds: vec![(0, 0); kinds(program).len()], differ: 0 }
    }

    fn take(&mut self, program: Program, input: &[u8]) {
        self.streams += 1;
        self.bytes += input.len() as u64;
        for line in crate::lines::lines(input) {
            self.lines += 1;
            self.good += u64::from(program.takes(line));
        }
    }

    fn print(&self, program: Program, seconds: u64, seed: u64) {
        let (lines, good) = (self.lines, self.good);
        println!("{}: {} streams, {} bytes in {seconds} s, seed {seed}", program.name(), self.streams, self.bytes);
        println!("{lines} lines, {good} good, {} bad; {} streams differ", lines - good, self.differ);
        println!("\n{:<28}{:>12}{:>12}", "made", "pieces", "good");
        for (name, (made, good)) in kinds(program).iter().zip(&self.kinds) {
            println!("{name:<28}{made:>12}{good:>12}");
        }
        println!();
    }
}

/// So many seconds for each program.
pub fn run(seconds: u64, seed: u64) -> bool {
    let lines = Program::ALL.map(|program| fuzzed(program, seconds, seed)) == [true; 4];
    lists::runs::fuzz(seconds, seed) && lines
}

fn fuzzed(program: Program, seconds: u64, seed: u64) -> bool {
    if !program.path().is_file() {
        eprintln!("there is no {}: `./gatewren build` first", program.path().display());
        return false;
    }
    let mut random = Random::new(seed);
    let mut counts = Counts::new(program);
    let end = Instant::now() + Duration::from_secs(seconds);
    while Instant::now() < end {
        let input = stream(program, &mut random, &mut counts);
        let wanted = program.replies(&input);
        let came_out = printed(program, &input, &mut random);
        if came_out != wanted {
            counts.differ += 1;
            if counts.differ <= 5 {
                show(&came_out, &wanted);
            }
        }
    }
    counts.print(program, seconds, seed);
    counts.streams > 0 && counts.differ == 0
}

/// Some lines of every kind; the last may lack its newline.
fn stream(program: Program, random: &mut Random, counts: &mut Counts) -> Vec<u8> {
    let lines = random.below(LINES);
    // Most step logs begin with a total, half of them one that the readings may take past 2^64 - 1.
    let mut input = if program == Program::Steps && random.below(4) > 0 { numbers::total(random) } else { Vec::new() };
    for i in 0..lines {
        let (kind, piece) = piece(program, &Entry::ALL, random);
        counts.kinds[kind].0 += 1;
        counts.kinds[kind].1 += u64::from(program.takes(&piece));
        input.extend(piece);
        if i + 1 < lines || random.coin() {
            input.push(b'\n');
        }
    }
    counts.take(program, &input);
    input
}

/// What the program prints. It is fed in pieces of all sizes, so that its reads end anywhere in a line.
fn printed(program: Program, input: &[u8], random: &mut Random) -> Vec<u8> {
    let mut child = program.command().stdin(Stdio::piped()).stdout(Stdio::piped()).spawn().expect("the program runs");
    let mut pipe = child.stdin.take().expect("its standard input");
    let most = random.pick(&[40, 4000, 4000, 4000, 100_000]);
    let mut sizes = Random::new(random.word());
    std::thread::scope(|scope| {
        scope.spawn(move || {
            let mut left = input;
            while !left.is_empty() {
                let (piece, rest) = left.split_at(left.len().min(1 + sizes.below(most) as usize));
                pipe.write_all(piece).expect("the program reads all of its input");
                left = rest;
            }
        });
        child.wait_with_output().expect("the program ends").stdout
    })
}

/// The first line in which the two outputs differ.
fn show(came_out: &[u8], wanted: &[u8]) {
    let lines = |text: &[u8]| text.split(|&byte| byte == b'\n').map(<[u8]>::to_vec).collect::<Vec<_>>();
    let (came_out, wanted) = (lines(came_out), lines(wanted));
    let i = came_out.iter().zip(&wanted).take_while(|(a, b)| a == b).count();
    let text = |lines: &[Vec<u8>]| lines.get(i).map_or("nothing".to_string(), |line| line.escape_ascii().to_string());
    println!("DIFFERS in line {} of the output: {}, not {}", i + 1, text(&wanted), text(&came_out));
}

#[cfg(test)]
mod tests {
    use super::*;

    /// Every kind is made, and each that can be bad is.
    #[test]
    fn every_kind() {
        for program in Program::ALL {
            let mut counts = Counts::new(program);
            let mut random = Random::new(2);
            (0..60).for_each(|_| drop(stream(program, &mut random, &mut counts)));
            assert!(counts.kinds.iter().all(|(made, _)| *made > 100));
            assert_eq!(counts.kinds[0].0, counts.kinds[0].1);
            assert!(counts.kinds[1..].iter().all(|(made, good)| good < made));
        }
    }
}
