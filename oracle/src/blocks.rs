//! `make-blocks`: an input of several blocks for each program that reads its input in parts, and what it must print, for
//! examples/cuts.

use crate::call::Entry;
use crate::fuzz::{good, numbers, piece};
use crate::lines::{root, Program};
use crate::lists::runs::examples;
use crate::random::Random;
use crate::report::texts;
use crate::spoken;
use std::path::PathBuf;

/// Those whose loops differ: the profile's is the listing's.
const PROGRAMS: [Program; 3] = [Program::Listing, Program::Swing, Program::Steps];

/// What a program reads at once, at the least (the listing reads twice as much), and about how long an input is.
const BLOCK: usize = 1024;
const LENGTH: usize = 6 * BLOCK - 100;

/// Good lines, bad lines and long ones; the calls are document 01's. At each border of a block a line lies across it, a good one
/// and a long one in turn; the last line lacks its newline.
fn input(program: Program) -> Vec<u8> {
    let mut random = Random::new(20_261_115);
    let mut text = if program == Program::Steps { numbers::total(&mut random) } else { Vec::new() };
    for border in (BLOCK..LENGTH).step_by(BLOCK) {
        fill(program, &mut random, &mut text, border);
        let mut across = good(program, &Entry::ALL, &mut random);
        if border / BLOCK % 2 == 0 {
            across.resize(across.len() + 150, b'7');
        }
        while text.len() + across.len() <= border {
            across = good(program, &Entry::ALL, &mut random);
        }
        push(&mut text, across);
    }
    fill(program, &mut random, &mut text, LENGTH);
    text.extend(good(program, &Entry::ALL, &mut random));
    text
}

/// How far before a border the line across it begins.
fn lead(program: Program) -> usize {
    match program {
        Program::Listing | Program::Profile => 30,
        Program::Swing => 6,
        Program::Steps => 3,
    }
}

/// Lines up to the place where that line begins.
fn fill(program: Program, random: &mut Random, text: &mut Vec<u8>, border: usize) {
    let end = border - lead(program);
    while text.len() + 80 < end {
        let line = piece(program, &Entry::ALL, random).1;
        if line.len() < 80 && !line.contains(&b'\n') && !line.contains(&0) {
            push(text, line);
        }
    }
    // what is left is a bad line
    let left = end - text.len() - 1;
    push(text, vec![b'x'; left]);
}

fn push(text: &mut Vec<u8>, line: Vec<u8>) {
    text.extend(line);
    text.push(b'\n');
}

/// The files: their names, and what they hold.
fn files() -> Vec<(String, Vec<u8>)> {
    let of_lines = PROGRAMS.map(|program| {
        let text = input(program);
        let replies = program.replies(&text);
        (format!("{}.txt", program.name()), text, replies)
    });
    let others = examples()
        .into_iter()
        .chain(texts::examples())
        .chain([spoken::example()])
        .map(|(name, input, output)| (name.to_string(), input, output));
    let both = |(name, input, output): (String, Vec<u8>, Vec<u8>)| {
        let stem = name.split('.').next().expect("a name").to_string();
        [(name, input), (format!("{stem}.expected"), output)]
    };
    of_lines.into_iter().chain(others).flat_map(both).collect()
}

fn path(name: &str) -> PathBuf {
    root().join("examples/blocks").join(name)
}

pub fn make() -> bool {
    for (name, bytes) in files() {
        std::fs::write(path(&name), bytes).expect("the file can be written");
    }
    true
}

#[cfg(test)]
mod tests {
    use super::*;
    use crate::lines::lines;

    #[test]
    fn the_files_are_those_made_here() {
        for (name, bytes) in files() {
            assert!(std::fs::read(path(&name)).expect("the file") == bytes, "{name}");
        }
    }

    #[test]
    fn what_they_hold() {
        for program in PROGRAMS {
            let text = input(program);
            assert!(text.len() > 5 * BLOCK && text.len() < 6 * BLOCK && !text.ends_with(b"\n"));
            assert!(
                (1..6).all(|block| !text[block * BLOCK - 2..block * BLOCK].contains(&b'\n')),
                "a line lies across each border"
            );
            let good = lines(&text).filter(|line| program.takes(line)).count();
            let bad = lines(&text).count() - good;
            assert!(good > 30 && bad > 20, "{}: {good} good and {bad} bad", program.name());
        }
    }
}
