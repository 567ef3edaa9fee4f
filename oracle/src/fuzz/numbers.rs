//! The lines of the swing and of the step log: whole numbers, lengths in millimetres, and what only a number can have wrong.

use crate::lengths;
use crate::lines::Program;
use crate::random::Random;
use crate::swing::by_chance;

pub const KINDS: [&str; 9] = [
    "a digit changed",
    "a zero in front",
    "a sign in front",
    "a number near 2^64",
    "a number of many digits",
    "a number missing",
    "a number too many",
    "a length too fine",
    "a unit gone wrong",
];

/// Three numbers, or one that is a reading.
pub fn good(random: &mut Random, program: Program) -> Vec<u8> {
    match program {
        Program::Swing => {
            let (length, height, gravity) = by_chance(random);
            let [length, height] = [length, height].map(|n| lengths::by_chance(n, random));
            format!("{length} {height} {gravity}").into_bytes()
        }
        _ => (random.below(65536) >> random.below(17)).to_string().into_bytes(),
    }
}

/// The first line of a step log, with its newline.
pub fn total(random: &mut Random) -> Vec<u8> {
    let total = if random.coin() { random.word() >> random.below(64) } else { u64::MAX - random.below(1 << 27) };
    format!("{total}\n").into_bytes()
}

pub fn made(random: &mut Random, kind: usize, line: Vec<u8>, program: Program) -> Vec<u8> {
    let text = String::from_utf8(line).expect("a good line is text");
    let mut words: Vec<String> = text.split(' ').map(str::to_string).collect();
    let at = random.below(words.len() as u64) as usize;
    let word = words[at].clone();
    match kind {
        0 => words[at] = changed(random, &word),
        1 => words[at] = format!("{}{word}", random.pick(&["0", "00", "0000000000000000000000"])),
        2 => words[at] = format!("{}{word}", random.pick(&["+", "-"])),
        3 => words[at] = (u128::from(u64::MAX) - 2 + u128::from(random.below(5))).to_string(),
        4 => words[at] = (0..20 + random.below(300)).map(|_| char::from(b'1' + random.below(9) as u8)).collect(),
        5 => drop(words.remove(at)),
        6 => words.insert(at, if program == Program::Swing { word } else { random.word().to_string() }),
        7 => words[at] = format!("{word}.{:03}{} mm", random.below(1000), random.below(100)),
        _ => words[at] = format!("{word}{}", random.pick(&["mm", " m", " mmm", " mm mm", ". mm", ".5", ".5mm", " MM", " um"])),
    }
    words.join(" ").into_bytes()
}

/// A digit for another, or for a byte next to the digits.
fn changed(random: &mut Random, word: &str) -> String {
    let mut bytes = word.as_bytes().to_vec();
    let at = random.below(bytes.len() as u64) as usize;
    bytes[at] = random.pick(b"0123456789/:,.");
    String::from_utf8(bytes).expect("digits and their neighbours are text")
}
