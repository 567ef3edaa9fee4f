//! The listing's lines: calls, and calls with something wrong that only a call can have.

use crate::call::{Call, Entry};
use crate::random::Random;

/// The last is for the profile alone.
pub const KINDS: [&str; 6] =
    ["a digit changed", "a digit in lower case", "an argument missing", "an argument too many", "another name", "a call of cel"];

pub fn good(entries: &[Entry], random: &mut Random, draw: fn(&mut Random, Entry) -> Call) -> Vec<u8> {
    let entry = random.pick(entries);
    draw(random, entry).to_string().into_bytes()
}

pub fn made(random: &mut Random, kind: usize, mut line: Vec<u8>) -> Vec<u8> {
    let letters = line.iter().position(|&byte| byte == b' ').expect("a blank after the name");
    match kind {
        0 => *digit(random, &mut line[letters + 1..]) = random.pick(b"0123456789ABCDEFG/:@"),
        1 => *digit(random, &mut line[letters + 1..]) = random.pick(b"abcdef"),
        2 => line.truncate(line.len() - 17),
        3 => line.extend_from_within(letters..letters + 17),
        4 => {
            let name = if letters == 2 { name_of_two(random).to_vec() } else { name_of_three(random).to_vec() };
            line.splice(..letters, name);
        }
        _ => line = cel(random),
    }
    line
}

/// A digit of the first two arguments, which every call has.
fn digit<'a>(random: &mut Random, arguments: &'a mut [u8]) -> &'a mut u8 {
    let argument = random.below(2) as usize;
    &mut arguments[17 * argument + random.below(16) as usize]
}

/// For CEL: mostly none of ours. RJ has as many arguments.
fn name_of_three(random: &mut Random) -> &'static [u8] {
    const NAMES: [&[u8]; 12] = [b"CEK", b"CFL", b"REL", b"cel", b"CEl", b"CE ", b" EL", b"CE", b"EL", b"CELL", b"RJ", b"CE\0"];
    random.pick(&NAMES)
}

fn cel(random: &mut Random) -> Vec<u8> {
    let digits = |_| format!(" {:016X}", random.word());
    format!("CEL{}", (0..4).map(digits).collect::<String>()).into_bytes()
}

/// A name of two letters, mostly none of ours.
fn name_of_two(random: &mut Random) -> [u8; 2] {
    random
        .pick(&[*b"RE", *b"RA", *b"rf", *b"Rf", *b"rF", *b"FR", *b"SF", *b"R ", *b"RR", *b" R", *b"RF", *b"RJ", *b"RC", *b"R\0"])
}
