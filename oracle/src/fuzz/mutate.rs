//! Any program's line with something wrong, and noise.

use crate::random::Random;

pub const KINDS: [&str; 14] = [
    "a byte changed",
    "a byte put in",
    "a byte taken out",
    "two bytes swapped",
    "a tab for a blank",
    "a blank too many",
    "a blank at an end",
    "a CR at the end",
    "cut short",
    "two lines joined",
    "a line and much more",
    "any bytes",
    "digits, blanks and letters",
    "nothing",
];

/// `another` makes a good line.
pub fn made(random: &mut Random, kind: usize, mut line: Vec<u8>, another: impl Fn(&mut Random) -> Vec<u8>) -> Vec<u8> {
    let at = random.below(line.len() as u64) as usize;
    match kind {
        0 => line[at] = byte(random),
        1 => line.insert(at, byte(random)),
        2 => drop(line.remove(at)),
        3 => line.swap(at.saturating_sub(1), at),
        4 => match blank(random, &line) {
            Some(at) => line[at] = b'\t',
            None => line.push(b'\t'),
        },
        5 => line.insert(blank(random, &line).unwrap_or(at), b' '),
        6 => line.insert(if random.coin() { 0 } else { line.len() }, b' '),
        7 => line.push(b'\r'),
        8 => line.truncate(at),
        9 => line.extend(another(random)),
        10 => line.extend(much(random, another)),
        11 => line = (0..random.below(120)).map(|_| byte(random)).collect(),
        12 => line = (0..random.below(120)).map(|_| random.pick(b"RCFDGJ 0123456789ABCDEFabcdef")).collect(),
        _ => line.clear(),
    }
    line
}

/// Any byte; more often one that means something.
fn byte(random: &mut Random) -> u8 {
    match random.below(4) {
        0 => random.pick(b"\n\r\t \0"),
        1 => random.pick(b"RCFDGJ0123456789ABCDEF"),
        _ => random.word() as u8,
    }
}

/// Where a blank is, if there is one.
fn blank(random: &mut Random, line: &[u8]) -> Option<usize> {
    let blanks: Vec<usize> = (0..line.len()).filter(|&at| line[at] == b' ').collect();
    (!blanks.is_empty()).then(|| random.pick(&blanks))
}

/// Up to some hundred thousand bytes without a newline, among them what would be a good line by itself.
fn much(random: &mut Random, another: impl Fn(&mut Random) -> Vec<u8>) -> Vec<u8> {
    let most = if random.below(16) == 0 { 1 << 17 } else { 1 << 9 };
    let length = random.below(most);
    let fill = random.pick(b" 0F\0R\xFF");
    let mut more = vec![fill; length as usize];
    more.extend(another(random));
    more
}
