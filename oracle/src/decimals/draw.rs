//! f64s and texts by chance, and aimed.

use super::whole::middle;
use crate::random::Random;

/// Half of any bits; the rest subnormal, of a workshop's size, powers of two and their neighbours, short decimals, and quarters past 2^49,
/// of which two texts may be equally near.
pub fn pattern(random: &mut Random) -> f64 {
    let any = random.word();
    let sign = any & 1 << 63;
    let size = match random.below(12) {
        0 => random.word() >> (12 + random.below(52)),
        1 => (1023 - 40 + random.below(120)) << 52 | random.word() >> 12,
        2 => (random.below(2047) << 52).wrapping_add(random.below(5)).saturating_sub(2),
        3 => short(random).parse::<f64>().expect("a number").to_bits(),
        4 => (2f64.powi(49) + (random.word() >> 13) as f64 / 4.0).to_bits(),
        5 => (random.below(1 << 20) as f64).to_bits(),
        _ => return f64::from_bits(any),
    };
    f64::from_bits(size & !(1 << 63) | sign)
}

pub const KINDS: [&str; 9] = [
    "a middle between two f64s",
    "a middle, and a digit far behind it",
    "a middle less one in a digit far behind",
    "about the largest f64",
    "about the smallest and the subnormals' end",
    "one to six digits, small powers",
    "17 to 21 digits",
    "1 to 800 digits, powers to 400",
    "few digits among many zeros",
];

/// A kind and its text: a number, and hard.
pub fn hard(random: &mut Random) -> (usize, String) {
    let kind = random.below(KINDS.len() as u64) as usize;
    let text = match kind {
        0 | 1 | 2 => {
            let bits = finite(random);
            beside(random, kind, middle(bits))
        }
        3 => about_the_largest(random),
        4 => {
            let bits = match random.below(3) {
                0 => random.below(20),
                1 => (1 << 52) - 10 + random.below(20),
                _ => random.word() >> (12 + random.below(52)),
            };
            let which = random.below(3) as usize;
            beside(random, which, middle(bits))
        }
        5 => short(random),
        6 => {
            let count = 17 + random.below(5);
            let (digits, power) = (digits(random, count), random.between(-345, 310) as i32);
            laid_out(random, &digits, power)
        }
        7 => {
            let count = 1 + random.below(800);
            let (digits, power) = (digits(random, count), random.between(-400, 400) as i32);
            let power = if random.coin() { power } else { power - count as i32 };
            laid_out(random, &digits, power)
        }
        _ => {
            let digits = among_zeros(random);
            let power = random.between(-400, 310) as i32 - digits.len() as i32;
            laid_out(random, &digits, power)
        }
    };
    (kind, text)
}

/// The bits of a finite f64 of size above zero.
fn finite(random: &mut Random) -> u64 {
    match random.below(3) {
        0 => (1023 - 70 + random.below(140)) << 52 | random.word() >> 12,
        _ => random.below(0x7FF0_0000_0000_0000),
    }
}

/// The middle itself, or a little above it, or a little below, in up to 800 digits.
fn beside(random: &mut Random, which: usize, (mut digits, mut power): (String, i32)) -> String {
    let most = if random.coin() { 3 } else { 800 };
    let more = random.below(1 + most.min(799 - digits.len() as u64)) as usize;
    let end = match which {
        0 => String::new(),
        1 => "0".repeat(more) + "1",
        _ => "9".repeat(more + 1),
    };
    if which == 2 {
        let kept = digits.trim_end_matches('0').len();
        power += (digits.len() - kept) as i32;
        digits.truncate(kept);
        let last = digits.pop().expect("a digit that is not 0");
        digits.push((last as u8 - 1) as char);
    }
    power -= end.len() as i32;
    laid_out(random, &(digits + &end), power)
}

fn about_the_largest(random: &mut Random) -> String {
    let which = random.below(3) as usize;
    match random.below(3) {
        0 => {
            let bits = f64::MAX.to_bits() - random.below(2);
            beside(random, which, middle(bits))
        }
        1 => {
            let digits = format!("17976931348623157{}", digits(random, 3));
            laid_out(random, &digits, 308 - 19)
        }
        _ => {
            let count = 1 + random.below(30);
            let digits = digits(random, count);
            let power = random.between(300, 310) as i32 - count as i32;
            laid_out(random, &digits, power)
        }
    }
}

fn short(random: &mut Random) -> String {
    let count = 1 + random.below(6);
    let (digits, power) = (digits(random, count), random.between(-10, 10) as i32);
    laid_out(random, &digits, power).trim_start_matches('-').to_string()
}

/// So many digits, the first and the last not 0.
fn digits(random: &mut Random, count: u64) -> String {
    (0..count)
        .map(|i| (b'0' + if i == 0 || i == count - 1 { 1 + random.below(9) } else { random.below(10) } as u8) as char)
        .collect()
}

fn among_zeros(random: &mut Random) -> String {
    let mut held = String::new();
    let pieces = 2 + random.below(3);
    for _ in 0..pieces {
        let (count, zeros) = (1 + random.below(9), random.below(190));
        held += &digits(random, count);
        held += &"0".repeat(zeros as usize);
    }
    held.trim_end_matches('0').to_string()
}

/// Digits, and the power of ten of the last, as a text: the point anywhere, a power after it, zeros in front and behind, or written out.
fn laid_out(random: &mut Random, digits: &str, power: i32) -> String {
    let sign = if random.coin() { "-" } else { "" };
    let front = "0".repeat(if random.below(8) == 0 { random.below(40) as usize } else { 0 });
    let back = "0".repeat(if random.below(8) == 0 { random.below(40) as usize } else { 0 });
    if random.below(4) == 0 && (-500..400).contains(&power) {
        return written_out(sign, digits, power, &front, &back);
    }
    let digits = format!("{digits}{back}");
    let after = random.below(digits.len() as u64 + 1) as usize;
    let (whole, part) = digits.split_at(digits.len() - after);
    let power = power - back.len() as i32 + after as i32;
    let whole = if whole.is_empty() && front.is_empty() { "0" } else { whole };
    let point = if part.is_empty() { "" } else { "." };
    let plus = if power >= 0 && random.coin() { "+" } else { "" };
    let letter = if random.coin() { 'e' } else { 'E' };
    let tail = if power == 0 && random.coin() { String::new() } else { format!("{letter}{plus}{power}") };
    format!("{sign}{front}{whole}{point}{part}{tail}")
}

/// Without a power.
fn written_out(sign: &str, digits: &str, power: i32, front: &str, back: &str) -> String {
    if power >= 0 {
        return format!("{sign}{front}{digits}{}", "0".repeat(power as usize));
    }
    let after = -power as usize;
    let padded = format!("{}{digits}", "0".repeat((after + 1).saturating_sub(digits.len())));
    let (whole, part) = padded.split_at(padded.len() - after);
    format!("{sign}{front}{whole}.{part}{back}")
}

/// Noise, words, numbers with a fault or two, too many digits, powers about the ends.
pub fn doubtful(random: &mut Random) -> Vec<u8> {
    const WORDS: [&str; 16] =
        ["", "inf", "-inf", "nan", "infinity", "-nan", "+inf", "NaN", "Inf", "in", "-", ".", "e", "+", "1e", "0x1p3"];
    match random.below(8) {
        0 => {
            let count = random.below(8);
            (0..count).map(|_| random.word() as u8).collect()
        }
        1 => {
            let count = random.below(12);
            (0..count).map(|_| random.pick(b"0123456789012345.eE+-- infa")).collect()
        }
        2 => mutated(random, |random| random.pick(&WORDS).to_string()),
        3 => {
            let most: i64 = random.pick(&[i64::from(i32::MAX), -i64::from(i32::MIN), 100_000_000_000]);
            let sign = random.pick(&["", "+", "-"]);
            let zeros = "0".repeat(random.below(3) as usize);
            format!("{}e{sign}{zeros}{}", random.pick(&["0", "1", "0.0", "12.5"]), most + random.between(-2, 2)).into_bytes()
        }
        4 => {
            let count = 795 + random.below(12);
            let digits = digits(random, count);
            let power = random.between(-1200, 10) as i32;
            laid_out(random, &digits, power).into_bytes()
        }
        _ => mutated(random, |random| match random.coin() {
            true => short(random),
            false => hard(random).1,
        }),
    }
}

/// A text with up to two bytes taken out, put in or exchanged.
fn mutated(random: &mut Random, text: impl Fn(&mut Random) -> String) -> Vec<u8> {
    let mut bytes = text(random).into_bytes();
    for _ in 0..random.below(3) {
        let byte = if random.below(8) == 0 { random.word() as u8 } else { random.pick(b"0159.eE+- ,_\0\ninfa") };
        let at = random.below(bytes.len() as u64 + 1) as usize;
        match random.below(3) {
            0 if at < bytes.len() => drop(bytes.remove(at)),
            1 if at < bytes.len() => bytes[at] = byte,
            _ => bytes.insert(at, byte),
        }
    }
    bytes
}
