//! `decimals`: numbers as people write them, through the library, against the standard library's printer and reader. Texts of f64s by
//! chance must be those made of Rust's digits, and be read back; hard decimals must be the f64 of Rust's reader, or refused where that has
//! an infinity; what is no number by the grammar of `decimals/grammar.rs`, which is narrower than Rust's, must be refused at its place.

pub mod draw;
mod grammar;
mod whole;

use crate::random::Random;
use crate::symbols;

/// No text is longer.
const ROOM: usize = 24;

#[derive(Debug, PartialEq)]
pub enum Reading {
    /// Every NaN is one.
    Value(u64),
    TooLarge,
    NoNumber(usize),
}

#[derive(Default)]
struct Differing(u64);

impl Differing {
    /// Counts a difference, and shows the first.
    fn note(&mut self, same: bool, what: impl FnOnce() -> String) {
        if !same {
            self.0 += 1;
            if self.0 == 1 {
                println!("  {}", what());
            }
        }
    }
}

pub fn run(n: u64, seed: u64) -> bool {
    if symbols::READ_DECIMAL.is_none() || symbols::WRITE_DECIMAL.is_none() {
        eprintln!("libgatewren.a has no gatewren_read_decimal and gatewren_write_decimal: tools/build gatewren");
        return false;
    }
    let mut random = Random::new(seed);
    let texts = written(n, seed, &mut random);
    let hard = hard(n / 10, seed, &mut random);
    let bad = bad(n / 10, seed, &mut random);
    texts && hard && bad
}

/// f64s to texts and back, and Rust's own texts of them.
fn written(n: u64, seed: u64, random: &mut Random) -> bool {
    let (mut off, mut nans, mut plain, mut seventeen, mut longest) = (Differing::default(), 0u64, 0u64, 0u64, 0);
    for i in 0..n {
        let x = draw::pattern(random);
        let text = text_of(x);
        let told = ours_of(x, ROOM);
        off.note(told.as_deref() == Some(text.as_bytes()), || format!("{:016X}: {text} and not {:?}", x.to_bits(), shown(&told)));
        if i % 64 == 0 {
            let room = random.below(ROOM as u64) as usize;
            off.note(ours_of(x, room) == Some(Vec::new()), || {
                format!("{:016X} in {room} bytes: {:?}", x.to_bits(), ours_of(x, room))
            });
        }
        longest = longest.max(text.len());
        if x.is_nan() {
            nans += 1;
            continue;
        }
        plain += u64::from(!text.contains('e'));
        seventeen += u64::from(digits_of(x).0.len() == 17);
        for text in [text, format!("{x:e}"), format!("{x}")] {
            off.note(ours(text.as_bytes()) == Some(Reading::Value(x.to_bits())), || {
                format!("{text}: {:016X} and not {:?}", x.to_bits(), ours(text.as_bytes()))
            });
        }
    }
    println!(
        "texts, seed {seed}: {n} f64s there and back, {nans} NaNs, {plain} without a power, {seventeen} of 17 digits, at most {longest} bytes, {} differ",
        off.0
    );
    off.0 == 0
}

/// Hard decimals against Rust's reader.
fn hard(n: u64, seed: u64, random: &mut Random) -> bool {
    let mut rows = draw::KINDS.map(|name| (name, 0u64, 0u64, 0usize));
    let mut off = Differing::default();
    for _ in 0..n {
        let (kind, text) = draw::hard(random);
        let judged = judged(text.as_bytes());
        let (_, count, large, longest) = &mut rows[kind];
        *count += 1;
        *large += u64::from(judged == Reading::TooLarge);
        *longest = (*longest).max(text.len());
        off.note(!matches!(judged, Reading::NoNumber(_)), || format!("{text} was to be a number"));
        off.note(ours(text.as_bytes()).as_ref() == Some(&judged), || {
            format!("{text}: {judged:?} and not {:?}", ours(text.as_bytes()))
        });
    }
    println!("hard decimals, seed {seed}: {n}, {} differ", off.0);
    for (name, count, large, longest) in rows {
        println!("  {name:<44}{count:>9}, too large {large:>8}, longest {longest:>5} bytes");
    }
    off.0 == 0
}

/// Texts of which many are no number.
fn bad(n: u64, seed: u64, random: &mut Random) -> bool {
    let (mut off, mut numbers, mut ended, mut rust) = (Differing::default(), 0u64, 0u64, 0u64);
    for _ in 0..n {
        let text = draw::doubtful(random);
        let judged = judged(&text);
        match judged {
            Reading::NoNumber(at) => {
                ended += u64::from(at == text.len());
                rust += u64::from(std::str::from_utf8(&text).is_ok_and(|text| text.parse::<f64>().is_ok()));
            }
            _ => numbers += 1,
        }
        off.note(ours(&text).as_ref() == Some(&judged), || {
            format!("{:?}: {judged:?} and not {:?}", String::from_utf8_lossy(&text), ours(&text))
        });
    }
    println!(
        "doubtful texts, seed {seed}: {n}, {numbers} are numbers, {ended} end too soon, {rust} are numbers to Rust alone, {} differ",
        off.0
    );
    off.0 == 0
}

fn shown(text: &Option<Vec<u8>>) -> String {
    text.as_ref().map_or("a strange length or a byte beyond it".to_string(), |text| String::from_utf8_lossy(text).into_owned())
}

/// One NaN for all.
fn bits(x: f64) -> u64 {
    if x.is_nan() {
        f64::NAN.to_bits()
    } else {
        x.to_bits()
    }
}

/// By our grammar whether it is a number, by Rust's reader which.
pub fn judged(text: &[u8]) -> Reading {
    match grammar::place_of(text) {
        Some(at) => Reading::NoNumber(at),
        None => {
            let text = std::str::from_utf8(text).expect("a number is ASCII");
            let x: f64 = text.parse().expect("Rust reads all that our grammar has");
            if x.is_infinite() && !text.ends_with("inf") {
                return Reading::TooLarge;
            }
            Reading::Value(bits(x))
        }
    }
}

/// The library's reading; nothing where it touched a place that is not its outcome's, or returned a strange number.
fn ours(text: &[u8]) -> Option<Reading> {
    const PLACE: usize = usize::MAX - 76;
    let (mut value, mut place) = (-80.5, PLACE);
    // The function reads the bytes that it is lent and writes through two pointers, which live for the call.
    let number = unsafe { symbols::READ_DECIMAL?(text.as_ptr(), text.len(), &mut value, &mut place) };
    match number {
        0 if place == PLACE => Some(Reading::Value(bits(value))),
        25 if (value, place) == (-80.5, PLACE) => Some(Reading::TooLarge),
        26 if value == -80.5 => Some(Reading::NoNumber(place)),
        _ => None,
    }
}

/// The library's text in so much room; nothing where a byte past it was touched.
fn ours_of(x: f64, room: usize) -> Option<Vec<u8>> {
    let mut bytes = [0xEE; 2 * ROOM];
    // The function writes into the bytes that it is lent, which live for the call.
    let length = unsafe { symbols::WRITE_DECIMAL?(x, bytes.as_mut_ptr(), room) };
    let rest = bytes.get(length..)?;
    (length <= room && rest.iter().all(|byte| *byte == 0xEE)).then(|| bytes[..length].to_vec())
}

/// The digits that Rust prints for a finite x, and the power of ten of the first.
fn digits_of(x: f64) -> (String, i32) {
    let text = format!("{:e}", x.abs());
    let (digits, power) = text.split_once('e').unwrap_or(("0", "0"));
    (digits.replace('.', ""), power.parse().expect("Rust prints a power"))
}

/// Rust's digits, laid out as ours are: up to 17 digits before the point and four zeros after it, else with a power.
pub fn text_of(x: f64) -> String {
    let sign = if x.is_sign_negative() { "-" } else { "" };
    if x.is_nan() {
        return "nan".to_string();
    }
    if x.is_infinite() {
        return format!("{sign}inf");
    }
    let (digits, power) = digits_of(x);
    let before = power + 1;
    let count = digits.len() as i32;
    let body = if before >= count && before <= 17 {
        format!("{digits}{}", "0".repeat((before - count) as usize))
    } else if (1..count).contains(&before) {
        format!("{}.{}", &digits[..before as usize], &digits[before as usize..])
    } else if (-4..=0).contains(&before) {
        format!("0.{}{digits}", "0".repeat(-before as usize))
    } else {
        let (first, rest) = digits.split_at(1);
        format!("{first}{}{rest}e{power}", if rest.is_empty() { "" } else { "." })
    };
    format!("{sign}{body}")
}

#[cfg(test)]
mod tests {
    use super::*;

    #[test]
    fn texts() {
        let texts = [
            (0.0, "0"),
            (-0.0, "-0"),
            (250.0, "250"),
            (0.001, "0.001"),
            (1e-5, "0.00001"),
            (1.25e-5, "0.0000125"),
            (1e-6, "1e-6"),
            (1e16, "10000000000000000"),
            (1e17, "1e17"),
            (-1.370171633266872, "-1.370171633266872"),
            (6.02e23, "6.02e23"),
            (5e-324, "5e-324"),
            (1125899906842624.25, "1125899906842624.3"),
            (f64::NEG_INFINITY, "-inf"),
            (-f64::NAN, "nan"),
        ];
        for (x, text) in texts {
            assert_eq!(text_of(x), text);
        }
    }

    #[test]
    fn readings() {
        assert_eq!(judged(b"1e309"), Reading::TooLarge);
        assert_eq!(judged(b"-inf"), Reading::Value(f64::NEG_INFINITY.to_bits()));
        assert_eq!(judged(b"-1e-400"), Reading::Value(1 << 63));
        assert_eq!(judged(b"nan"), Reading::Value(f64::NAN.to_bits()));
        assert_eq!(judged(b"+1"), Reading::NoNumber(0));
    }

    #[test]
    fn hard_decimals_are_numbers_of_at_most_800_digits() {
        let mut random = Random::new(5);
        for _ in 0..2000 {
            let (_, text) = draw::hard(&mut random);
            assert_eq!(grammar::place_of(text.as_bytes()), None, "{text}");
        }
    }
}
