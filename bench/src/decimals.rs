//! Decimals: read beside `str::parse`, written beside `write!` into a buffer; of any f64 and of a moderate one the text is that of
//! `{:e}`, of a short one that of `{}`, which is also what the reference writes.

use crate::clock::Row;
use crate::inputs::{many, moderate, COUNT};
use crate::random::Random;
use crate::symbols;
use std::hint::black_box;
use std::io::Write;

const ROOM: usize = 24;

pub fn rows() -> Vec<Row> {
    let kinds: [(&str, fn(&mut Random) -> f64, bool); 3] =
        [("any f64s", any, true), ("[1e-3, 1e3]", moderate, true), ("as 1.5, 0.25", short, false)];
    let read = kinds.iter().map(|&(name, draw, power)| reading(name, draw, power));
    let written = kinds.iter().map(|&(name, draw, power)| writing(name, draw, power));
    read.chain(written).collect()
}

/// Finite, of any bits.
fn any(random: &mut Random) -> f64 {
    loop {
        let x = f64::from_bits(random.word());
        if x.is_finite() {
            return x;
        }
    }
}

/// One to four digits, up to three of them after the point.
fn short(random: &mut Random) -> f64 {
    (1 + random.below(9999)) as f64 / random.pick(&[1.0, 10.0, 100.0, 1000.0])
}

/// An input is its text's place, so that it goes the way of the other rows' numbers.
fn reading(name: &str, draw: fn(&mut Random) -> f64, power: bool) -> Row {
    let texts: Vec<String> =
        many(|r| [draw(r)]).iter().map(|[x]| if power { format!("{x:e}") } else { format!("{x}") }).collect();
    let texts: &'static [String] = texts.leak();
    let ours = symbols::READ_DECIMAL.map(|f| {
        move |[i]: [f64; 1]| {
            let text = texts[i as usize].as_bytes();
            let (mut value, mut place) = (0.0, 0);
            // It reads the text and writes through two pointers, which live for the call.
            let number = unsafe { f(text.as_ptr(), text.len(), &mut value, &mut place) };
            value + f64::from(number)
        }
    });
    let places = (0..COUNT).map(|i| [i as f64]).collect();
    Row::new(&format!("decimal read, {name}"), places, ours, |[i]: [f64; 1]| texts[i as usize].parse().unwrap_or(0.0))
}

fn writing(name: &str, draw: fn(&mut Random) -> f64, power: bool) -> Row {
    let ours = symbols::WRITE_DECIMAL.map(|f| {
        move |[x]: [f64; 1]| {
            let mut text = [0u8; ROOM];
            // It writes into the text, which lives for the call.
            let length = unsafe { f(x, text.as_mut_ptr(), ROOM) };
            black_box(&text);
            length as f64
        }
    });
    let reference = move |[x]: [f64; 1]| {
        let mut text = [0u8; ROOM];
        let mut rest = &mut text[..];
        let done = if power { write!(rest, "{x:e}") } else { write!(rest, "{x}") };
        let length = ROOM - rest.len();
        black_box((&text, done.is_ok()));
        length as f64
    };
    Row::new(&format!("decimal write, {name}"), many(|r| [draw(r)]), ours, reference)
}
