//! `spoken`: calls with decimals, good ones, mutated ones and noise, through the program behind `gatewren rf 1 0.5 0.25` and
//! `gatewren table`, in its three forms, against what is made of them here: words by splitting, numbers by Rust's reader inside the
//! grammar of `decimals/grammar.rs`, answers by the judge, lines by `format!`.

use crate::call::{Call, Entry};
use crate::decimals::draw::{doubtful, pattern};
use crate::decimals::{judged, text_of, Reading};
use crate::lines::{command, lines, root};
use crate::random::Random;
use crate::shapes;
use doc01::{rules, Answer};
use std::io::Write;
use std::process::Stdio;

/// So many bytes of a line are held; of one that fills them nothing is read.
const ROW: usize = 128;

const LINES: u64 = 2000;

#[derive(Clone, Copy, PartialEq)]
enum Form {
    People,
    Table,
    Hex,
}

impl Form {
    const ALL: [Form; 3] = [Form::People, Form::Table, Form::Hex];

    fn argument(self) -> &'static [&'static str] {
        match self {
            Form::People => &[],
            Form::Table => &["table"],
            Form::Hex => &["hex"],
        }
    }
}

enum Said {
    Found(f64, u32, String, u32),
    Leaf(f64),
    Refused(u32),
    Bad(String),
}

fn is_blank(byte: u8) -> bool {
    matches!(byte, b' ' | b'\t' | b'\r')
}

/// The words of a line, each with the place of its first byte, from 1.
fn words(line: &[u8]) -> Vec<(usize, &[u8])> {
    let mut found = Vec::new();
    let mut at = 1;
    for word in line.split(|&byte| is_blank(byte)) {
        if !word.is_empty() {
            found.push((at, word));
        }
        at += word.len() + 1;
    }
    found
}

fn entry(name: &str) -> Option<Entry> {
    Entry::ALL.into_iter().find(|entry| format!("{entry:?}").to_lowercase() == name)
}

fn leaf(name: &str) -> Option<fn(f64) -> f64> {
    Some(match name {
        "sqrt" => f64::sqrt,
        "ln" => rules::ln,
        "ln_1p" => rules::ln_1p,
        "atan" => rules::atan,
        _ => return None,
    })
}

fn numbers(words: &[(usize, &[u8])]) -> Result<Vec<f64>, String> {
    let number = |&(at, word): &(usize, &[u8])| match judged(word) {
        Reading::Value(bits) => Ok(f64::from_bits(bits)),
        Reading::TooLarge => Err(format!("number too large at place {at}")),
        Reading::NoNumber(i) => Err(format!("no number at place {}", at + i)),
    };
    words.iter().map(number).collect()
}

fn of_entry(entry: Entry, args: &[f64]) -> Said {
    match Call::new(entry, args).judged().answer {
        Answer::Value(bits, way) => {
            let road = format!("{:?}", way.road).to_lowercase();
            Said::Found(f64::from_bits(bits), way.rounds, road, way.rescalings)
        }
        Answer::Refused(number) => Said::Refused(number),
    }
}

/// What is said to a line; nothing to one without a word.
fn said(line: &[u8]) -> Option<Said> {
    let words = words(&line[..line.len().min(ROW)]);
    let (_, name) = words.first()?;
    if line.len() >= ROW {
        return Some(Said::Bad("too long".to_string()));
    }
    let name = String::from_utf8_lossy(name).to_ascii_lowercase();
    let wanted = match (entry(&name), leaf(&name)) {
        (Some(entry), _) => entry.arity(),
        (None, Some(_)) => 1,
        (None, None) => return Some(Said::Bad("no such function".to_string())),
    };
    let args = match numbers(&words[1..]) {
        Ok(args) => args,
        Err(why) => return Some(Said::Bad(why)),
    };
    if args.len() != wanted {
        let s = if wanted == 1 { "" } else { "s" };
        return Some(Said::Bad(format!("{wanted} argument{s} wanted")));
    }
    Some(match (entry(&name), leaf(&name)) {
        (Some(entry), _) => of_entry(entry, &args),
        (None, Some(leaf)) => Said::Leaf(leaf(args[0])),
        (None, None) => unreachable!("it wants a number of arguments"),
    })
}

/// docs/REFUSALS.md, shortened.
fn reason(number: u32) -> &'static str {
    match number {
        1 => "an argument is NaN",
        2 => "an argument is below zero",
        3 => "too many zeros",
        4 => "a zero that must not be",
        5 => "RD's z is zero or less",
        6..=8 => "no finite result",
        9 => "the mean's rounds are spent",
        10 => "a fifth nested RJ call",
        19 => "several infinite arguments",
        20 => "a or b is infinite",
        21 => "wrong sign of p",
        _ => "?",
    }
}

fn for_people(said: &Said) -> String {
    match said {
        Said::Found(value, rounds, road, rescalings) => {
            let rescaled = if *rescalings == 0 { String::new() } else { format!(", rescaled {rescalings}") };
            format!("{}   rounds {rounds}, {road}{rescaled}", text_of(*value))
        }
        Said::Leaf(value) => text_of(*value),
        Said::Refused(number) => format!("refused {number}: {}", reason(*number)),
        Said::Bad(why) => format!("bad line: {why}"),
    }
}

/// value, rounds, road, rescalings, refused, bits
fn cells(said: &Said) -> [String; 6] {
    // the logic has one NaN, and its bits are these
    let bits = |x: f64| format!("{:016X}", if x.is_nan() { 0x7FF8_0000_0000_0000 } else { x.to_bits() });
    let none = String::new;
    match said {
        Said::Found(value, rounds, road, rescalings) => {
            [text_of(*value), rounds.to_string(), road.clone(), rescalings.to_string(), none(), bits(*value)]
        }
        Said::Leaf(value) => [text_of(*value), none(), none(), none(), none(), bits(*value)],
        Said::Refused(number) => [none(), none(), none(), none(), format!("{number}: {}", reason(*number)), none()],
        Said::Bad(why) => [none(), none(), none(), none(), format!("bad line: {why}"), none()],
    }
}

fn replies(input: &[u8], form: Form) -> Vec<u8> {
    let columns = if form == Form::Hex { 6 } else { 5 };
    let mut out = Vec::new();
    if form != Form::People {
        let heading = ["call", "value", "rounds", "road", "rescalings", "refused", "bits"];
        out.extend(format!("{}\n", heading[..=columns].join("\t")).bytes());
    }
    for line in lines(input) {
        let Some(said) = said(line) else { continue };
        if form == Form::People {
            out.extend(format!("{}\n", for_people(&said)).bytes());
            continue;
        }
        out.extend(line[..line.len().min(ROW)].iter().map(|&byte| if is_blank(byte) { b' ' } else { byte }));
        out.extend(format!("\t{}\n", cells(&said)[..columns].join("\t")).bytes());
    }
    out
}

/// A call in some case, with some blanks; of the numbers some are none, or there are too few or too many.
fn drawn(random: &mut Random) -> Vec<u8> {
    const NAMES: [&str; 14] =
        ["rc", "rf", "rd", "rg", "rj", "cel", "sqrt", "ln", "ln_1p", "atan", "rk", "ln_1", "sqrtt", "atan2"];
    let name = random.pick(&NAMES);
    let mut args: Vec<Vec<u8>> = match entry(name) {
        Some(entry) => shapes::draw(random, entry).args().iter().map(|&x| text_of(x).into_bytes()).collect(),
        None => vec![text_of(pattern(random)).into_bytes()],
    };
    if random.below(6) == 0 {
        let at = random.below(args.len() as u64) as usize;
        args[at] = doubtful(random).into_iter().filter(|&byte| byte != b'\n').collect();
    }
    match random.below(12) {
        0 => args.push(b"1".to_vec()),
        1 => drop(args.pop()),
        _ => (),
    }
    let mut line: Vec<u8> = match random.below(4) {
        0 => name.to_uppercase().into_bytes(),
        _ => name.as_bytes().to_vec(),
    };
    for arg in args {
        line.extend(random.pick(&[&b" "[..], b" ", b" ", b"  ", b"\t", b" \t"]));
        line.extend(arg);
    }
    line.extend(random.pick(&[&b""[..], b"", b"", b"\r", b" "]));
    line
}

fn stream(random: &mut Random, count: u64) -> Vec<u8> {
    let mut input = Vec::new();
    for i in 0..count {
        match random.below(20) {
            0 => input.extend((0..random.below(150)).map(|_| random.word() as u8).filter(|&byte| byte != b'\n')),
            1 => input.extend(b" \t"),
            _ => input.extend(drawn(random)),
        }
        if i + 1 < count || random.coin() {
            input.push(b'\n');
        }
    }
    input
}

fn printed(input: &[u8], form: Form) -> Vec<u8> {
    let mut program = command(&root().join("target/bin/spoken"));
    let program = program.args(form.argument()).stdin(Stdio::piped()).stdout(Stdio::piped());
    let mut child = program.spawn().expect("the program runs");
    let mut pipe = child.stdin.take().expect("its standard input");
    std::thread::scope(|scope| {
        scope.spawn(move || pipe.write_all(input).expect("it reads all"));
        child.wait_with_output().expect("it ends").stdout
    })
}

/// An input of several blocks for examples/cuts, whose last line lacks its newline, and the table of it.
pub fn example() -> (&'static str, Vec<u8>, Vec<u8>) {
    let mut input = stream(&mut Random::new(20_261_116), 60);
    input.extend(b"rf 1 0.5 0.25");
    let table = replies(&input, Form::Table);
    ("table.txt", input, table)
}

pub fn run(n: u64, seed: u64) -> bool {
    if !root().join("target/bin/spoken").is_file() {
        eprintln!("there is no target/bin/spoken: `./gatewren build` first");
        return false;
    }
    let mut random = Random::new(seed);
    let (mut answered, mut refused, mut bad, mut silent, mut differ) = (0u64, 0u64, 0u64, 0u64, 0u64);
    let mut left = n;
    while left > 0 {
        let count = left.min(LINES);
        left -= count;
        let input = stream(&mut random, count);
        for line in lines(&input) {
            match said(line) {
                Some(Said::Found(..) | Said::Leaf(_)) => answered += 1,
                Some(Said::Refused(_)) => refused += 1,
                Some(Said::Bad(_)) => bad += 1,
                None => silent += 1,
            }
        }
        for form in Form::ALL {
            let (wanted, came_out) = (replies(&input, form), printed(&input, form));
            if wanted != came_out {
                differ += 1;
                let pair = lines(&wanted).zip(lines(&came_out)).find(|(a, b)| a != b);
                if let (Some((a, b)), true) = (pair, differ <= 5) {
                    println!("  wanted {:?}\n  got    {:?}", String::from_utf8_lossy(a), String::from_utf8_lossy(b));
                }
            }
        }
    }
    println!(
        "spoken, seed {seed}: {n} lines in three forms, {answered} values, {refused} refused, {bad} bad, {silent} without a word, {differ} texts differ"
    );
    differ == 0
}
