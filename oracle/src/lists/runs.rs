//! `lists`, `round` and the lists' part of `fuzz` and `make-blocks`: lists and texts of every kind through the programs `pack`
//! and `unpack`, fed in pieces of all sizes, against the oracle's own reader and writer.

use super::{number, packed, read, unpacked, written, Job, NAMES};
use crate::call::Entry;
use crate::fuzz::{good, piece};
use crate::lines::{command, root, Program};
use crate::random::Random;
use std::io::Write;
use std::process::Stdio;
use std::time::{Duration, Instant};

/// Standard output and standard error.
pub type Printed = (Vec<u8>, Vec<u8>);

/// Whether the programs were built.
pub fn there(programs: &[&str]) -> bool {
    programs.iter().all(|program| {
        let there = root().join("target/bin").join(program).is_file();
        if !there {
            eprintln!("there is no target/bin/{program}: `./gatewren build` first");
        }
        there
    })
}

/// What a program prints, fed in pieces of all sizes.
pub fn printed(program: &str, input: &[u8], random: &mut Random) -> Printed {
    let mut command = command(&root().join("target/bin").join(program));
    let mut child =
        command.stdin(Stdio::piped()).stdout(Stdio::piped()).stderr(Stdio::piped()).spawn().expect("the program runs");
    let mut pipe = child.stdin.take().expect("its standard input");
    let most = random.pick(&[1, 40, 700, 4000, 100_000]);
    let mut sizes = Random::new(random.word());
    let output = std::thread::scope(|scope| {
        scope.spawn(move || {
            let mut left = input;
            while !left.is_empty() {
                let (piece, rest) = left.split_at(left.len().min(1 + sizes.below(most) as usize));
                // A refusal ends the program before its input does.
                if pipe.write_all(piece).is_err() {
                    return;
                }
                left = rest;
            }
        });
        child.wait_with_output().expect("the program ends")
    });
    (output.stdout, output.stderr)
}

/// A word of any length, so that numbers of one to ten groups come.
pub fn word(random: &mut Random) -> u64 {
    match random.below(4) {
        0 => random.pick(&[0, 1, 127, 128, 16383, 16384, u64::MAX, u64::MAX >> 1, 1 << 63]),
        1 => random.word(),
        _ => random.word() >> random.below(64),
    }
}

type Names = [(u64, Entry)];

fn one(names: &Names, random: &mut Random) -> Job {
    let (function, entry) = random.pick(names);
    (function, (0..entry.arity()).map(|_| word(random)).collect())
}

const KINDS: [&str; 6] =
    ["good jobs", "cut somewhere", "a byte changed", "a byte put in", "numbers one group longer", "any bytes"];

/// A list of that kind, of so many jobs at most.
fn list(random: &mut Random, kind: usize, most: u64) -> Vec<u8> {
    let jobs: Vec<Job> = (0..random.below(most)).map(|_| one(&NAMES, random)).collect();
    let mut bytes = written(&jobs);
    let at = random.below(bytes.len() as u64 + 1) as usize;
    match kind {
        0 => {}
        1 => bytes.truncate(at),
        2 => {
            if let Some(byte) = bytes.get_mut(at) {
                *byte = random.word() as u8;
            }
        }
        3 => bytes.insert(at, random.word() as u8),
        4 => bytes.extend(long_job(random)),
        _ => bytes = (0..random.below(200)).map(|_| noise(random)).collect(),
    }
    bytes
}

/// A job whose first argument has one group more than it needs.
fn long_job(random: &mut Random) -> Vec<u8> {
    let mut long = number(word(random));
    *long.last_mut().expect("a group") |= 128;
    long.push(random.below(3) as u8);
    [number(2), long, number(word(random))].concat()
}

/// Any byte; more often one that means something.
fn noise(random: &mut Random) -> u8 {
    let any = random.word() as u8;
    random.pick(&[any, any, 0, 1, 2, 5, 6, 128, 255])
}

/// Lines, one in thirty of them of any kind; the last may lack its newline.
fn text(random: &mut Random) -> Vec<u8> {
    let mut text = Vec::new();
    for _ in 0..random.below(40) {
        let any = random.below(30) == 0;
        text.extend(match any {
            true => piece(Program::Listing, &Entry::ALL, random).1,
            false => good(Program::Listing, &Entry::ALL, random),
        });
        text.push(b'\n');
    }
    if random.coin() {
        text.pop();
    }
    text
}

struct Counts {
    runs: u64,
    differ: u64,
}

impl Counts {
    fn same(&mut self, program: &str, input: &[u8], wanted: &Printed, random: &mut Random) {
        self.runs += 1;
        let came_out = printed(program, input, random);
        if came_out != *wanted {
            self.differ += 1;
            if self.differ <= 3 {
                println!("{program} of {input:02X?}: {came_out:02X?}, not {wanted:02X?}");
            }
        }
    }

    /// N lists of a kind through `unpack`, the good ones back through `pack`; how many are refused.
    fn lists(&mut self, n: u64, kind: usize, random: &mut Random) -> u64 {
        let mut refused = 0;
        for _ in 0..n {
            let bytes = list(random, kind, 60);
            let wanted = unpacked(&bytes);
            refused += u64::from(!wanted.1.is_empty());
            self.same("unpack", &bytes, &wanted, random);
            // There and back: what was unpacked is packed into the bytes before the refusal.
            let whole = written(&read(&bytes).0);
            assert_eq!(whole, bytes[..whole.len()], "the oracle's own reader and writer disagree");
            if kind == 0 {
                self.same("pack", &wanted.0, &(bytes, Vec::new()), random);
            }
        }
        refused
    }
}

/// N lists of each kind through `unpack`, N texts through `pack`, and one list cut at every byte.
pub fn run(n: u64, seed: u64) -> bool {
    if !there(&["pack", "unpack"]) {
        return false;
    }
    let mut random = Random::new(seed);
    let mut counts = Counts { runs: 0, differ: 0 };
    println!("{:<28}{:>10}{:>10}", "through unpack", "lists", "refused");
    for (kind, name) in KINDS.into_iter().enumerate() {
        let refused = counts.lists(n, kind, &mut random);
        println!("{name:<28}{n:>10}{refused:>10}");
    }
    for _ in 0..n {
        let text = text(&mut random);
        counts.same("pack", &text, &packed(&text), &mut random);
    }
    println!("{:<28}{n:>10}", "texts through pack");
    let bytes = written(&fixed(&NAMES));
    for cut in 0..=bytes.len() {
        counts.same("unpack", &bytes[..cut], &unpacked(&bytes[..cut]), &mut random);
    }
    println!("{:<28}{:>10}", "a list cut at every byte", bytes.len() + 1);
    println!("{} runs, seed {seed}: {} differ", counts.runs, counts.differ);
    counts.differ == 0
}

/// Jobs of every function, with numbers of one to ten groups.
fn fixed(names: &Names) -> Vec<Job> {
    let word = |groups: u32| if groups == 10 { u64::MAX } else { (1 << (7 * groups)) - 1 };
    names
        .iter()
        .flat_map(|&(function, entry)| [1, 4, 7].map(|k| (function, (0..entry.arity() as u32).map(|i| word(k + i)).collect())))
        .collect()
}

/// Long lists of every kind through `unpack`, so many seconds: `fuzz`'s part for the lists.
pub fn fuzz(seconds: u64, seed: u64) -> bool {
    if !there(&["pack", "unpack"]) {
        return false;
    }
    let mut random = Random::new(seed);
    let mut counts = Counts { runs: 0, differ: 0 };
    let (mut bytes, mut jobs, mut kinds) = (0, 0, [(0, [0; 3]); KINDS.len()]);
    let end = Instant::now() + Duration::from_secs(seconds);
    while Instant::now() < end {
        let kind = random.below(KINDS.len() as u64) as usize;
        let input = list(&mut random, kind, 2000);
        let (found, refused) = read(&input);
        (bytes, jobs) = (bytes + input.len() as u64, jobs + found.len() as u64);
        kinds[kind].0 += 1;
        if let Some((_, number)) = refused {
            kinds[kind].1[number as usize - 14] += 1;
        }
        counts.same("unpack", &input, &unpacked(&input), &mut random);
    }
    println!("unpack: {} lists, {bytes} bytes in {seconds} s, seed {seed}", counts.runs);
    println!("{jobs} jobs; {} lists differ", counts.differ);
    println!("\n{:<28}{:>12}{:>12}{:>12}{:>12}", "made", "lists", "refused 14", "15", "16");
    for (name, (made, [cut, bad, unknown])) in KINDS.iter().zip(kinds) {
        println!("{name:<28}{made:>12}{cut:>12}{bad:>12}{unknown:>12}");
    }
    println!();
    counts.runs > 0 && counts.differ == 0
}

/// N jobs there and back: their lines through `pack`, which must give the oracle's bytes, and these through `unpack`, which must
/// give the lines back.
pub fn round(n: u64, seed: u64) -> bool {
    if !there(&["pack", "unpack"]) {
        return false;
    }
    let mut random = Random::new(seed);
    let bytes = written(&(0..n).map(|_| one(&NAMES, &mut random)).collect::<Vec<Job>>());
    let (lines, said) = unpacked(&bytes);
    let begun = Instant::now();
    let there = printed("pack", &lines, &mut random) == (bytes.clone(), said.clone());
    let half = begun.elapsed();
    let back = printed("unpack", &bytes, &mut random) == (lines.clone(), said);
    let word = |same| if same { "the same" } else { "DIFFERS" };
    println!("{n} jobs, seed {seed}: {} bytes of lines, {} bytes packed", lines.len(), bytes.len());
    println!(
        "packed: {} ({:.1} s); back: {} ({:.1} s)",
        word(there),
        half.as_secs_f64(),
        word(back),
        (begun.elapsed() - half).as_secs_f64()
    );
    there && back
}

/// The inputs of `examples/cuts` for the two programs, with what each prints on standard output and then on standard error: a
/// list and a text of several blocks that end in a refused job and in a bad line, and good ones after it, which must not be read.
pub fn examples() -> [(&'static str, Vec<u8>, Vec<u8>); 2] {
    let names = &NAMES;
    let line = |random: &mut Random| good(Program::Listing, &Entry::ALL, random);
    let mut random = Random::new(20_261_115);
    let mut list = Vec::new();
    while list.len() < 6 * 512 - 100 {
        list.extend(written(&[one(names, &mut random)]));
    }
    list.extend([long_job(&mut random), written(&fixed(names))].concat());
    let mut text = Vec::new();
    while text.len() < 6 * 1024 - 300 {
        text.extend([line(&mut random), b"\n".to_vec()].concat());
    }
    let bad = [vec![b'R'; 150], b"\n".to_vec(), line(&mut random)].concat();
    text.extend(bad);
    let all = |(output, error): Printed| [output, error].concat();
    [("pack.txt", text.clone(), all(packed(&text))), ("unpack.list", list.clone(), all(unpacked(&list)))]
}
