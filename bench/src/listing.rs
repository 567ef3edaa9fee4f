//! The listing program: lines a second from a file, its output thrown away.

use crate::inputs::{many, moderate};
use crate::random::Random;
use std::fs::{self, File};
use std::path::{Path, PathBuf};
use std::process::{Command, Stdio};
use std::time::Instant;

/// So many that the program's start does not show.
const LINES: usize = 1_000_000;

pub struct Row {
    pub name: String,
    input: PathBuf,
    bytes: u64,
    least: f64,
}

fn target() -> PathBuf {
    Path::new(env!("CARGO_MANIFEST_DIR")).join("../target")
}

/// Nothing where the program is not built, or is no code of this machine's: rt compiles for x86-64.
pub fn rows() -> Vec<Row> {
    if !target().join("bin/listing").is_file() || cfg!(not(target_arch = "x86_64")) {
        return Vec::new();
    }
    let any = |r: &mut Random| f64::from_bits(r.below(0x7FF0_0000_0000_0000));
    vec![
        row("listing: RF refused, no. 2", many(|r| [any(r), -moderate(r), any(r)]).map_lines("RF")),
        row("listing: RJ refused, no. 1", many(|r| [any(r), any(r), any(r), f64::NAN]).map_lines("RJ")),
        row("listing: bad at its last digit", many(|r| [any(r), any(r), any(r)]).map_lines("RF").map(spoilt)),
        row("listing: bad, of one byte", (0..1).map(|_| "x".to_string())),
        row("listing: RC(0, y)", many(|r| [0.0, moderate(r)]).map_lines("RC")),
        row("listing: RF", many(|r| [moderate(r), moderate(r), moderate(r)]).map_lines("RF")),
    ]
}

trait Lines {
    fn map_lines(self, name: &'static str) -> impl Iterator<Item = String>;
}

impl<const N: usize> Lines for Vec<[f64; N]> {
    fn map_lines(self, name: &'static str) -> impl Iterator<Item = String> {
        self.into_iter().map(move |args| args.iter().fold(name.to_string(), |line, arg| format!("{line} {:016X}", arg.to_bits())))
    }
}

/// With a lower-case last digit, so that all of the line is read before it is bad.
fn spoilt(mut line: String) -> String {
    line.pop();
    line + "a"
}

fn row(name: &str, lines: impl Iterator<Item = String>) -> Row {
    let once: Vec<String> = lines.collect();
    let text: String = once.iter().cycle().take(LINES).flat_map(|line| [line, "\n"]).collect();
    let folder = target().join("bench");
    let input = folder.join(name.replace(|c: char| !c.is_ascii_alphanumeric(), "-"));
    fs::create_dir_all(&folder).expect("target/ can be written to");
    fs::write(&input, &text).expect("target/bench can be written to");
    Row { name: name.to_string(), input, bytes: text.len() as u64, least: f64::INFINITY }
}

impl Row {
    pub fn time(&mut self) {
        let input = File::open(&self.input).expect("the input that was written");
        let mut program = Command::new(target().join("bin/listing"));
        let start = Instant::now();
        let done = program.stdin(input).stdout(Stdio::null()).status().expect("the listing runs");
        assert!(done.success(), "the listing failed");
        self.least = self.least.min(start.elapsed().as_nanos() as f64 / LINES as f64);
    }

    pub fn print(&self) {
        let bytes = self.bytes as f64 / LINES as f64;
        println!("{:<32}{:>9.1}{:>17.2}{:>17.0}", self.name, self.least, 1000.0 / self.least, bytes);
    }
}
