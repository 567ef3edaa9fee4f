//! Knees from standard input, a line `ID L h g T LIMIT` each, to verdicts, as ./gatewren drag has them: for good lines only.

use gatewren::bench;
use std::io::{BufRead, Write};

fn main() {
    let mut out = std::io::BufWriter::new(std::io::stdout().lock());
    for line in std::io::stdin().lock().lines() {
        let line = line.expect("the input can be read");
        let (name, numbers) = line.split_once(' ').expect("a name and a blank");
        let numbers: Vec<u64> = numbers.split(' ').map(|number| number.parse().expect("a number")).collect();
        match bench::drag(numbers[0], numbers[1], numbers[2], numbers[3], numbers[4]) {
            Ok(verdict) => writeln!(out, "{name} {verdict}"),
            Err(refusal) => writeln!(out, "{name} refused {}", refusal.number()),
        }
        .expect("the output can be written");
    }
}
