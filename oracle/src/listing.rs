//! `call`: document 01's listing, for use by hand.

use crate::call::{shown, Call};
use std::io::{self, BufRead, Write};

pub fn run() -> bool {
    listed().map_err(|e| eprintln!("{e}")).is_ok()
}

fn listed() -> io::Result<()> {
    let mut out = io::BufWriter::new(io::stdout().lock());
    writeln!(out, "carlson 2")?;
    for line in io::stdin().lock().lines() {
        match Call::parse(&line?) {
            Some(call) => writeln!(out, "{:?} {}", call.entry, shown(call.judged().answer))?,
            None => writeln!(out, "bad line")?,
        }
    }
    out.flush()
}
