//! `make-units`: the calls of the program `units_run`, which multiplies each by every power of four that fits.

use crate::call::{Call, Entry};
use crate::in_range::{asked, draw, fitting, END};
use crate::random::Random;
use crate::shapes::{moderate, power_of_two};
use std::collections::HashSet;
use std::path::PathBuf;

const DRAWN: usize = 600;

/// Each place and all of them at zero, at an end and below zero; then calls by chance. Each once, and only if some k fits.
fn listed() -> Vec<Call> {
    let mut calls = Vec::new();
    for (i, entry) in Entry::CARLSON.into_iter().enumerate() {
        let mut random = Random::new(2000 + i as u64);
        for special in [0.0, -0.0, power_of_two(-END), power_of_two(END), -1.0] {
            calls.push(Call::new(entry, &vec![special; entry.arity()]));
            for place in 0..entry.arity() {
                let mut args: Vec<f64> = (0..entry.arity()).map(|_| moderate(&mut random)).collect();
                args[place] = special;
                calls.push(Call::new(entry, &args));
            }
        }
        calls.extend((0..DRAWN).map(|_| draw(&mut random, entry)));
    }
    let mut seen = HashSet::new();
    calls.retain(|call| asked(call) && fitting(call) != (0, 0) && seen.insert(call.to_string()));
    calls
}

fn path() -> PathBuf {
    PathBuf::from(env!("CARGO_MANIFEST_DIR")).join("../crates/units_run/stdin")
}

fn text() -> String {
    listed().iter().map(|call| format!("{call}\n")).collect()
}

pub fn make() -> bool {
    std::fs::write(path(), text()).expect("the list can be written");
    for entry in Entry::CARLSON {
        let calls: Vec<Call> = listed().into_iter().filter(|call| call.entry == entry).collect();
        let pairs: i64 = calls.iter().map(fitting).map(|(low, high)| high - low).sum();
        println!("{entry:?}: {} calls, {pairs} times that a k other than 0 fits", calls.len());
    }
    true
}

#[cfg(test)]
mod tests {
    use super::*;

    #[test]
    fn the_list_is_the_one_made_here() {
        assert_eq!(std::fs::read_to_string(path()).expect("the list"), text());
    }
}
