//! `compare`: N fresh calls in all of every leaf and entry of the proved library against the oracle, in one table.
//!
//! The calls are drawn in pieces, each from a seed of its own, so that the table does not hang on the number of threads.

use crate::aims;
use crate::call::Entry;
use crate::leaf::{self, Leaf};
use crate::random::Random;
use crate::shapes;
use crate::tally::{Largest, Tally};
use std::sync::atomic::{AtomicUsize, Ordering};
use std::time::Instant;

enum Function {
    Leaf(&'static Leaf),
    Entry(Entry),
    /// RJ with p below zero, or not.
    Rj(bool),
}

struct Row {
    function: Function,
    /// How many parts of all the calls.
    share: u64,
}

/// A leaf has one part of all calls, RC, RF, RD and RG two each, RJ three for either sign of p, cel two.
fn rows() -> Vec<Row> {
    let leaves = leaf::ALL.into_iter().map(|leaf| Row { function: Function::Leaf(leaf), share: 1 });
    let four = [Entry::RC, Entry::RF, Entry::RD, Entry::RG].map(|entry| Row { function: Function::Entry(entry), share: 2 });
    let rj = [false, true].map(|below_zero| Row { function: Function::Rj(below_zero), share: 3 });
    let cel = Row { function: Function::Entry(Entry::CEL), share: 2 };
    leaves.chain(four).chain(rj).chain([cel]).collect()
}

/// So many calls of a row.
struct Piece {
    row: usize,
    seed: u64,
    calls: u64,
}

const PIECE: u64 = 20_000;

pub fn all_threads() -> u64 {
    std::thread::available_parallelism().map_or(1, |n| n.get() as u64)
}

pub fn run(n: u64, seed: u64, threads: u64) -> bool {
    let rows = rows();
    let pieces = pieces(&rows, n, seed);
    let start = Instant::now();
    let tallies = tallied(&rows, &pieces, threads);
    print(&rows, &tallies);
    let asked: u64 = tallies.iter().map(|tally| tally.library.asked).sum();
    let wrong: u64 = tallies.iter().map(|tally| tally.library.wrong).sum();
    let seconds = start.elapsed().as_secs_f64();
    println!("\n{asked} calls in all, {wrong} differ; seed {seed}, {threads} threads, {seconds:.0} s");
    let whole = tallies.iter().all(|tally| tally.library.asked == tally.calls);
    if !whole {
        println!("NOT all functions are linked: `tools/build gatewren` first");
    }
    whole && wrong == 0
}

/// The rows' pieces in turn. What does not divide goes to the last row.
fn pieces(rows: &[Row], n: u64, seed: u64) -> Vec<Piece> {
    let parts: u64 = rows.iter().map(|row| row.share).sum();
    let mut seeds = Random::new(seed);
    let mut pieces = Vec::new();
    let mut given = 0;
    for (i, row) in rows.iter().enumerate() {
        let mut left = if i + 1 == rows.len() { n - given } else { n / parts * row.share };
        given += left;
        while left > 0 {
            let calls = left.min(PIECE);
            pieces.push(Piece { row: i, seed: seeds.word(), calls });
            left -= calls;
        }
    }
    pieces
}

/// A tally for each row, by so many threads, each of which takes the next piece when it is done with one.
fn tallied(rows: &[Row], pieces: &[Piece], threads: u64) -> Vec<Tally> {
    let next = AtomicUsize::new(0);
    let work = || {
        let mut tallies: Vec<Tally> = rows.iter().map(|_| Tally::default()).collect();
        while let Some(piece) = pieces.get(next.fetch_add(1, Ordering::Relaxed)) {
            rows[piece.row].take(piece, &mut tallies[piece.row]);
        }
        tallies
    };
    let mut all: Vec<Tally> = rows.iter().map(|_| Tally::default()).collect();
    std::thread::scope(|scope| {
        let workers: Vec<_> = (0..threads.max(1)).map(|_| scope.spawn(work)).collect();
        for worker in workers {
            let done = worker.join().expect("a thread ends");
            all.iter_mut().zip(done).for_each(|(tally, more)| tally.add(more));
        }
    });
    all
}

impl Row {
    fn take(&self, piece: &Piece, tally: &mut Tally) {
        let mut random = Random::new(piece.seed);
        for _ in 0..piece.calls {
            match self.function {
                Function::Leaf(leaf) => tally.leaf(leaf, (leaf.case)(&mut random)),
                Function::Entry(entry) => {
                    tally.entry(&shapes::draw(&mut random, entry));
                }
                Function::Rj(below_zero) => {
                    let call = aims::draw(&mut random, below_zero);
                    let judged = tally.entry(&call);
                    for aim in aims::met(&call, &judged) {
                        *tally.aims.entry(aim).or_default() += 1;
                    }
                }
            }
        }
    }

    fn name(&self) -> String {
        match self.function {
            Function::Leaf(leaf) => leaf.name.to_string(),
            Function::Entry(entry) => format!("{entry:?}"),
            Function::Rj(false) => "RJ p > 0".to_string(),
            Function::Rj(true) => "RJ p < 0".to_string(),
        }
    }

    fn arity(&self) -> usize {
        match self.function {
            Function::Leaf(leaf) => leaf.arity,
            Function::Entry(entry) => entry.arity(),
            Function::Rj(_) => Entry::RJ.arity(),
        }
    }
}

const NOTES: &str = "differ: answers of libgatewren.a that are not the oracle's, in value, count, road, rescalings or number.
untouched: how many values of the untouched crate (for a leaf, of the standard library, which it calls) are other bits, and how
many units apart they are at most, in the unit of document 01's value. Near a zero of RJ or cel parts of about equal size are
taken from one another, so that the unit is small and the error is not: those calls are left out of the column and stand below.
Cel is asked of the crate with its own tolerance, 1e-8, and its own cap, 10 passes; its other bits are not claimed.
kinds: one of the two is finite and the other infinite, NaN or refused, or the numbers differ. For ln_1p these are the
arguments outside of document 01's range, where the leaf is NaN.";

fn print(rows: &[Row], tallies: &[Tally]) {
    println!("{:<10}{:>12}{:>8}   {:^30}   refused, by number", "", "", "", "untouched");
    println!("{:<10}{:>12}{:>8}{:>13}{:>9}{:>11}", "function", "calls", "differ", "other bits", "units", "kinds");
    for (row, tally) in rows.iter().zip(tallies) {
        let it = &tally.untouched;
        let (calls, wrong) = (tally.calls, tally.library.wrong);
        print!("{:<10}{calls:>12}{wrong:>8}{:>13}{:>9.0}{:>11}   ", row.name(), it.differ, it.largest.units, it.kinds);
        println!("{}", refusals(tally));
    }
    println!("\n{NOTES}\n\nLargest differences of the untouched crate:");
    for (row, tally) in rows.iter().zip(tallies) {
        let it = &tally.untouched;
        println!("{:<10}{}", row.name(), largest(&it.largest, row.arity()));
        if it.largest_near_zero.args.is_some() {
            println!("{:<10}near its zero {}", "", largest(&it.largest_near_zero, row.arity()));
        }
    }
    println!("\nValues by road and rescalings:");
    for (row, tally) in rows.iter().zip(tallies).filter(|(_, tally)| !tally.roads.is_empty()) {
        println!("{:<10}{}", row.name(), roads(tally));
    }
    println!("\nThe most rounds of a value:");
    for (row, tally) in rows.iter().zip(tallies).filter(|(_, tally)| !tally.roads.is_empty()) {
        println!("{:<10}{}", row.name(), tally.rounds);
    }
    println!("\nWhat RJ's calls have met:");
    for (row, tally) in rows.iter().zip(tallies).filter(|(_, tally)| !tally.aims.is_empty()) {
        let met: Vec<String> = tally.aims.iter().map(|(aim, times)| format!("{aim} {times}")).collect();
        println!("{:<10}{}", row.name(), met.join("; "));
    }
    for (row, tally) in rows.iter().zip(tallies) {
        for (args, said) in &tally.library.examples {
            println!("DIFFERS: {} {} gives {said}", row.name(), leaf::text(args, row.arity()));
        }
    }
}

fn refusals(tally: &Tally) -> String {
    let all: Vec<String> = tally.refusals.iter().map(|(number, times)| format!("{number}: {times}")).collect();
    if all.is_empty() {
        "-".to_string()
    } else {
        all.join(", ")
    }
}

/// `agm 0: 12, 1: 3; joint 0: 7`: each road's values by their rescalings.
fn roads(tally: &Tally) -> String {
    let mut out = String::new();
    let mut last = None;
    for ((road, rescalings), times) in &tally.roads {
        match last.replace(*road) {
            Some(before) if before == *road => out += ", ",
            Some(_) => out += &format!("; {road:?} "),
            None => out += &format!("{road:?} "),
        }
        out += &format!("{rescalings}: {times}");
    }
    out.to_lowercase()
}

fn largest(it: &Largest, arity: usize) -> String {
    it.args.map_or("none".to_string(), |args| format!("{:.0} units at {}", it.units, leaf::text(&args, arity)))
}

#[cfg(test)]
mod tests {
    use super::*;

    #[test]
    fn all_calls_are_given_out() {
        let rows = rows();
        for n in [0, 1, 21, 22, 1_000_003] {
            let pieces = pieces(&rows, n, 3);
            assert_eq!(pieces.iter().map(|piece| piece.calls).sum::<u64>(), n);
        }
    }

    /// The table is the same by one thread and by three.
    #[test]
    fn threads_do_not_matter() {
        let rows = rows();
        let pieces = pieces(&rows, 150_000, 3);
        let shown = |threads| {
            let tallies = tallied(&rows, &pieces, threads);
            let parts = tallies.iter().map(|it| {
                let far = [it.untouched.largest.args, it.untouched.largest_near_zero.args, it.untouched.first_kind];
                (it.calls, it.values, refusals(it), it.aims.clone(), it.untouched.differ, far)
            });
            parts.collect::<Vec<_>>()
        };
        assert_eq!(shown(1), shown(3));
    }
}
