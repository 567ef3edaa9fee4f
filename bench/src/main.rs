//! Times each leaf and entry of the proved library beside what a Rust program would use in its place, the work lists, their
//! reports and the listing.

mod clock;
mod decimals;
mod entries;
mod inputs;
mod jobs;
mod leaves;
mod listing;
mod peers;
#[path = "../../oracle/src/random.rs"]
#[allow(dead_code)]
mod random;
#[allow(dead_code)] // the swing is not timed
#[path = "../../oracle/src/symbols.rs"]
mod symbols;

use clock::Row;
use std::process::Command;

const REPEATS: usize = 40;
const LISTING_REPEATS: usize = 10;

/// Words after the command choose rows by their beginnings, as `bench/run sqrt RJ`.
fn main() {
    let wanted: Vec<String> = std::env::args().skip(1).collect();
    let chosen = |name: &str| wanted.is_empty() || wanted.iter().any(|word| name.starts_with(word.as_str()));
    let mut rows = leaves::rows();
    rows.extend(entries::rows());
    rows.extend(decimals::rows());
    rows.extend(peers::rows());
    rows.retain(|row| chosen(&row.name));
    // For callgrind: one row's calls once over, ours or the reference's, by the variable's first word.
    if let Ok(which) = std::env::var("BENCH_COUNT") {
        match which.as_str() {
            "names" => rows.iter().for_each(|row| println!("{}", row.name)),
            which => wanted.iter().for_each(|name| rows.iter_mut().filter(|row| &row.name == name).for_each(|row| row.once(which == "ours"))),
        }
        return;
    }
    let mut lists = jobs::rows();
    lists.retain(|row| chosen(&row.name));
    let mut listings = listing::rows();
    listings.retain(|row| chosen(&row.name));
    // All rows in turn, and again: a slow spell of the machine then falls on all alike and the least time passes over it.
    for _ in 0..REPEATS {
        rows.iter_mut().for_each(Row::time);
        lists.iter_mut().for_each(jobs::Row::time);
    }
    for _ in 0..LISTING_REPEATS {
        listings.iter_mut().for_each(listing::Row::time);
    }
    println!("{}", machine());
    if !rows.is_empty() {
        functions(&rows);
    }
    if !lists.is_empty() {
        println!("\npacked work lists, jobs of Carlson's five functions in turn, least of {REPEATS} repeats");
        println!("{:<32}{:>9}{:>17}{:>17}", "jobs", "ns a job", "million a second", "bytes a job");
        lists.iter().for_each(jobs::Row::print);
    }
    if listings.is_empty() {
        println!("\nthe listing: left out, by its name, or because there is no target/bin/listing (./gatewren build) or it is x86-64 code");
    } else {
        println!("\na million lines from a file, least of {LISTING_REPEATS} repeats, the program's start included");
        println!("{:<32}{:>9}{:>17}{:>17}", "lines", "ns a line", "million a second", "bytes a line");
        listings.iter().for_each(listing::Row::print);
    }
}

fn functions(rows: &[Row]) {
    println!("ns a call, least of {REPEATS} interleaved repeats over {} inputs; ratio = ours / reference", inputs::COUNT);
    println!("(latency includes the chaining of a result to the next argument, some 2 ns on either side)\n");
    println!("{:<32}{:^30}{:^30}", "", "throughput", "latency");
    println!(
        "{:<32}{:>9}{:>12}{:>9}{:>9}{:>12}{:>9}",
        "leaf or entry, inputs", "ours", "reference", "ratio", "ours", "reference", "ratio"
    );
    rows.iter().for_each(Row::print);
}

/// The day, the processor's name and how many there are.
fn machine() -> String {
    let day = Command::new("date").args(["-u", "+%F"]).output().map(|it| String::from_utf8_lossy(&it.stdout).trim().to_string());
    let info = std::fs::read_to_string("/proc/cpuinfo").unwrap_or_default();
    let named = info.lines().find_map(|line| line.strip_prefix("model name")?.split_once(':'));
    let kind = format!("{} with no name", std::env::consts::ARCH);
    let processor = named.map_or(kind.as_str(), |(_, name)| name.trim());
    let count = std::thread::available_parallelism().map_or(1, |n| n.get());
    format!("{}, {processor}, {count} processors", day.unwrap_or_default())
}
