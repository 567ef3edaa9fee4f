//! `make-list` and `check-list`: the fixed list that the port is held to. A row is a call, ` = `, its answer, and ` s` if
//! the answer went through `atan`, `ln` or `ln_1p`, so that it hangs on the rules for these.

use crate::call::{shown, Call, Entry};
use crate::families;
use doc01::{Answer, Judged, Road};
use std::collections::{BTreeMap, HashSet};
use std::path::PathBuf;

const HEADER: &str = "gatewren calls 3";

fn path() -> PathBuf {
    PathBuf::from(env!("CARGO_MANIFEST_DIR")).join("../crates/replay/stdin")
}

fn row(call: &Call, judged: &Judged) -> String {
    let mark = if judged.series { " s" } else { "" };
    format!("{call} = {}{mark}\n", shown(judged.answer))
}

/// The whole text, each call once.
fn text() -> String {
    let mut seen = HashSet::new();
    let mut out = format!("{HEADER}\n");
    for call in families::all() {
        if seen.insert(call.to_string()) {
            out.push_str(&row(&call, &call.judged()));
        }
    }
    out
}

pub fn make() -> bool {
    let text = text();
    std::fs::write(path(), &text).expect("the list can be written");
    println!("{} rows", text.lines().count() - 1);
    summary(&text);
    true
}

/// Whether the list is what the oracle says now.
pub fn check() -> bool {
    let committed = match std::fs::read_to_string(path()) {
        Ok(text) => text,
        Err(e) => {
            eprintln!("{}: {e}", path().display());
            return false;
        }
    };
    let now = text();
    let differ = committed.lines().zip(now.lines()).filter(|(a, b)| a != b);
    for (old, new) in differ.clone().take(5) {
        println!("listed {old}\nnow    {new}");
    }
    let (rows, same) = (committed.lines().count() - 1, committed == now);
    match same {
        true => println!("{rows} rows, as the oracle says"),
        false => println!("{rows} rows listed, {} now, {} differ", now.lines().count() - 1, differ.count()),
    }
    same
}

/// How many rows each entry has by answer, so that a family that went missing is seen.
fn summary(text: &str) {
    for entry in Entry::ALL {
        let mut answers: BTreeMap<String, usize> = BTreeMap::new();
        let mut roads: BTreeMap<(Road, u32), usize> = BTreeMap::new();
        let (mut series, mut most, mut deepest) = (0, 0, 0);
        for line in text.lines().skip(1) {
            let call = Call::parse(line.split(" = ").next().expect("a row")).expect("a call");
            if call.entry != entry {
                continue;
            }
            let judged = call.judged();
            let kind = match judged.answer {
                Answer::Value(..) => "values".to_string(),
                Answer::Refused(number) => format!("no. {number:2}"),
            };
            *answers.entry(kind).or_default() += 1;
            series += usize::from(judged.series);
            deepest = deepest.max(judged.depth);
            if let Answer::Value(_, way) = judged.answer {
                most = most.max(way.rounds);
                *roads.entry((way.road, way.rescalings)).or_default() += 1;
            }
        }
        println!("{entry:?}: {answers:?}, {series} through the series, most rounds {most}, deepest RJ {deepest}");
        println!("    by road and rescalings: {roads:?}");
    }
}
