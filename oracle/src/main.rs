//! The judge for Gatewren's entries and leaves; README.md says what it compiles and what it is asked.

mod aims;
mod blocks;
mod call;
mod cel;
mod compare;
mod decimals;
mod diff;
mod drag;
mod effect;
mod examples;
mod families;
mod fuzz;
mod gatewren;
mod in_range;
mod leaf;
mod lengths;
mod lines;
mod list;
mod listing;
mod lists;
mod orders;
mod profile;
mod random;
mod report;
mod rescale;
mod shapes;
mod spoken;
mod swing;
#[allow(dead_code)] // the work lists are timed in bench/ and not asked here
mod symbols;
mod tables;
mod tally;
mod units;
mod units_list;

use std::process::ExitCode;

const USAGE: &str = "oracle examples | make-list | check-list | call | diff N [SEED] | leaf NAME N [SEED] | cases NAME N [SEED] |
       answers NAME | compare N [SEED [THREADS]] | units N [SEED] | orders N [SEED] | profile N [SEED] | effect N [SEED] |
       swing N [SEED] | fuzz SECONDS [SEED] | lists N [SEED] | round N [SEED] | report N [SEED] | report-text N [SEED] |
       tables N [SEED] | cel N [SEED] | make-units | make-blocks | drag N [SEED] | drag-files N | make-bench |
       decimals N [SEED] | spoken N [SEED]";

fn main() -> ExitCode {
    let words: Vec<String> = std::env::args().skip(1).collect();
    let words: Vec<&str> = words.iter().map(String::as_str).collect();
    let good = match words[..] {
        ["examples"] => examples::run(),
        ["make-list"] => list::make(),
        ["check-list"] => list::check(),
        ["call"] => listing::run(),
        ["diff", n] => diff::run(number(n), 1),
        ["diff", n, seed] => diff::run(number(n), number(seed)),
        ["compare", n] => compare::run(number(n), 1, compare::all_threads()),
        ["compare", n, seed] => compare::run(number(n), number(seed), compare::all_threads()),
        ["compare", n, seed, threads] => compare::run(number(n), number(seed), number(threads)),
        ["effect", n] => effect::run(number(n), 1),
        ["effect", n, seed] => effect::run(number(n), number(seed)),
        ["units", n] => rescale::run(number(n), 1),
        ["units", n, seed] => rescale::run(number(n), number(seed)),
        ["orders", n] => orders::run(number(n), 1),
        ["orders", n, seed] => orders::run(number(n), number(seed)),
        ["profile", n] => profile::run(number(n), 1),
        ["profile", n, seed] => profile::run(number(n), number(seed)),
        ["make-units"] => units_list::make(),
        ["make-blocks"] => blocks::make(),
        ["fuzz", seconds] => fuzz::run(number(seconds), 1),
        ["fuzz", seconds, seed] => fuzz::run(number(seconds), number(seed)),
        ["answers", name] => leaf::answers(name),
        ["leaf", name, n] => leaf::run(name, number(n), 1),
        ["leaf", name, n, seed] => leaf::run(name, number(n), number(seed)),
        ["cases", name, n] => leaf::cases(name, number(n), 1),
        ["cases", name, n, seed] => leaf::cases(name, number(n), number(seed)),
        ["lists", n] => lists::runs::run(number(n), 1),
        ["lists", n, seed] => lists::runs::run(number(n), number(seed)),
        ["round", n] => lists::runs::round(number(n), 1),
        ["round", n, seed] => lists::runs::round(number(n), number(seed)),
        ["report", n] => report::runs::run(number(n), 1),
        ["report", n, seed] => report::runs::run(number(n), number(seed)),
        ["report-text", n] => report::texts::run(number(n), 1),
        ["report-text", n, seed] => report::texts::run(number(n), number(seed)),
        ["tables", n] => tables::run(number(n), 1),
        ["tables", n, seed] => tables::run(number(n), number(seed)),
        ["cel", n] => cel::run(number(n), 1),
        ["cel", n, seed] => cel::run(number(n), number(seed)),
        ["drag", n] => drag::run(number(n), 1),
        ["drag", n, seed] => drag::run(number(n), number(seed)),
        ["decimals", n] => decimals::run(number(n), 1),
        ["decimals", n, seed] => decimals::run(number(n), number(seed)),
        ["spoken", n] => spoken::run(number(n), 1),
        ["spoken", n, seed] => spoken::run(number(n), number(seed)),
        ["drag-files", n] => drag::files(number(n), 1),
        ["make-bench"] => drag::make(),
        ["swing", n] => swing::run(number(n), 1),
        ["swing", n, seed] => swing::run(number(n), number(seed)),
        _ => {
            eprintln!("{USAGE}");
            false
        }
    };
    if good {
        ExitCode::SUCCESS
    } else {
        ExitCode::FAILURE
    }
}

fn number(word: &str) -> u64 {
    word.parse().unwrap_or_else(|_| {
        eprintln!("{word} is no number\n{USAGE}");
        std::process::exit(2)
    })
}
