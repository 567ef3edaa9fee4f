//! `diff`: fresh calls, document 01's answers against the untouched crate's and, where linked, the proved library's.

use crate::call::{shown, Call, Entry};
use crate::random::Random;
use crate::shapes;
use crate::tally::{Bits, Largest, Tally, LEVELS};

pub fn run(n: u64, seed: u64) -> bool {
    println!("{n} calls for each entry, seed {seed}");
    let mut good = true;
    for (i, entry) in Entry::ALL.into_iter().enumerate() {
        let mut random = Random::new(seed.wrapping_mul(1_000_003).wrapping_add(i as u64));
        let mut tally = Tally::default();
        for _ in 0..n {
            tally.entry(&shapes::draw(&mut random, entry));
        }
        print(&tally, entry);
        good &= tally.library.wrong == 0;
    }
    good
}

fn print(tally: &Tally, entry: Entry) {
    println!("{entry:?}: {} values, refused {:?}, most rounds {}", tally.values, tally.refusals, tally.rounds);
    let it = &tally.untouched;
    let part = 100.0 * it.differ as f64 / tally.values.max(1) as f64;
    println!("  untouched: {} values differ ({part:.2} %), over {LEVELS:?} units: {:?}", it.differ, it.over);
    println!("  largest {}", largest(&it.largest, entry));
    if matches!(entry, Entry::RJ | Entry::CEL) {
        println!("  largest near {entry:?}'s zeros {}", largest(&it.largest_near_zero, entry));
    }
    let first = it.first_kind.map_or(String::new(), |args| {
        let call = call_of(args, entry);
        format!(", first {call} = {}, untouched {:?}", shown(call.judged().answer), call.untouched())
    });
    println!("  value against refusal, or another number: {}{first}", it.kinds);
    match tally.library.asked {
        0 => println!("  libgatewren.a: not linked"),
        asked => println!("  libgatewren.a: {asked} calls, {} differ", tally.library.wrong),
    }
    for (args, said) in &tally.library.examples {
        let call = call_of(*args, entry);
        println!("  libgatewren.a: {call} = {}, not {said}", shown(call.judged().answer));
    }
}

fn largest(it: &Largest, entry: Entry) -> String {
    it.args.map_or("none".to_string(), |args| format!("{:.0} units at {}", it.units, call_of(args, entry)))
}

fn call_of(args: Bits, entry: Entry) -> Call {
    Call::new(entry, &args.map(f64::from_bits)[..entry.arity()])
}
