//! The leaves: whom to ask, what each must be, and which arguments are hard. `leaf` holds the proved library to that.

mod fma;
mod pow;
mod series;
mod sqrt;

use crate::call::bits;
use crate::random::Random;
use crate::shapes::CORNERS;
use crate::tally::{Bits, Tally};
use std::io::{BufWriter, Write};

/// A leaf's arguments; those beyond its number are not looked at.
pub type Args = [f64; 3];

pub struct Leaf {
    pub name: &'static str,
    pub arity: usize,
    /// The proved library's; nothing where it is not linked.
    pub ours: fn(Args) -> Option<f64>,
    /// What it must be.
    pub wanted: fn(Args) -> f64,
    /// What the untouched crate calls in its place, the standard library's.
    pub standard: fn(Args) -> f64,
    /// Hard cases that are always tried.
    fixed: fn() -> Vec<Args>,
    /// One by chance.
    pub case: fn(&mut Random) -> Args,
}

pub static ALL: [&Leaf; 6] = [&sqrt::LEAF, &fma::LEAF, &pow::LEAF, &series::ATAN, &series::LN, &series::LN_1P];

impl Leaf {
    pub fn bits(&self, args: Args) -> Bits {
        let mut all = [0; 4];
        all.iter_mut().zip(&args[..self.arity]).for_each(|(to, &arg)| *to = bits(arg));
        all
    }
}

fn named(name: &str) -> Option<&'static Leaf> {
    let found = ALL.into_iter().find(|leaf| leaf.name == name);
    if found.is_none() {
        eprintln!("no leaf {name}: sqrt, mul_add, pow, atan, ln, ln_1p");
    }
    found
}

pub fn run(name: &str, n: u64, seed: u64) -> bool {
    let Some(leaf) = named(name) else { return false };
    let mut random = Random::new(seed);
    let mut tally = Tally::default();
    (leaf.fixed)().into_iter().for_each(|args| tally.leaf(leaf, args));
    (0..n).for_each(|_| tally.leaf(leaf, (leaf.case)(&mut random)));
    if tally.library.asked == 0 {
        eprintln!("{name} is not linked: its feature is off (README.md)");
        return false;
    }
    for (args, said) in &tally.library.examples {
        println!("{}: {said} is wrong", text(args, leaf.arity));
    }
    let standard = &tally.untouched;
    println!("{name}: {} cases, {} differ", tally.library.asked, tally.library.wrong);
    println!("the standard library's is another number in {}, by {} units at most", standard.differ, standard.largest.units);
    tally.library.wrong == 0
}

/// The arguments as the listing has them.
pub fn text(args: &Bits, arity: usize) -> String {
    args[..arity].iter().map(|arg| format!("{arg:016X}")).collect::<Vec<String>>().join(" ")
}

/// `cases`: the arguments that `leaf` would try and what the answer must be, a line each, for a library that cannot be linked here.
pub fn cases(name: &str, n: u64, seed: u64) -> bool {
    let Some(leaf) = named(name) else { return false };
    let mut random = Random::new(seed);
    let drawn = (0..n).map(|_| (leaf.case)(&mut random));
    let mut out = BufWriter::new(std::io::stdout().lock());
    let written = (leaf.fixed)().into_iter().chain(drawn).try_for_each(|args| {
        let wanted = (leaf.wanted)(args);
        writeln!(out, "{} {:016X}", text(&leaf.bits(args), leaf.arity), bits(wanted))
    });
    written.and_then(|()| out.flush()).is_ok()
}

/// `answers`: what a series leaf of the proved library says to the patterns on standard input, a line each.
pub fn answers(name: &str) -> bool {
    let series = [&series::ATAN, &series::LN, &series::LN_1P];
    let Some(leaf) = series.into_iter().find(|leaf| leaf.name == name && (leaf.ours)([0.0; 3]).is_some()) else {
        eprintln!("{name} is no series leaf, or not linked (README.md)");
        return false;
    };
    for line in std::io::stdin().lines() {
        let line = line.expect("standard input");
        let pattern = u64::from_str_radix(&line, 16).expect("sixteen digits");
        let said = (leaf.ours)([f64::from_bits(pattern), 0.0, 0.0]).expect("it is linked");
        println!("{:016X}", bits(said));
    }
    true
}

/// The corners, and for each exponent field the patterns with these last 52 bits.
fn one_argument(fractions: &[u64]) -> Vec<Args> {
    let fields = (0..2047u64).flat_map(|field| fractions.iter().map(move |fraction| field << 52 | fraction));
    CORNERS.into_iter().chain(fields).map(|pattern| [f64::from_bits(pattern), 0.0, 0.0]).collect()
}
