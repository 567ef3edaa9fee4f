//! What is counted over many calls of one function, a leaf or an entry. Two tallies can be put together, in any order.

use crate::aims;
use crate::call::{Call, Entry};
use crate::cel;
use crate::gatewren;
use crate::leaf::{Args, Leaf};
use crate::units::distance;
use doc01::{Answer, Judged, Road};
use std::collections::BTreeMap;

/// A call's arguments as bits; those beyond the function's number are zero.
pub type Bits = [u64; 4];

#[derive(Default)]
pub struct Tally {
    pub calls: u64,
    pub values: u64,
    pub refusals: BTreeMap<u32, u64>,
    pub rounds: u32,
    /// How many values each road gave, by their rescalings.
    pub roads: BTreeMap<(Road, u32), u64>,
    pub library: Library,
    pub untouched: Units,
    /// How many of RJ's calls met which aim.
    pub aims: BTreeMap<&'static str, u64>,
}

/// The proved library against the oracle.
#[derive(Default)]
pub struct Library {
    pub asked: u64,
    pub wrong: u64,
    /// The first few.
    pub examples: Vec<(Bits, String)>,
}

/// How the untouched crate's values, or the standard library's for a leaf, lie to document 01's.
#[derive(Default)]
pub struct Units {
    pub differ: u64,
    pub over: [u64; LEVELS.len()],
    /// Without calls near RJ's or cel's zeros, where the unit is small and the error is not.
    pub largest: Largest,
    pub largest_near_zero: Largest,
    /// One is a finite number and the other not; or there are two numbers for no.
    pub kinds: u64,
    pub first_kind: Option<Bits>,
}

pub const LEVELS: [f64; 4] = [1.0, 4.0, 16.0, 256.0];
const EXAMPLES: usize = 10;

#[derive(Clone, Copy, Default)]
pub struct Largest {
    pub units: f64,
    pub args: Option<Bits>,
}

impl Largest {
    /// Of calls that are equally far the first by its bits, so that the order of the calls does not matter.
    fn take(&mut self, units: f64, args: Bits) {
        let further = units > self.units || units == self.units && self.args.is_some_and(|held| args < held);
        if further {
            *self = Largest { units, args: Some(args) };
        }
    }

    fn add(&mut self, other: Largest) {
        if let Some(args) = other.args {
            self.take(other.units, args);
        }
    }
}

impl Tally {
    /// A call of an entry.
    pub fn entry(&mut self, call: &Call) -> Judged {
        let judged = call.judged();
        self.calls += 1;
        match judged.answer {
            Answer::Value(_, way) => {
                self.values += 1;
                self.rounds = self.rounds.max(way.rounds);
                *self.roads.entry((way.road, way.rescalings)).or_default() += 1;
            }
            Answer::Refused(number) => *self.refusals.entry(number).or_default() += 1,
        }
        // There the untouched crate need not end; and demand 2 leaves RJ's p = -infinity out (document 02, 2026-07).
        let left_out = call.entry == Entry::RJ && call.bits()[3] == f64::NEG_INFINITY.to_bits();
        if !matches!(judged.answer, Answer::Refused(9 | 10)) && !left_out {
            self.untouched.entry(call, judged.answer);
        }
        if let Some(said) = gatewren::answer(call) {
            let same = said == judged.answer;
            self.library.take(same, call.bits(), || crate::call::shown(said));
        }
        judged
    }

    /// A call of a leaf.
    pub fn leaf(&mut self, leaf: &Leaf, args: Args) {
        let wanted = (leaf.wanted)(args);
        self.calls += 1;
        self.values += u64::from(!wanted.is_nan());
        self.untouched.number(leaf.bits(args), wanted, (leaf.standard)(args));
        if let Some(said) = (leaf.ours)(args) {
            let (said, wanted) = (crate::call::bits(said), crate::call::bits(wanted));
            self.library.take(said == wanted, leaf.bits(args), || format!("{said:016X}"));
        }
    }

    pub fn add(&mut self, other: Tally) {
        self.calls += other.calls;
        self.values += other.values;
        self.rounds = self.rounds.max(other.rounds);
        for (number, times) in other.refusals {
            *self.refusals.entry(number).or_default() += times;
        }
        for (road, times) in other.roads {
            *self.roads.entry(road).or_default() += times;
        }
        for (aim, times) in other.aims {
            *self.aims.entry(aim).or_default() += times;
        }
        self.library.asked += other.library.asked;
        self.library.wrong += other.library.wrong;
        self.library.examples.extend(other.library.examples);
        self.library.examples.sort();
        self.library.examples.truncate(EXAMPLES);
        self.untouched.add(other.untouched);
    }
}

impl Library {
    fn take(&mut self, same: bool, args: Bits, said: impl FnOnce() -> String) {
        self.asked += 1;
        if !same {
            self.wrong += 1;
            if self.examples.len() < EXAMPLES {
                self.examples.push((args, said()));
            }
        }
    }
}

impl Units {
    fn entry(&mut self, call: &Call, answer: Answer) {
        match (answer, call.untouched()) {
            (Answer::Value(bits, _), Ok(other)) => {
                let value = f64::from_bits(bits);
                if value.to_bits() != other.to_bits() {
                    let near_zero = match call.entry {
                        Entry::CEL => cel::draws::cancels(call, value),
                        _ => aims::cancels(call, value),
                    };
                    self.apart(call.bits(), distance(value, other), near_zero);
                }
            }
            (Answer::Refused(number), Err(said)) if number == said => {}
            _ => self.kind(call.bits()),
        }
    }

    fn number(&mut self, args: Bits, value: f64, other: f64) {
        if crate::call::bits(value) == crate::call::bits(other) {
            return;
        }
        match value.is_finite() && other.is_finite() {
            true => self.apart(args, distance(value, other), false),
            false => self.kind(args),
        }
    }

    fn apart(&mut self, args: Bits, units: f64, near_zero: bool) {
        self.differ += 1;
        for (over, level) in self.over.iter_mut().zip(LEVELS) {
            *over += u64::from(units > level);
        }
        let largest = if near_zero { &mut self.largest_near_zero } else { &mut self.largest };
        largest.take(units, args);
    }

    fn kind(&mut self, args: Bits) {
        self.kinds += 1;
        self.first_kind = Some(self.first_kind.map_or(args, |held| held.min(args)));
    }

    fn add(&mut self, other: Units) {
        self.differ += other.differ;
        self.over.iter_mut().zip(other.over).for_each(|(mine, theirs)| *mine += theirs);
        self.largest.add(other.largest);
        self.largest_near_zero.add(other.largest_near_zero);
        self.kinds += other.kinds;
        self.first_kind = self.first_kind.into_iter().chain(other.first_kind).min();
    }
}
