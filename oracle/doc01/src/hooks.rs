//! What the hooked bodies call: the count of rounds, the AGM cap, the depth of RJ, the road and the rescalings.
//! A limit that is met leaves the Rust by unwinding, so that it is never run where it would not end.

use std::cell::{Cell, RefCell};
use std::panic::resume_unwind;

/// Document 01, "Rounds": the AGM passes that the port allows RD and RG.
const AGM_CAP: u32 = 40;
/// Document 01, "Rounds": how deep RJ may call itself, the first call included.
const RJ_DEPTH: u32 = 4;

thread_local! {
    static COUNT: Cell<u32> = const { Cell::new(0) };
    static DEPTH: Cell<u32> = const { Cell::new(0) };
    static DEEPEST: Cell<u32> = const { Cell::new(0) };
    static SERIES: Cell<bool> = const { Cell::new(false) };
    static RESCALINGS: Cell<u32> = const { Cell::new(0) };
    static OPEN: RefCell<Vec<Open>> = const { RefCell::new(Vec::new()) };
    static ROAD: Cell<Road> = const { Cell::new(Road::Infinite) };
    static THEIRS: Cell<Theirs> = const { Cell::new(Theirs::Nothing) };
}

/// Which one of document 01's rules is left to the crate as it is, to see what that rule alone changes.
#[derive(Clone, Copy, Debug, PartialEq, Eq)]
pub enum Theirs {
    Nothing,
    Polynomial,
    Power,
}

/// Makes a call with that rule left to the crate.
pub fn with<A>(theirs: Theirs, call: impl FnOnce() -> A) -> A {
    THEIRS.set(theirs);
    let answer = call();
    THEIRS.set(Theirs::Nothing);
    answer
}

pub fn is_theirs(what: Theirs) -> bool {
    THEIRS.get() == what
}

/// The payload of the unwinding: a number for no.
pub struct Leave(pub u32);

/// Forgets the call before.
pub fn start() {
    COUNT.set(0);
    DEPTH.set(0);
    DEEPEST.set(0);
    SERIES.set(false);
    RESCALINGS.set(0);
    OPEN.with_borrow_mut(Vec::clear);
    ROAD.set(Road::Infinite);
}

pub fn count() -> u32 {
    COUNT.get()
}

pub fn deepest() -> u32 {
    DEEPEST.get()
}

pub fn went_through_series() -> bool {
    SERIES.get()
}

pub fn rescalings() -> u32 {
    RESCALINGS.get()
}

/// The road of the outermost part; infinite where none was asked.
pub fn road() -> Road {
    ROAD.get()
}

/// A round.
pub fn pass() {
    COUNT.set(COUNT.get() + 1);
}

/// The answer depends on `rules.rs`.
pub fn series() {
    SERIES.set(true);
}

/// The passes of one AGM loop without a cap in the Rust.
pub struct Agm(u32);

impl Agm {
    pub fn new() -> Agm {
        takes(Road::Agm);
        Agm(0)
    }

    /// The test said go on.
    pub fn pass(&mut self) {
        if self.0 == AGM_CAP {
            leave(9);
        }
        self.0 += 1;
        pass();
    }
}

/// One call of `elliprj_unchecked`, while it lasts.
pub struct RjCall;

impl RjCall {
    pub fn enter() -> RjCall {
        if DEPTH.get() == RJ_DEPTH {
            leave(10);
        }
        DEPTH.set(DEPTH.get() + 1);
        DEEPEST.set(DEEPEST.get().max(DEPTH.get()));
        RjCall
    }
}

impl Drop for RjCall {
    fn drop(&mut self) {
        DEPTH.set(DEPTH.get() - 1);
    }
}

/// Document 02, 2026-04: which formula answered; 2026-09 adds the last.
#[derive(Clone, Copy, Debug, PartialEq, Eq, PartialOrd, Ord)]
pub enum Road {
    Closed,
    Infinite,
    Agm,
    Duplication,
    Joint,
    Taylor,
    Reduction,
    Loop,
}

/// A part of an entry that is at work: the road it is on, and whether the next part that it asks will give its whole answer.
struct Open {
    road: Road,
    hands_over: bool,
}

/// One call of a part, while it lasts. It is a formula until it turns out to be something else.
pub struct Part;

impl Part {
    pub fn enter() -> Part {
        OPEN.with_borrow_mut(|open| open.push(Open { road: Road::Closed, hands_over: false }));
        Part
    }
}

impl Drop for Part {
    fn drop(&mut self) {
        OPEN.with_borrow_mut(|open| {
            let Some(done) = open.pop() else { return };
            match open.last_mut() {
                None => ROAD.set(done.road),
                Some(asker) if asker.hands_over => *asker = Open { road: done.road, hands_over: false },
                Some(_) => {}
            }
        });
    }
}

fn of_the_open_part(change: impl FnOnce(&mut Open)) {
    OPEN.with_borrow_mut(|open| open.last_mut().map(change));
}

pub fn takes(road: Road) {
    of_the_open_part(|part| part.road = road);
}

pub fn hands_over() {
    of_the_open_part(|part| part.hands_over = true);
}

pub fn rescales() {
    RESCALINGS.set(RESCALINGS.get() + 1);
    hands_over();
}

pub fn reduces() {
    takes(Road::Reduction);
}

pub fn expands() {
    takes(Road::Taylor);
}

pub fn stands() {
    takes(Road::Loop);
}

fn leave(number: u32) -> ! {
    resume_unwind(Box::new(Leave(number)))
}

#[cfg(test)]
mod tests;
