//! The entries as the documents answer them.

use crate::bulirsch::cel_with_const;
use crate::carlson::{elliprc, elliprc_unchecked, elliprd, elliprd_unchecked, elliprf, elliprg, elliprj};
use crate::hooks::{self, Leave, Road};
use crate::limits::Document02;
use crate::numbers::refusal;
use crate::ruled::Ruled;
use crate::StrErr;
use std::panic::{catch_unwind, resume_unwind, AssertUnwindSafe};

#[derive(Clone, Copy, Debug, PartialEq, Eq)]
pub enum Answer {
    /// The bits of a finite value, and the way to it.
    Value(u64, Way),
    /// A number for no.
    Refused(u32),
}

/// The rounds, and by document 02, 2026-04, the road and the rescalings, over the call and all it calls.
#[derive(Clone, Copy, Debug, PartialEq, Eq, PartialOrd, Ord)]
pub struct Way {
    pub rounds: u32,
    pub road: Road,
    pub rescalings: u32,
}

/// The zero by the rule for infinite arguments counts nothing.
const INFINITE: Answer = Answer::Value(0, Way { rounds: 0, road: Road::Infinite, rescalings: 0 });

/// An answer, and how it came about.
#[derive(Clone, Copy, Debug)]
pub struct Judged {
    pub answer: Answer,
    /// `atan`, `ln` or `ln_1p` was asked, so that the bits hang on `rules.rs`.
    pub series: bool,
    /// How many calls of RJ were open at once.
    pub depth: u32,
}

pub fn rc(x: f64, y: f64) -> Judged {
    let it = judged(|| elliprc(Ruled(x), Ruled(y)));
    late(it, &[x, y], || elliprc_unchecked(Ruled(x), Ruled(y)))
}

/// RC and RD try their steps on infinite arguments, and may have gone some way before the rule says zero.
fn late(it: Judged, args: &[f64], steps: impl FnOnce() -> Ruled) -> Judged {
    let zero = args.contains(&f64::INFINITY) && matches!(it.answer, Answer::Value(0, _));
    match zero && !steps().0.is_finite() {
        true => Judged { answer: INFINITE, ..it },
        false => it,
    }
}

pub fn rf(x: f64, y: f64, z: f64) -> Judged {
    judged(|| elliprf(Ruled(x), Ruled(y), Ruled(z)))
}

pub fn rd(x: f64, y: f64, z: f64) -> Judged {
    let it = judged(|| elliprd(Ruled(x), Ruled(y), Ruled(z)));
    late(it, &[x, y, z], || elliprd_unchecked(Ruled(x), Ruled(y), Ruled(z)))
}

pub fn rg(x: f64, y: f64, z: f64) -> Judged {
    judged(|| elliprg(Ruled(x), Ruled(y), Ruled(z)))
}

/// Document 02, 2026-07: p = -infinity is as +infinity, after the numbers that come before it. The Rust makes a NaN of it.
pub fn rj(x: f64, y: f64, z: f64, p: f64) -> Judged {
    let it = judged(|| elliprj(Ruled(x), Ruled(y), Ruled(z), Ruled(p)));
    match p == f64::NEG_INFINITY && !matches!(it.answer, Answer::Refused(1..=4)) {
        true => Judged { answer: INFINITE, series: false, depth: 0 },
        false => it,
    }
}

/// Document 02, 2026-09: 4, then the steps, whose finite result stands. The Rust's tests after its loop look at a kc that the loop
/// has changed, so their answers are set aside.
pub fn cel(kc: f64, p: f64, a: f64, b: f64) -> Judged {
    let it = judged(|| cel_with_const::<Ruled, Document02>(Ruled(kc), Ruled(p), Ruled(a), Ruled(b)));
    match it.answer {
        Answer::Refused(4) | Answer::Value(_, Way { road: Road::Loop, .. }) => it,
        _ => Judged { answer: of_unfinished_cel(kc, p, a, b), ..it },
    }
}

/// Document 02's order where cel's steps give no finite result: 1, 19, the infinite kc or p, 20, 6.
pub fn of_unfinished_cel(kc: f64, p: f64, a: f64, b: f64) -> Answer {
    let given = [kc, p, a, b];
    if given.iter().any(|arg| arg.is_nan()) {
        return Answer::Refused(1);
    }
    if given.iter().filter(|arg| arg.is_infinite()).count() > 1 {
        return Answer::Refused(19);
    }
    if kc.is_infinite() || p.is_infinite() {
        return INFINITE;
    }
    Answer::Refused(if a.is_infinite() || b.is_infinite() { 20 } else { 6 })
}

/// What the Rust itself says of cel with document 02's tolerance and cap, its tests after the loop included.
pub fn cel_as_written(kc: f64, p: f64, a: f64, b: f64) -> Result<f64, u32> {
    hooks::start();
    let said = cel_with_const::<Ruled, Document02>(Ruled(kc), Ruled(p), Ruled(a), Ruled(b));
    said.map(|value| value.0).map_err(refusal)
}

/// The passes that cel begins, also where it then refuses: kc alone decides how many.
pub fn cel_passes(kc: f64) -> u32 {
    cel(kc, 1.0, 1.0, 1.0);
    hooks::count()
}

fn judged(entry: impl FnOnce() -> Result<Ruled, StrErr>) -> Judged {
    hooks::start();
    let answer = match catch_unwind(AssertUnwindSafe(entry)) {
        Ok(Ok(value)) => {
            let way = Way { rounds: hooks::count(), road: hooks::road(), rescalings: hooks::rescalings() };
            Answer::Value(value.0.to_bits(), way)
        }
        Ok(Err(text)) => Answer::Refused(refusal(text)),
        Err(payload) => match payload.downcast::<Leave>() {
            Ok(leave) => Answer::Refused(leave.0),
            Err(other) => resume_unwind(other),
        },
    };
    Judged { answer, series: hooks::went_through_series(), depth: hooks::deepest() }
}

#[cfg(test)]
mod tests {
    use super::*;

    const INF: f64 = f64::INFINITY;

    fn looped(value: f64, rounds: u32) -> Answer {
        Answer::Value(value.to_bits(), Way { rounds, road: Road::Loop, rescalings: 0 })
    }

    /// The crate's printed example, K(0) and a p without end, whose zero the steps give.
    #[test]
    fn finite_results_of_cel_stand() {
        let Answer::Value(bits, way) = cel(0.5, 1.0, 1.0, 1.0).answer else { panic!("a value") };
        assert!((f64::from_bits(bits) - 2.1565156474996434).abs() < 2e-15 && way.rounds > 2);
        assert_eq!(cel(1.0, 1.0, 1.0, 1.0).answer, looped(std::f64::consts::FRAC_PI_2, 1));
        assert_eq!(cel(-1.0, 1.0, 1.0, 1.0).answer, looped(std::f64::consts::FRAC_PI_2, 1));
        let Answer::Value(bits, way) = cel(0.5, INF, -1.0, 1.0).answer else { panic!("a value") };
        assert_eq!((bits, way.road, way.rounds > 0), (1 << 63, Road::Loop, true));
        assert_eq!(cel(0.5, 1.0, 0.0, -0.0).answer, looped(0.0, cel_passes(0.5)));
    }

    #[test]
    fn what_follows_where_cel_is_not_finite() {
        let nan = f64::NAN;
        let few = [1.0, 0.5, -1.0, 0.0, -0.0, nan, INF, -INF];
        for args in (0..4096).map(|way: usize| [0, 3, 6, 9].map(|shift| few[way >> shift & 7])) {
            let [kc, p, a, b] = args;
            let said = cel(kc, p, a, b).answer;
            let infinite = args.iter().filter(|arg| arg.is_infinite()).count();
            match said {
                Answer::Refused(4) => assert!(kc == 0.0 || p == 0.0),
                _ if kc == 0.0 || p == 0.0 => panic!("{args:?}: {said:?}"),
                Answer::Value(bits, Way { road: Road::Loop, rounds, rescalings: 0 }) => {
                    assert!(f64::from_bits(bits).is_finite() && rounds > 0 && !args.iter().any(|arg| arg.is_nan()))
                }
                Answer::Refused(1) => assert!(args.iter().any(|arg| arg.is_nan())),
                _ if args.iter().any(|arg| arg.is_nan()) => panic!("{args:?}: {said:?}"),
                Answer::Refused(19) => assert!(infinite > 1),
                _ if infinite > 1 => panic!("{args:?}: {said:?}"),
                INFINITE => assert!(kc.is_infinite() || p == -INF),
                Answer::Refused(20) => assert!(a.is_infinite() || b.is_infinite()),
                Answer::Refused(6) => assert_eq!(infinite, 0),
                other => panic!("{args:?}: {other:?}"),
            }
        }
        // Large kc: a product that overflows makes a zero, then a sum too makes a NaN, then the Rust's kc is infinite in the end.
        let large = |k: u64| f64::from_bits((1023 + k) << 52);
        assert_eq!(cel(large(508), 1.0, 1.0, 1.0).answer, looped(0.0, 12));
        assert_eq!(cel(large(509), 1.0, 1.0, 1.0).answer, Answer::Refused(6));
        assert_eq!(cel_as_written(large(509), 1.0, 1.0, 1.0), Err(6));
        assert_eq!(cel(large(510), 1.0, 1.0, 1.0).answer, Answer::Refused(6));
        assert_eq!(cel_as_written(large(510), 1.0, 1.0, 1.0), Ok(0.0));
        assert_eq!(cel_as_written(1.0, 1.0, -INF, 1.0), Ok(-INF));
    }
}
