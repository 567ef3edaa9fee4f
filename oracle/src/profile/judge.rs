//! What request 2026-14 says of a call, from its words: -0 becomes +0; the base's numbers that rest on the arguments alone, in the
//! base's order; 23; 21; else the base's answer, RF's and RJ's x, y, z and RD's x, y upward.

use crate::call::{Call, Entry};
use doc01::Answer;

pub fn judged(call: &Call) -> Answer {
    let mut args: Vec<f64> = call.args().iter().map(|&arg| if arg == 0.0 { 0.0 } else { arg }).collect();
    if let Some(number) = by_arguments(call.entry, &args) {
        return Answer::Refused(number);
    }
    if !in_size(&args) {
        return Answer::Refused(23);
    }
    let sorted = match call.entry {
        Entry::RC | Entry::RG | Entry::CEL => 0,
        Entry::RD => 2,
        Entry::RF => 3,
        Entry::RJ if below_zero(args[3]) => return Answer::Refused(21),
        Entry::RJ => 3,
    };
    args[..sorted].sort_by(f64::total_cmp);
    Call::new(call.entry, &args).judged().answer
}

/// Every argument zero, or of size 2^-64 to 2^64, by its exponent field and digits.
pub fn in_size(args: &[f64]) -> bool {
    const LEAST: u64 = (1023 - 64) << 52;
    const MOST: u64 = (1023 + 64) << 52;
    args.iter().all(|arg| matches!(arg.to_bits() & !(1 << 63), 0 | LEAST..=MOST))
}

/// By its bits: compilers make one minimum of two comparisons with zero, and that does not pass over a signalling NaN.
pub fn below_zero(arg: f64) -> bool {
    matches!(arg.to_bits(), 0x8000_0000_0000_0001..=0xFFF0_0000_0000_0000)
}

/// Document 01's 1 to 5, in its orders; 1 where a NaN is present and none came earlier.
fn by_arguments(entry: Entry, args: &[f64]) -> Option<u32> {
    let nan = args.iter().any(|arg| arg.is_nan());
    let below = |args: &[f64]| args.iter().any(|&arg| below_zero(arg));
    let zeros = |args: &[f64]| args.iter().filter(|&&arg| arg == 0.0).count() > 1;
    let tests: &[(u32, bool)] = &match (entry, args) {
        (Entry::RC, &[x, y]) => vec![(2, below_zero(x)), (4, y == 0.0), (1, nan)],
        (Entry::RD, &[x, y, z]) => vec![(2, below(&[x, y])), (3, zeros(&[x, y])), (5, below_zero(z) || z == 0.0), (1, nan)],
        (Entry::RG, xyz) => vec![(2, below(xyz)), (1, nan)],
        (Entry::RF, xyz) => vec![(1, nan), (2, below(xyz)), (3, zeros(xyz))],
        (Entry::RJ, &[ref xyz @ .., p]) => vec![(1, nan), (4, p == 0.0), (2, below(xyz)), (3, zeros(xyz))],
        _ => unreachable!("a call has its entry's number of arguments"),
    };
    tests.iter().find(|(_, given)| *given).map(|(number, _)| *number)
}

#[cfg(test)]
mod tests {
    use super::*;
    use crate::profile::draw::draw;
    use crate::random::Random;
    use crate::shapes;

    fn said(line: &str) -> String {
        crate::call::shown(judged(&Call::parse(line).expect("a call")))
    }

    const ONE: &str = "3FF0000000000000";

    #[test]
    fn by_the_words() {
        // both ends are in, their neighbours beyond are not
        assert!(said("RC 3BF0000000000000 43F0000000000000").ends_with("closed 0"));
        assert!(said("RC 3BF0000000000000 C3F0000000000000").ends_with("closed 0"));
        for out in ["3BEFFFFFFFFFFFFF", "43F0000000000001", "0000000000000001", "7FEFFFFFFFFFFFFF", "7FF0000000000000"] {
            assert_eq!(said(&format!("RF {ONE} {out} {ONE}")), "refused 23");
            assert_eq!(said(&format!("RD {ONE} {ONE} {out}")), "refused 23");
            assert_eq!(said(&format!("RJ {ONE} {ONE} {ONE} {out}")), "refused 23");
        }
        // a negative p out of size, in size, and no number
        assert_eq!(said(&format!("RJ {ONE} {ONE} {ONE} FFF0000000000000")), "refused 23");
        assert_eq!(said(&format!("RJ {ONE} {ONE} 7FF0000000000000 C010000000000000")), "refused 23");
        assert_eq!(said(&format!("RJ {ONE} {ONE} {ONE} C010000000000000")), "refused 21");
        assert_eq!(said(&format!("RJ {ONE} {ONE} {ONE} 8000000000000000")), "refused 4");
        // a NaN, after what comes before it and before 23
        assert_eq!(said("RC 7FF8000000000000 8000000000000000"), "refused 4");
        assert_eq!(said("RD 7FF8000000000000 BFF0000000000000 7FF0000000000000"), "refused 2");
        assert_eq!(said("RD BFF0000000000000 7FF0000000000001 3FF0000000000000"), "refused 2");
        assert_eq!(said("RG 7FF8000000000000 7FF0000000000000 3FF0000000000000"), "refused 1");
        // -0 is as +0, and the order is nothing
        assert_eq!(said("RG 8000000000000000 0000000000000000 0000000000000000"), "0000000000000000 0 closed 0");
        let orders = ["3FF0000000000000 4000000000000000 4014000000000000", "4014000000000000 4000000000000000 3FF0000000000000"];
        orders.iter().for_each(|order| assert_eq!(said(&format!("RF {order}")), "3FE4E279C1F7BE62 4 duplication 0"));
    }

    /// The numbers that rest on the arguments are just those that the compiled text gives.
    #[test]
    fn the_texts_own_numbers() {
        let mut random = Random::new(11);
        for entry in Entry::CARLSON {
            for i in 0..60_000 {
                let call = if i % 2 == 0 { draw(&mut random, entry) } else { shapes::draw(&mut random, entry) };
                let base = match call.judged().answer {
                    Answer::Refused(number @ 1..=5) => Some(number),
                    _ => None,
                };
                assert_eq!(by_arguments(entry, call.args()), base, "{call}");
            }
        }
    }
}
