//! What the proved library says of a call.

use crate::call::{Call, Entry};
use crate::symbols;
use doc01::{Answer, Road, Way};

/// Nothing where the entry is not linked, where a refusal touched a place, or where RJ's other entry does not refuse as it must.
pub fn answer(call: &Call) -> Option<Answer> {
    // The functions read numbers and write through four pointers, which live for the call.
    match (call.entry, call.args()) {
        (Entry::RC, &[x, y]) => {
            let rc = symbols::RC?;
            told(|v, n, r, s| unsafe { rc(x, y, v, n, r, s) })
        }
        (Entry::RJ, &[x, y, z, p]) => {
            let (positive, negative) = (symbols::RJ_POSITIVE?, symbols::RJ_NEGATIVE?);
            let (own, other) = if p < 0.0 { (negative, positive) } else { (positive, negative) };
            let answer = told(|v, n, r, s| unsafe { own(x, y, z, p, v, n, r, s) })?;
            let wrong = told(|v, n, r, s| unsafe { other(x, y, z, p, v, n, r, s) })?;
            (wrong == of_the_wrong_sign(x, y, z, p)).then_some(answer)
        }
        (Entry::CEL, &[kc, p, a, b]) => {
            let cel = symbols::CEL?;
            told(|v, n, r, s| unsafe { cel(kc, p, a, b, v, n, r, s) })
        }
        (entry, &[x, y, z]) => {
            let three = match entry {
                Entry::RF => symbols::RF?,
                Entry::RD => symbols::RD?,
                _ => symbols::RG?,
            };
            told(|v, n, r, s| unsafe { three(x, y, z, v, n, r, s) })
        }
        _ => unreachable!("a call has its entry's number of arguments"),
    }
}

/// What the bench profile says; nothing where it is not linked or where a refusal touched a place.
pub fn by_profile(call: &Call) -> Option<Answer> {
    match (call.entry, call.args()) {
        (Entry::RC, &[x, y]) => {
            let rc = symbols::PROFILE_RC?;
            told(|v, n, r, s| unsafe { rc(x, y, v, n, r, s) })
        }
        (Entry::RJ, &[x, y, z, p]) => {
            let rj = symbols::PROFILE_RJ?;
            told(|v, n, r, s| unsafe { rj(x, y, z, p, v, n, r, s) })
        }
        (entry, &[x, y, z]) => {
            let three = match entry {
                Entry::RF => symbols::PROFILE_RF?,
                Entry::RD => symbols::PROFILE_RD?,
                _ => symbols::PROFILE_RG?,
            };
            told(|v, n, r, s| unsafe { three(x, y, z, v, n, r, s) })
        }
        _ => unreachable!("a call has its entry's number of arguments"),
    }
}

/// Its five symbols are one group.
pub fn has_profile() -> bool {
    symbols::PROFILE_RC.is_some()
}

/// Document 02, 2026-10: what the entry for the other sign must say. 1 and 4 come before its 21, so that a NaN or zero p is refused
/// alike by both.
fn of_the_wrong_sign(x: f64, y: f64, z: f64, p: f64) -> Answer {
    if [x, y, z, p].iter().any(|arg| arg.is_nan()) {
        return Answer::Refused(1);
    }
    Answer::Refused(if p == 0.0 { 4 } else { 21 })
}

/// What a function with four places answers; nothing where a refusal touched one of them, or the road is none.
pub fn told(ask: impl FnOnce(*mut f64, *mut u32, *mut u32, *mut u32) -> u32) -> Option<Answer> {
    const MARK: (u64, u32, u32, u32) = (0xFFF8_0000_0000_1234, 77, 78, 79);
    let (mut value, mut rounds, mut road, mut rescalings) = (f64::from_bits(MARK.0), MARK.1, MARK.2, MARK.3);
    match ask(&mut value, &mut rounds, &mut road, &mut rescalings) {
        0 => Some(Answer::Value(value.to_bits(), Way { rounds, road: numbered(road)?, rescalings })),
        number => ((value.to_bits(), rounds, road, rescalings) == MARK).then_some(Answer::Refused(number)),
    }
}

/// The header's numbers.
fn numbered(road: u32) -> Option<Road> {
    use Road::*;
    [Closed, Infinite, Agm, Duplication, Joint, Taylor, Reduction, Loop].get((road as usize).checked_sub(1)?).copied()
}
