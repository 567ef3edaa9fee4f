//! The knee bench: the ideal swing's time, the verdict on a knee, the decrement of two peaks, and the step log.

use crate::answer::{Answer, Refusal};
use crate::entries::{entry, told};
use crate::symbols;

entry! {
    /// The period of an ideal swing in seconds, from whole micrometres and micrometres per second squared: the equivalent length,
    /// the release height above the low point, gravity. Road, rounds and rescalings are RF's.
    swing = gatewren_swing(length: u64, height: u64, gravity: u64)
}

/// The total with the steps between successive readings of a 16-bit counter added. Right if fewer than 65,536 steps lie between
/// two readings.
pub fn steps(total: u64, readings: &[u16]) -> Result<u64, Refusal> {
    let mut sum = total;
    // It reads the slice that is lent to it, and writes at most through the one reference.
    match unsafe { symbols::gatewren_steps(&mut sum, readings.as_ptr(), readings.len()) } {
        0 => Ok(sum),
        number => Err(Refusal::of(number).expect("the contract of the step log names every number that it returns")),
    }
}

/// A verdict on a knee.
#[derive(Clone, Copy, Debug, PartialEq)]
pub struct Verdict {
    /// At most the limit above the ideal swing, by the exact fractions; on the limit passes.
    pub passes: bool,
    /// Whether the time less the ideal period is below zero.
    pub below: bool,
    /// Its size in nanoseconds, rounded half to even.
    pub excess: u64,
    /// The ideal period in seconds.
    pub period: f64,
}

/// The excess in seconds with its sign and nine places, a blank, and the period's sixteen hex digits, as `./gatewren drag` has them.
impl std::fmt::Display for Verdict {
    fn fmt(&self, to: &mut std::fmt::Formatter<'_>) -> std::fmt::Result {
        let (word, sign) = (if self.passes { "pass" } else { "drags" }, if self.below { '-' } else { '+' });
        let (seconds, rest) = (self.excess / 1_000_000_000, self.excess % 1_000_000_000);
        write!(to, "{word} {sign}{seconds}.{rest:09} {:016X}", self.period.to_bits())
    }
}

/// The verdict on a knee: the swing's three numbers, the time of one whole swing and the allowed excess, both in nanoseconds.
pub fn drag(length: u64, height: u64, gravity: u64, time: u64, limit: u64) -> Result<Verdict, Refusal> {
    let (mut verdict, mut below, mut excess, mut period) = (0, 0, 0, 0.0);
    // It reads numbers and writes through four references, which live for the call.
    match unsafe {
        symbols::gatewren_drag(length, height, gravity, time, limit, &mut verdict, &mut below, &mut excess, &mut period)
    } {
        0 => Ok(Verdict { passes: verdict == 1, below: below == 1, excess, period }),
        number => Err(Refusal::of(number).expect("the contract of the verdict names every number that it returns")),
    }
}

/// The logarithmic decrement ln(a/b) of two successive peaks, each from 1 to 2^53.
pub fn decay(a: u64, b: u64) -> Result<f64, Refusal> {
    let mut decrement = 0.0;
    // It reads two numbers and writes through the one reference.
    match unsafe { symbols::gatewren_decay(a, b, &mut decrement) } {
        0 => Ok(decrement),
        number => Err(Refusal::of(number).expect("the contract of the decrement names every number that it returns")),
    }
}
