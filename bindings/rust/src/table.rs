//! Checking the tables of other laboratories.

use crate::answer::{Answer, Refusal};
use crate::symbols;

/// What is claimed of a job: a value or a refusal, as two words.
#[derive(Clone, Copy, Debug, PartialEq, Eq, Hash)]
#[repr(C)]
pub struct Claim {
    kind: u64,
    word: u64,
}

impl Claim {
    pub fn value(value: f64) -> Claim {
        Claim { kind: 0, word: value.to_bits() }
    }

    /// A refusal by its number, of which ours are the [`Refusal`]s.
    pub fn refused(number: u32) -> Claim {
        Claim { kind: 1, word: number.into() }
    }
}

/// What we claim ourselves.
impl From<Answer> for Claim {
    fn from(answer: Answer) -> Claim {
        match answer {
            Answer::Value { value, .. } => Claim::value(value),
            Answer::Refused(refusal) => Claim::refused(refusal.number()),
        }
    }
}

/// What a table is.
#[derive(Clone, Copy, Debug, PartialEq, Eq, Hash)]
#[must_use]
pub enum Checked {
    Accepted,
    /// The first bad row, counted from 0.
    BadRow(u64),
    /// The work list is refused, or has not as many jobs as there are claims.
    Refused(Refusal),
}

/// Holds a claim for each job of the packed list against our answer: the same refusal, or a finite value at most `tolerance` steps
/// between neighbouring f64 values from ours, zeros of both signs being one.
///
/// ```
/// use gatewren::{check_table, rc, Checked, Claim, Job, Refusal};
///
/// let mut list = [0; Job::LONGEST];
/// let length = Job { function: 2, arguments: [0, 1f64.to_bits(), 0, 0] }.write(&mut list, 0).unwrap();
/// let ours = rc(0.0, 1.0).value().unwrap();
/// let off = Claim::value(f64::from_bits(ours.to_bits() + 1));
/// assert_eq!(check_table(&list[..length], &[rc(0.0, 1.0).into()], 0), Checked::Accepted);
/// assert_eq!(check_table(&list[..length], &[off], 0), Checked::BadRow(0));
/// assert_eq!(check_table(&list[..length], &[off], 1), Checked::Accepted);
/// assert_eq!(check_table(&list[..length], &[], 1), Checked::Refused(Refusal::NumbersDiffer));
/// ```
pub fn check_table(list: &[u8], claims: &[Claim], tolerance: u64) -> Checked {
    let mut row = 0;
    // It reads the two slices, a claim being two words, and writes at most through the one reference.
    let told = unsafe {
        symbols::gatewren_check_table(list.as_ptr(), list.len(), claims.as_ptr(), 2 * claims.len(), tolerance, &mut row)
    };
    match told {
        0 => Checked::Accepted,
        u32::MAX => Checked::BadRow(row),
        number => Checked::Refused(Refusal::of(number).expect("the contract of the check names every number that it returns")),
    }
}
