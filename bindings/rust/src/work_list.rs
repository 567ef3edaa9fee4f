//! Work lists in packed form: jobs one after another.

use crate::answer::Refusal;
use crate::symbols;

/// A job: its function's number (RF 1, RC 2, RD 3, RG 4, RJ 5, cel 6) and the bits of its arguments, the unused ones 0.
#[derive(Clone, Copy, Debug, Default, PartialEq, Eq, Hash)]
#[repr(C)]
pub struct Job {
    pub function: u64,
    pub arguments: [u64; 4],
}

fn refusal(number: u32) -> Refusal {
    Refusal::of(number).expect("the contract of a work list names every number that it returns")
}

impl Job {
    /// No job takes more bytes.
    pub const LONGEST: usize = 41;

    /// Writes the job into `bytes` from `place` on; the place after it. Refused, no byte has changed.
    ///
    /// ```
    /// use gatewren::{Job, Refusal, WorkList};
    ///
    /// let job = Job { function: 2, arguments: [0, 300, 0, 0] };
    /// let mut bytes = [0; 4];
    /// assert_eq!(job.write(&mut bytes, 0), Ok(4));
    /// assert_eq!(bytes, [2, 0, 0xAC, 2]);
    /// assert_eq!(job.write(&mut bytes, 1), Err(Refusal::NoRoom));
    /// assert_eq!(WorkList::new(&bytes).collect::<Vec<_>>(), [Ok(job)]);
    /// ```
    pub fn write(&self, bytes: &mut [u8], place: usize) -> Result<usize, Refusal> {
        let mut next = place;
        // It writes at most into the slice and through the one reference, and reads the job.
        match unsafe { symbols::gatewren_write_job(bytes.as_mut_ptr(), bytes.len(), &mut next, self) } {
            0 => Ok(next),
            number => Err(refusal(number)),
        }
    }
}

/// Goes through the jobs of a packed list. A refusal is the last item, and [`WorkList::place`] is then where its job begins.
#[derive(Clone, Debug)]
pub struct WorkList<'a> {
    bytes: &'a [u8],
    place: usize,
    stopped: bool,
}

impl<'a> WorkList<'a> {
    pub fn new(bytes: &'a [u8]) -> WorkList<'a> {
        WorkList { bytes, place: 0, stopped: false }
    }

    /// The place of the next job.
    pub fn place(&self) -> usize {
        self.place
    }
}

impl Iterator for WorkList<'_> {
    type Item = Result<Job, Refusal>;

    fn next(&mut self) -> Option<Self::Item> {
        if self.stopped {
            return None;
        }
        let mut job = Job::default();
        // It reads the slice, and writes at most through the two references.
        match unsafe { symbols::gatewren_read_job(self.bytes.as_ptr(), self.bytes.len(), &mut self.place, &mut job) } {
            0 => Some(Ok(job)),
            u32::MAX => None,
            number => {
                self.stopped = true;
                Some(Err(refusal(number)))
            }
        }
    }
}
