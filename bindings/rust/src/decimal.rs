//! Numbers as people write them: a decimal's text to the nearest f64, and an f64 to the shortest text that reads back.
//!
//! ```
//! use gatewren::decimal;
//!
//! assert_eq!(decimal::read("6.02e23"), Ok(6.02e23));
//! assert_eq!(decimal::write(0.1 + 0.2).as_str(), "0.30000000000000004");
//! ```
//!
//! A decimal is an optional minus, digits, optionally a point and digits, optionally `e` or `E`, an optional sign and digits; its digits
//! are at most 800, zeros in front and at the end not counted, and its power of ten is an i32. `inf`, `-inf` and `nan` are numbers too, and
//! nothing else is: `.5`, `5.`, `+1` and `infinity`, which [`str::parse`] takes, are refused.

use crate::answer::Refusal;
use crate::symbols;
use std::fmt;
use std::ops::Deref;

/// No text is longer, in bytes.
pub const BYTES: usize = 24;

/// Why a text has no value.
#[derive(Clone, Copy, Debug, PartialEq, Eq, Hash)]
pub enum Unread {
    /// It is a decimal beyond the largest f64, which is no infinity.
    TooLarge,
    /// It is no decimal number. The place, counted from 0, is that of the byte that makes it none, or the text's length where it ends
    /// too soon.
    NoNumber { place: usize },
}

impl Unread {
    /// The number for no, 25 or 26.
    pub fn refusal(self) -> Refusal {
        match self {
            Unread::TooLarge => Refusal::TooLarge,
            Unread::NoNumber { .. } => Refusal::NoNumber,
        }
    }
}

impl fmt::Display for Unread {
    fn fmt(&self, to: &mut fmt::Formatter<'_>) -> fmt::Result {
        match self {
            Unread::TooLarge => write!(to, "{}", self.refusal()),
            Unread::NoNumber { place } => write!(to, "{}, at byte {place}", self.refusal()),
        }
    }
}

impl std::error::Error for Unread {}

/// The f64 nearest to the number that the text is, ties to even.
///
/// ```
/// use gatewren::decimal::{read, Unread};
///
/// assert_eq!(read("-0.25"), Ok(-0.25));
/// assert_eq!(read("1e309"), Err(Unread::TooLarge));
/// assert_eq!(read("1,5"), Err(Unread::NoNumber { place: 1 }));
/// assert_eq!(read("1e"), Err(Unread::NoNumber { place: 2 }));
/// ```
pub fn read(text: impl AsRef<[u8]>) -> Result<f64, Unread> {
    let text = text.as_ref();
    let (mut value, mut place) = (0.0, 0);
    // It reads the slice that is lent to it, and writes at most through the two references.
    match unsafe { symbols::gatewren_read_decimal(text.as_ptr(), text.len(), &mut value, &mut place) } {
        0 => Ok(value),
        25 => Err(Unread::TooLarge),
        26 => Err(Unread::NoNumber { place }),
        number => unreachable!("the contract of the reader names every number that it returns, and not {number}"),
    }
}

/// A number's text, held without an allocation; it is a `str` by [`Deref`].
#[derive(Clone, Copy)]
pub struct Text {
    bytes: [u8; BYTES],
    length: usize,
}

impl Text {
    pub fn as_str(&self) -> &str {
        std::str::from_utf8(&self.bytes[..self.length]).expect("a number's text is ASCII")
    }
}

impl Deref for Text {
    type Target = str;

    fn deref(&self) -> &str {
        self.as_str()
    }
}

impl AsRef<[u8]> for Text {
    fn as_ref(&self) -> &[u8] {
        self.as_bytes()
    }
}

impl PartialEq for Text {
    fn eq(&self, other: &Text) -> bool {
        self.as_str() == other.as_str()
    }
}

impl Eq for Text {}

impl fmt::Debug for Text {
    fn fmt(&self, to: &mut fmt::Formatter<'_>) -> fmt::Result {
        fmt::Debug::fmt(self.as_str(), to)
    }
}

impl fmt::Display for Text {
    fn fmt(&self, to: &mut fmt::Formatter<'_>) -> fmt::Result {
        to.pad(self)
    }
}

/// The shortest text that [`read`] gives back as `x`, and of those the nearest: up to 17 digits before the point and up to four zeros
/// after it written out, all else with a power; `-0`, `inf`, `-inf`, and `nan` for each NaN.
///
/// ```
/// use gatewren::decimal::write;
///
/// assert_eq!(write(250.0).as_str(), "250");
/// assert_eq!(write(1e-5).as_str(), "0.00001");
/// assert_eq!(write(6.02e23).to_string(), "6.02e23");
/// ```
pub fn write(x: f64) -> Text {
    let mut bytes = [0; BYTES];
    // It writes at most into the array that is lent to it.
    let length = unsafe { symbols::gatewren_write_decimal(x, bytes.as_mut_ptr(), BYTES) };
    Text { bytes, length }
}
