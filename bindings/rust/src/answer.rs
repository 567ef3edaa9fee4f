//! What an entry answers.

use std::fmt;

/// A finite value with its way, or the reason for no: there is no third case, and none is both. The way is which formula
/// answered, and over the call and all it calls the rounds gone through and how often arguments were rescaled.
#[derive(Clone, Copy, Debug, PartialEq)]
#[must_use]
pub enum Answer {
    Value { value: f64, rounds: u32, road: Road, rescalings: u32 },
    Refused(Refusal),
}

/// Which formula gave a value. A call that rescales, or hands its whole answer to another function, has that one's road.
#[derive(Clone, Copy, Debug, PartialEq, Eq, Hash)]
pub enum Road {
    /// A formula.
    Closed = 1,
    /// The rule for an infinite argument gave the zero.
    Infinite,
    /// The arithmetic-geometric mean.
    Agm,
    Duplication,
    /// RG's duplication of RF and RD in one loop.
    Joint,
    /// The expansion near RJ's zero.
    Taylor,
    /// The reduction of RJ with p below zero.
    Reduction,
    /// cel's loop.
    Loop,
}

impl Road {
    const ALL: [Road; 8] =
        [Road::Closed, Road::Infinite, Road::Agm, Road::Duplication, Road::Joint, Road::Taylor, Road::Reduction, Road::Loop];

    fn of(number: u32) -> Option<Road> {
        Road::ALL.into_iter().find(|road| *road as u32 == number)
    }
}

/// The listing's word.
impl fmt::Display for Road {
    fn fmt(&self, f: &mut fmt::Formatter) -> fmt::Result {
        f.write_str(&format!("{self:?}").to_lowercase())
    }
}

/// The places that the C interface writes to.
#[derive(Default)]
pub(crate) struct Places {
    pub value: f64,
    pub rounds: u32,
    pub road: u32,
    pub rescalings: u32,
}

impl Answer {
    /// The value, or the reason for no, for use with `?`.
    pub fn value(self) -> Result<f64, Refusal> {
        match self {
            Answer::Value { value, .. } => Ok(value),
            Answer::Refused(refusal) => Err(refusal),
        }
    }

    /// From what the C interface returns and has written.
    pub(crate) fn told(number: u32, places: Places) -> Answer {
        let Places { value, rounds, road, rescalings } = places;
        match number {
            0 => {
                let road = Road::of(road).expect("the contract of an entry names every road that it writes");
                Answer::Value { value, rounds, road, rescalings }
            }
            number => Answer::Refused(Refusal::of(number).expect("the contract of an entry names every number that it returns")),
        }
    }
}

macro_rules! refusals {
    ($($name:ident = $number:literal, $text:literal;)*) => {
        /// A number for no, with its meaning (docs/REFUSALS.md has the order in which an entry tests).
        #[derive(Clone, Copy, Debug, PartialEq, Eq, Hash)]
        pub enum Refusal {
            $(#[doc = $text] $name = $number,)*
        }

        impl Refusal {
            pub const ALL: &'static [Refusal] = &[$(Refusal::$name),*];

            fn text(self) -> &'static str {
                match self {
                    $(Refusal::$name => $text,)*
                }
            }
        }
    };
}

refusals! {
    NanGiven = 1, "an argument is NaN";
    BelowZero = 2, "an argument is below zero that must not be";
    Zeros = 3, "too many zeros";
    ZeroGiven = 4, "RC's y, RJ's p, or cel's kc or p is zero";
    ZNotAbove = 5, "RD's z is zero or less";
    NoResult = 6, "RF, RD, RJ or cel ends without a finite result";
    RcNoResult = 7, "RC ends without a finite result";
    RgNoResult = 8, "RG ends without a finite result";
    AgmSpent = 9, "the cap on RD's or RG's mean is spent";
    TooDeep = 10, "a fifth nested RJ call would be needed";
    OutOfRange = 11, "a swing's length is not 1 to 10,000,000 or its gravity not 1 to 20,000,000";
    Height = 12, "a swing's height is not 1 to 2L - 1";
    SumTooLarge = 13, "the step log's total would pass 2^64 - 1";
    ListCut = 14, "the work list stops inside a job";
    NumberBad = 15, "a number over 64 bits or not in its shortest form";
    UnknownFunction = 16, "a job's function is none of those that work lists know";
    NoRoom = 17, "the job is longer than what is left";
    TooMany = 18, "more than 2^32 - 1 calls in all, in a report's list or in two reports joined";
    SeveralInfinite = 19, "more than one of cel's arguments is infinite";
    AOrBInfinite = 20, "cel's a or b is infinite";
    WrongSign = 21, "p has the wrong sign for this entry";
    NumbersDiffer = 22, "a table's claims and its work list's jobs differ in number";
    OutsideProfile = 23, "an argument is neither zero nor of size from 2^-64 to 2^64";
    Amplitude = 24, "a peak is not from 1 to 2^53";
    TooLarge = 25, "a decimal number is beyond the largest f64";
    NoNumber = 26, "a text is no decimal number";
}

impl Refusal {
    pub fn number(self) -> u32 {
        self as u32
    }

    pub fn of(number: u32) -> Option<Refusal> {
        Refusal::ALL.iter().copied().find(|refusal| refusal.number() == number)
    }
}

impl fmt::Display for Refusal {
    fn fmt(&self, f: &mut fmt::Formatter) -> fmt::Result {
        write!(f, "refused {}: {}", self.number(), self.text())
    }
}

impl std::error::Error for Refusal {}
