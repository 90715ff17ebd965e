//! Document 01's "Numbers it answers with".

use std::error::Error;
use std::fmt;

/// The number and the place that an operation answers with.
#[derive(Clone, Copy, Debug, PartialEq, Eq)]
pub struct Answer {
    pub number: u32,
    pub at: usize,
}

/// Done; in simplifying: no rule fits anywhere.
pub const DONE: u32 = 0;
/// No rule fits.
pub const NO_FIT: u32 = 1;
/// The budget is used and a rule still fits.
pub const BUDGET_USED: u32 = 2;

/// What a rule writes cannot take the arguments set aside: a refusal, whose place is their number.
pub const CANNOT_TAKE: u32 = 18;

/// A refusal: its number, from 10 up, and its place.
#[derive(Clone, Copy, Debug, PartialEq, Eq)]
pub struct Refused {
    pub number: u32,
    pub at: usize,
}

impl fmt::Display for Refused {
    fn fmt(&self, f: &mut fmt::Formatter<'_>) -> fmt::Result {
        let meaning = match self.number {
            10 => "text not in form",
            11 => "bad term",
            12 => "bad book",
            13 => "no room for the result",
            14 => "damaged tree",
            15 => "the new term is over a limit",
            16 => "no such rule",
            CANNOT_TAKE => "what is written cannot take the arguments set aside",
            _ => "no number of document 01",
        };
        write!(f, "{meaning} (number {}, at {})", self.number, self.at)
    }
}

impl Error for Refused {}

impl Answer {
    /// The number of an answer that is no refusal.
    pub fn accepted(self) -> Result<u32, Refused> {
        let Answer { number, at } = self;
        match number {
            DONE | NO_FIT | BUDGET_USED => Ok(number),
            _ => Err(Refused { number, at }),
        }
    }
}
