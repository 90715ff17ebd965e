//! The numbers every operation answers with.

#[derive(Clone, Copy, Debug, PartialEq, Eq)]
pub struct Answer {
    pub number: u32,
    pub at: u32,
}

pub const DONE: u32 = 0;
pub const NO_RULE_FITS: u32 = 1;
pub const BUDGET_USED: u32 = 2;
pub const BAD_TEXT: u32 = 10;
pub const BAD_TERM: u32 = 11;
pub const BAD_BOOK: u32 = 12;
pub const TOO_SHORT: u32 = 13;
pub const DAMAGED_TREE: u32 = 14;
pub const TOO_LARGE: u32 = 15;
pub const NO_SUCH_RULE: u32 = 16;
pub const CANNOT_TAKE: u32 = 18;

impl Answer {
    pub const DONE: Answer = Answer { number: DONE, at: 0 };

    pub fn new(number: u32, at: u32) -> Answer {
        Answer { number, at }
    }
}

/// The answer of an inner function that either succeeds or says why not.
pub fn of(result: Result<(), Answer>) -> Answer {
    match result {
        Ok(()) => Answer::DONE,
        Err(answer) => answer,
    }
}

/// Puts a result into a lent output that was cleared before. Nothing is
/// written when it does not fit, so a refused output stays zero.
pub fn give<T: Copy>(result: &[T], out: &mut [T]) -> Result<(), Answer> {
    if result.len() > out.len() {
        return Err(Answer::new(TOO_SHORT, 0));
    }
    out[..result.len()].copy_from_slice(result);
    Ok(())
}
