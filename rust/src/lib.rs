//! Simplifying the scripts of museum audio guides by a book of rewrite rules, over the proved library Rosenduch.
//!
//! A term, a book and a compiled tree are lists of 32-bit words, as document 01 lays them out. A caller reads a book, compiles it once, and
//! simplifies terms with it:
//!
//! ```
//! # fn main() -> Result<(), rosenduch::Refused> {
//! let book = rosenduch::read_book("book=1\nrules=1\nrule=0\nvars=1\nleft=s2.2 m0.0 m0.0\nright=m0.0\n")?;
//! let tree = rosenduch::compile(&book)?;
//! let term = rosenduch::read_term("s2.2 s7.0 s7.0\n")?;
//! let done = rosenduch::simplify(&book, &tree, &term, 1_000)?;
//! assert_eq!(rosenduch::write_term(&done.term)?, "s7.0\n");
//! # Ok(())
//! # }
//! ```
//!
//! A rule is for a front part of the arguments: at the root of a match, a left side with fewer arguments than the term fits too, and the last
//! arguments of the term, as many as there are more, are set aside. Inside a left side the counts are equal. What the rule writes gets the
//! arguments set aside at its end. For that its root is to be a symbol and to have at most 15 arguments together with them; else the term is
//! refused by 18, [`CANNOT_TAKE`]:
//!
//! ```
//! # use rosenduch::{Refused, CANNOT_TAKE};
//! # fn main() -> Result<(), Refused> {
//! let book = rosenduch::read_book("book=1\nrules=1\nrule=0\nvars=1\nleft=s2.1 m0.0\nright=m0.0\n")?;
//! let tree = rosenduch::compile(&book)?;
//! let simplified = |text: &str| {
//!     let done = rosenduch::simplify(&book, &tree, &rosenduch::read_term(text)?, 1_000)?;
//!     rosenduch::write_term(&done.term)
//! };
//! assert_eq!(simplified("s2.3 s7.0 v1 v2\n")?, "s7.2 v1 v2\n");
//! // An abstraction takes no arguments, and two are set aside.
//! assert_eq!(simplified("s2.3 l v1 v1 v2\n"), Err(Refused { number: CANNOT_TAKE, at: 2 }));
//! # Ok(())
//! # }
//! ```
//!
//! Where a tree is walked, `visits` is the number of nodes visited, the last node included; in simplifying it is the sum over all walks of all
//! steps and of the last search. Two trees of one book can be compared by it. A refusal does not tell the nodes visited before it: the functions
//! of [`raw`] do.
//!
//! Every function takes every input, whole or damaged, and comes to an end; what is bad is [`Refused`] with document 01's number and place. The
//! functions here lend buffers of the largest sizes that results can have, so they refuse by 13 only a tree over 16,384 words and a
//! book text over 65,536 bytes. The functions of [`raw`] take the caller's buffers.
//!
//! A call needs up to 2 MiB of stack: compiling took 1.3 MiB at the worst that was measured, every other call less than half a MiB. The main
//! thread has them; a thread that compiles is best given 4 MiB (`std::thread::Builder::stack_size`).

#![deny(unsafe_code)]

mod answer;
#[allow(unsafe_code)]
mod foreign;
mod length;

pub use answer::{Answer, Refused, BUDGET_USED, CANNOT_TAKE, DONE, NO_FIT};

/// The thirteen operations as they are: the caller lends every output, of any length. After a refusal, and where no rule fits, every lent
/// output is zero; else what a result leaves unused is zero. The nodes visited are told on every answer: up to and including the damaged node with
/// 14, what was walked with 1, 2, 13, 15 and 18, and 0 where nothing was: with 11, with 12 and with a tree over 16,384 words.
pub mod raw {
    pub use crate::foreign::{
        build_left, check_book, check_term, compile, match_rule, match_tree, read_book, read_term, repair_book, rewrite_root, simplify,
        write_book, write_term,
    };
}

/// The most words of a term.
pub const MOST_TERM: usize = 4_096;
/// The most words of a book: 64 rules of two sides of 64 words.
pub const MOST_BOOK: usize = 1 + 64 * (3 + 64 + 64);
/// The most words of a tree.
pub const MOST_TREE: usize = 16_384;
/// The most bytes of a text.
pub const MOST_TEXT: usize = 65_536;
/// The most bytes of the text of a repaired book: the book, as many again for a line for each rule, and 16 for the last line.
pub const MOST_REPAIRED: usize = 2 * MOST_TEXT + 16;
/// The most words of all bodies: sixteen variables, each with a whole term.
pub const MOST_BODIES: usize = 16 * MOST_TERM;

/// What fits: a rule, the body of each of its variables, and how many of the term's last arguments are set aside.
#[derive(Clone, Debug, PartialEq, Eq)]
pub struct Match {
    pub rule: u32,
    pub bodies: Vec<Vec<u32>>,
    pub aside: u32,
}

/// What a match by a tree finds.
#[derive(Clone, Debug, PartialEq, Eq)]
pub struct TreeMatch {
    /// `None` where the tree says that no rule fits.
    pub found: Option<Match>,
    /// The nodes visited.
    pub visits: u64,
}

/// What rewriting at the root leaves.
#[derive(Clone, Debug, PartialEq, Eq)]
pub struct Rewritten {
    /// `None` where the tree says that no rule fits.
    pub term: Option<Vec<u32>>,
    /// The nodes visited.
    pub visits: u64,
}

/// What simplifying leaves.
#[derive(Clone, Debug, PartialEq, Eq)]
pub struct Simplified {
    pub term: Vec<u32>,
    pub steps: u16,
    /// The nodes visited by all walks of all steps and of the last search.
    pub visits: u64,
    /// Whether the budget was used while a rule still fits; else no rule fits anywhere.
    pub budget_used: bool,
}

/// The first `length` words of a lent buffer.
fn cut(mut buffer: Vec<u32>, length: usize) -> Vec<u32> {
    buffer.truncate(length);
    buffer
}

/// A term in the buffer that was lent for it.
fn term_in(buffer: Vec<u32>) -> Vec<u32> {
    let length = length::of_term(&buffer);
    cut(buffer, length)
}

/// A text in the buffer that was lent for it; a text of the library is ASCII.
fn text_in(buffer: &[u8]) -> String {
    buffer[..length::of_text(buffer)].iter().map(|&byte| char::from(byte)).collect()
}

/// The bodies that lie one after the other in a buffer. A body has at least one word, so a length of zero is an unused variable.
fn split(buffer: &[u32], lengths: &[u32; 16]) -> Vec<Vec<u32>> {
    let mut rest = buffer;
    let mut bodies = Vec::new();
    for &length in lengths.iter().filter(|&&length| length > 0) {
        let (body, after) = rest.split_at(rest.len().min(length as usize));
        bodies.push(body.to_vec());
        rest = after;
    }
    bodies
}

/// Checks that words are one term.
pub fn check_term(term: &[u32]) -> Result<(), Refused> {
    raw::check_term(term).accepted().map(|_| ())
}

/// Checks that words are a book.
pub fn check_book(book: &[u32]) -> Result<(), Refused> {
    raw::check_book(book).accepted().map(|_| ())
}

/// How a rule of the book fits the term; `None` where it does not fit.
pub fn match_rule(book: &[u32], rule: u32, term: &[u32]) -> Result<Option<Match>, Refused> {
    let mut buffer = vec![0; MOST_BODIES];
    let mut lengths = [0; 16];
    let (answer, aside) = raw::match_rule(book, rule, term, &mut buffer, &mut lengths);
    let number = answer.accepted()?;
    Ok((number == DONE).then(|| Match { rule, bodies: split(&buffer, &lengths), aside }))
}

/// A rule's left side, built from one body for each variable; from a match it is the term that was matched, without the arguments set aside.
/// More than sixteen bodies are refused as bodies for unused variables are: 11 at 16.
pub fn build_left(book: &[u32], rule: u32, bodies: &[Vec<u32>]) -> Result<Vec<u32>, Refused> {
    let mut lengths = [0; 16];
    for (length, body) in lengths.iter_mut().zip(bodies) {
        *length = u32::try_from(body.len()).unwrap_or(u32::MAX);
    }
    let mut out = vec![0; MOST_TERM];
    raw::build_left(book, rule, &bodies.concat(), &lengths, &mut out).accepted()?;
    Ok(term_in(out))
}

/// The tree of a book.
pub fn compile(book: &[u32]) -> Result<Vec<u32>, Refused> {
    let mut out = vec![0; MOST_TREE];
    let (answer, words) = raw::compile(book, &mut out);
    answer.accepted()?;
    Ok(cut(out, words as usize))
}

/// The rule that the tree names for the term, and how it fits.
pub fn match_tree(tree: &[u32], term: &[u32]) -> Result<TreeMatch, Refused> {
    let mut buffer = vec![0; MOST_BODIES];
    let mut lengths = [0; 16];
    let (answer, rule, aside, visits) = raw::match_tree(tree, term, &mut buffer, &mut lengths);
    let number = answer.accepted()?;
    let found = (number == DONE).then(|| Match { rule, bodies: split(&buffer, &lengths), aside });
    Ok(TreeMatch { found, visits })
}

/// The term, rewritten at its root by the rule that the tree names, with the arguments set aside at its end.
pub fn rewrite_root(book: &[u32], tree: &[u32], term: &[u32]) -> Result<Rewritten, Refused> {
    let mut out = vec![0; MOST_TERM];
    let (answer, visits) = raw::rewrite_root(book, tree, term, &mut out);
    let number = answer.accepted()?;
    Ok(Rewritten { term: (number == DONE).then(|| term_in(out)), visits })
}

/// The term after at most `budget` steps. A refusal does not tell the steps completed and the nodes visited before it: [`raw::simplify`] does.
pub fn simplify(book: &[u32], tree: &[u32], term: &[u32], budget: u16) -> Result<Simplified, Refused> {
    let mut out = vec![0; MOST_TERM];
    let (answer, steps, visits) = raw::simplify(book, tree, term, budget, &mut out);
    let budget_used = answer.accepted()? == BUDGET_USED;
    Ok(Simplified { term: term_in(out), steps, visits, budget_used })
}

/// The words of a book's text.
pub fn read_book(text: impl AsRef<[u8]>) -> Result<Vec<u32>, Refused> {
    let mut out = vec![0; MOST_BOOK];
    raw::read_book(text.as_ref(), &mut out).accepted()?;
    let length = length::of_book(&out);
    Ok(cut(out, length))
}

/// The text of a book.
pub fn write_book(book: &[u32]) -> Result<String, Refused> {
    let mut out = vec![0; MOST_TEXT];
    raw::write_book(book, &mut out).accepted()?;
    Ok(text_in(&out))
}

/// The text of a book that came by mail, repaired: a book of the rules that keep the book rules, 64 at most, numbered from 0 on; then a line for
/// each rule of the text, `dropped=` with its old number or `kept=` with its old and its new one; then `rules-was=` with the number that `rules=`
/// stated, where another number of rules is there. Old numbers are positions from 0, whatever `rule=` says.
///
/// ```
/// let mail = "book=1\nrules=3\n\
///     rule=4\nvars=1\nleft=s2.1 m0.0\nright=v1\n\
///     rule=7\nvars=1\nleft=s3.1 m0.0\nright=m0.0\n";
/// let repaired = "book=1\nrules=1\n\
///     rule=0\nvars=1\nleft=s3.1 m0.0\nright=m0.0\n\
///     dropped=0\nkept=1 0\nrules-was=3\n";
/// assert_eq!(rosenduch::repair_book(mail), Ok(repaired.to_string()));
/// ```
pub fn repair_book(text: impl AsRef<[u8]>) -> Result<String, Refused> {
    let mut out = vec![0; MOST_REPAIRED];
    raw::repair_book(text.as_ref(), &mut out).accepted()?;
    Ok(text_in(&out))
}

/// The words of a term's text: its tokens and a line's end.
pub fn read_term(text: impl AsRef<[u8]>) -> Result<Vec<u32>, Refused> {
    let mut out = vec![0; MOST_TERM];
    raw::read_term(text.as_ref(), &mut out).accepted()?;
    Ok(term_in(out))
}

/// The text of a term.
pub fn write_term(term: &[u32]) -> Result<String, Refused> {
    let mut out = vec![0; MOST_TEXT];
    raw::write_term(term, &mut out).accepted()?;
    Ok(text_in(&out))
}
