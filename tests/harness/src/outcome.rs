//! What a case comes to in the library and in the second program: the answer and everything that was lent, afterwards.

use std::fmt;

use rosenduch::raw;
use second::compile::tree_of;

use crate::case::Case;
use crate::lent::Lent;
use crate::visits;

/// What lent outputs hold before a call: neither zero nor a word of a term.
const OLD: u32 = 0xa5a5_a5a5;
const OLD_BYTE: u8 = 0xa5;

#[derive(Clone, Debug, PartialEq, Eq, Default)]
pub struct Outcome {
    pub number: u32,
    pub at: u64,
    /// The words of a tree, the rule of a match or the steps made.
    pub further: u32,
    /// The arguments set aside in a match.
    pub aside: u32,
    /// The nodes visited where a tree is walked.
    pub visits: u64,
    pub words: Vec<u32>,
    pub lengths: Vec<u32>,
    pub bytes: Vec<u8>,
}

/// A lent output in words, without the zeros at its end.
fn shown<T: Copy + Into<u64>>(lent: &[T]) -> String {
    let values: Vec<u64> = lent.iter().map(|&value| value.into()).collect();
    let used = values.iter().rposition(|&value| value != 0).map_or(0, |last| last + 1);
    format!("{:?} and {} zeros", &values[..used], values.len() - used)
}

impl fmt::Display for Outcome {
    fn fmt(&self, f: &mut fmt::Formatter<'_>) -> fmt::Result {
        write!(f, "{} at {}, further {}, aside {}, visits {}, ", self.number, self.at, self.further, self.aside, self.visits)?;
        write!(f, "words {}, ", shown(&self.words))?;
        write!(f, "lengths {}, ", shown(&self.lengths))?;
        write!(f, "bytes {}", shown(&self.bytes))
    }
}

impl Outcome {
    /// Whether every lent output is zero.
    pub fn is_clear(&self) -> bool {
        let zero = |words: &[u32]| words.iter().all(|&word| word == 0);
        zero(&self.words) && zero(&self.lengths) && self.bytes.iter().all(|&byte| byte == 0)
    }

    /// How many words or bytes of the output the result takes.
    pub fn need(&self, case: &Case) -> usize {
        match case {
            Case::CheckTerm { .. } | Case::CheckBook { .. } => 0,
            Case::MatchRule { .. } | Case::MatchTree { .. } => self.lengths.iter().map(|&length| length as usize).sum(),
            Case::Compile { .. } => self.further as usize,
            Case::ReadBook { .. } => book_length(&self.words),
            Case::WriteBook { .. } | Case::WriteTerm { .. } | Case::RepairBook { .. } => {
                self.bytes.iter().position(|&byte| byte == 0).unwrap_or(self.bytes.len())
            }
            _ => second::term::Laid::of(&self.words).end[0],
        }
    }
}

fn book_length(words: &[u32]) -> usize {
    let mut length = 1;
    for _ in 0..words[0] {
        length += 3 + (words[length + 1] + words[length + 2]) as usize;
    }
    length
}

/// The library's answer, before what was lent is looked at.
fn of_library(answer: rosenduch::Answer) -> Outcome {
    Outcome { number: answer.number, at: answer.at as u64, ..Outcome::default() }
}

/// The second program's answer, before what was lent is looked at.
fn of_second(answer: second::Answer) -> Outcome {
    Outcome { number: answer.number, at: u64::from(answer.at), ..Outcome::default() }
}

/// Lends words and keeps what the call left in them.
fn with_words(room: usize, call: impl FnOnce(&mut [u32]) -> Outcome) -> Outcome {
    let mut lent = Lent::new(room, OLD);
    let outcome = call(lent.slice());
    Outcome { words: lent.left(OLD), ..outcome }
}

/// Lends words for bodies and the sixteen lengths.
fn with_bodies(room: usize, call: impl FnOnce(&mut [u32], &mut [u32; 16]) -> Outcome) -> Outcome {
    let mut lengths = [OLD; 16];
    let outcome = with_words(room, |bodies| call(bodies, &mut lengths));
    Outcome { lengths: lengths.to_vec(), ..outcome }
}

/// Lends bytes and keeps what the call left in them.
fn with_bytes(room: usize, call: impl FnOnce(&mut [u8]) -> Outcome) -> Outcome {
    let mut lent = Lent::new(room, OLD_BYTE);
    let outcome = call(lent.slice());
    Outcome { bytes: lent.left(OLD_BYTE), ..outcome }
}

/// What the library makes of a case.
pub fn library(case: &Case) -> Outcome {
    let with = |(answer, further): (_, u32)| Outcome { further, ..of_library(answer) };
    match case {
        Case::CheckTerm { term } => of_library(raw::check_term(term)),
        Case::CheckBook { book } => of_library(raw::check_book(book)),
        Case::MatchRule { book, rule, term, room } => with_bodies(*room, |b, l| {
            let (answer, aside) = raw::match_rule(book, *rule, term, b, l);
            Outcome { aside, ..of_library(answer) }
        }),
        Case::BuildLeft { book, rule, bodies, lengths, room } => {
            with_words(*room, |out| of_library(raw::build_left(book, *rule, bodies, lengths, out)))
        }
        Case::Compile { book, room } => with_words(*room, |out| with(raw::compile(book, out))),
        Case::MatchTree { tree, term, room } => with_bodies(*room, |b, l| {
            let (answer, rule, aside, visits) = raw::match_tree(tree, term, b, l);
            Outcome { aside, visits, ..with((answer, rule)) }
        }),
        Case::RewriteRoot { book, tree, term, room } => with_words(*room, |out| {
            let (answer, visits) = raw::rewrite_root(book, tree, term, out);
            Outcome { visits, ..of_library(answer) }
        }),
        Case::Simplify { book, tree, term, budget, room } => with_words(*room, |out| {
            let (answer, steps, visits) = raw::simplify(book, tree, term, *budget, out);
            Outcome { visits, ..with((answer, u32::from(steps))) }
        }),
        Case::ReadBook { text, room } => with_words(*room, |out| of_library(raw::read_book(text, out))),
        Case::WriteBook { book, room } => with_bytes(*room, |out| of_library(raw::write_book(book, out))),
        Case::ReadTerm { text, room } => with_words(*room, |out| of_library(raw::read_term(text, out))),
        Case::WriteTerm { term, room } => with_bytes(*room, |out| of_library(raw::write_term(term, out))),
        Case::RepairBook { text, room } => with_bytes(*room, |out| of_library(raw::repair_book(text, out))),
    }
}

/// The words of a tree that was compiled, and 0 where it was not.
fn words_of(answer: second::Answer, book: &[u32]) -> u32 {
    if answer != second::Answer::DONE {
        return 0;
    }
    let tree = second::book::read(book).ok().and_then(|book| tree_of(&book));
    tree.map_or(0, |tree| tree.len() as u32)
}

/// What the second program makes of a case.
pub fn second(case: &Case) -> Outcome {
    let with = |(answer, further)| Outcome { further, ..of_second(answer) };
    match case {
        Case::CheckTerm { term } => of_second(second::check_term(term)),
        Case::CheckBook { book } => of_second(second::check_book(book)),
        Case::MatchRule { book, rule, term, room } => with_bodies(*room, |b, l| {
            let (answer, aside) = second::match_rule(book, *rule, term, b, l);
            Outcome { aside, ..of_second(answer) }
        }),
        Case::BuildLeft { book, rule, bodies, lengths, room } => {
            with_words(*room, |out| of_second(second::build_left(book, *rule, bodies, lengths, out)))
        }
        Case::Compile { book, room } => with_words(*room, |out| {
            let answer = second::compile(book, out);
            with((answer, words_of(answer, book)))
        }),
        Case::MatchTree { tree, term, room } => with_bodies(*room, |b, l| {
            let (answer, rule, aside, visits) = second::match_tree(tree, term, b, l);
            Outcome { aside, visits, ..with((answer, rule)) }
        }),
        Case::RewriteRoot { book, tree, term, room } => with_words(*room, |out| {
            let (answer, visits) = second::rewrite_root(book, tree, term, out);
            Outcome { visits, ..of_second(answer) }
        }),
        Case::Simplify { book, tree, term, budget, room } => with_words(*room, |out| {
            let (answer, steps, visits) = second::simplify(book, tree, term, *budget, out);
            Outcome { visits, ..with((answer, steps)) }
        }),
        Case::ReadBook { text, room } => with_words(*room, |out| of_second(second::read_book(text, out))),
        Case::WriteBook { book, room } => with_bytes(*room, |out| of_second(second::write_book(book, out))),
        Case::ReadTerm { text, room } => with_words(*room, |out| of_second(second::read_term(text, out))),
        Case::WriteTerm { term, room } => with_bytes(*room, |out| of_second(second::write_term(term, out))),
        Case::RepairBook { text, room } => with_bytes(*room, |out| of_second(second::repair_book(text, out))),
    }
}

/// Runs a case in both. A difference, a refusal that leaves something in a lent output, or visits where nothing is walked, are told in words.
pub fn compare(case: &Case) -> Result<Outcome, String> {
    let ours = library(case);
    let theirs = second(case);
    if ours != theirs {
        return Err(format!("library: {ours}\nsecond:  {theirs}"));
    }
    let refused = !matches!(ours.number, rosenduch::DONE | rosenduch::BUDGET_USED);
    if refused && !ours.is_clear() {
        return Err(format!("not zero after a refusal: {ours}"));
    }
    if !visits::is_lawful(case, &ours) {
        return Err(format!("nodes visited where nothing is walked, or too few: {ours}"));
    }
    Ok(ours)
}
