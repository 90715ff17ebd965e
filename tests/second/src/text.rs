//! Texts of books and terms.

use crate::answer::{give, of, Answer, BAD_TEXT, TOO_SHORT};
use crate::book::{self, Book, MAX_RULES, MAX_SIDE, MAX_VARS};
use crate::fit::checked;
use crate::term::MAX_WORDS;
use crate::words::{
    count, id, kind, pattern, symbol, variable, ABSTRACTION, LAMBDA, MAX_ID, PATTERN, SYMBOL,
};

pub const MAX_TEXT: usize = 65_536;

/// The lines of a text, taken one after the other.
pub struct Lines<'a> {
    rest: &'a [u8],
    /// Lines taken so far, so that the line due is this plus one.
    taken: u32,
}

impl<'a> Lines<'a> {
    /// A text over its size is not in form, at no line.
    pub fn of(text: &'a [u8]) -> Result<Lines<'a>, Answer> {
        if text.len() > MAX_TEXT {
            return Err(Answer::new(BAD_TEXT, 0));
        }
        Ok(Lines { rest: text, taken: 0 })
    }

    pub fn at_end(&self) -> bool {
        self.rest.is_empty()
    }

    /// Takes the line due and reads it. The line is bad if it is missing, if
    /// byte 10 doesn't end it or if it can't be read.
    pub fn take<T>(&mut self, read: impl Fn(&'a [u8]) -> Option<T>) -> Result<T, Answer> {
        let bad = Answer::new(BAD_TEXT, self.taken + 1);
        let end = self.rest.iter().position(|&b| b == b'\n').ok_or(bad)?;
        let value = read(&self.rest[..end]).ok_or(bad)?;
        self.rest = &self.rest[end + 1..];
        self.taken += 1;
        Ok(value)
    }

    /// Nothing may follow.
    pub fn end(&self) -> Result<(), Answer> {
        if self.at_end() {
            Ok(())
        } else {
            Err(Answer::new(BAD_TEXT, self.taken + 1))
        }
    }
}

/// A decimal number without leading zeros, within a range.
fn number(text: &[u8], least: u32, most: u32) -> Option<u32> {
    if text.is_empty() || text.len() > 5 || (text[0] == b'0' && text.len() > 1) {
        return None;
    }
    let mut value = 0;
    for &b in text {
        if !b.is_ascii_digit() {
            return None;
        }
        value = value * 10 + u32::from(b - b'0');
    }
    (value >= least && value <= most).then_some(value)
}

/// The id and the count of `<id>.<count>`.
fn pair(text: &[u8], most_id: u32, most_count: u32) -> Option<(u32, u32)> {
    let dot = text.iter().position(|&b| b == b'.')?;
    let i = number(&text[..dot], 0, most_id)?;
    let c = number(&text[dot + 1..], 0, most_count)?;
    Some((i, c))
}

fn token(text: &[u8]) -> Option<u32> {
    let (&letter, rest) = text.split_first()?;
    match letter {
        b's' => pair(rest, 1_023, 15).map(|(i, c)| symbol(i, c)),
        b'l' => rest.is_empty().then_some(LAMBDA),
        b'v' => number(rest, 1, MAX_ID).map(variable),
        b'm' => pair(rest, 15, 4).map(|(i, c)| pattern(i, c)),
        _ => None,
    }
}

/// 1 to `most` tokens parted by one blank.
fn tokens(text: &[u8], most: usize) -> Option<Vec<u32>> {
    let found = text
        .split(|&b| b == b' ')
        .map(token)
        .collect::<Option<Vec<u32>>>()?;
    (found.len() <= most).then_some(found)
}

/// The number, from 0 to `most`, in the line with this key.
pub(crate) fn value(line: &[u8], key: &str, most: usize) -> Option<u32> {
    number(line.strip_prefix(key.as_bytes())?, 0, most as u32)
}

/// The words in the line of a side with this key.
fn side(line: &[u8], key: &str) -> Option<Vec<u32>> {
    tokens(line.strip_prefix(key.as_bytes())?, MAX_SIDE)
}

/// What the lines of a rule after `rule=` say; they are in form only.
pub(crate) struct Stated {
    pub vars: u32,
    pub left: Vec<u32>,
    pub right: Vec<u32>,
}

/// The lines due of a rule after `rule=`.
pub(crate) fn take_stated(lines: &mut Lines) -> Result<Stated, Answer> {
    let vars = lines.take(|line| value(line, "vars=", MAX_VARS))?;
    let left = lines.take(|line| side(line, "left="))?;
    let right = lines.take(|line| side(line, "right="))?;
    Ok(Stated { vars, left, right })
}

/// The first line of every book.
pub(crate) fn take_book_line(lines: &mut Lines) -> Result<(), Answer> {
    lines.take(|line| (line == b"book=1").then_some(()))
}

/// The words of the book that the text begins with; they are in form only.
pub fn take_book(lines: &mut Lines) -> Result<Vec<u32>, Answer> {
    take_book_line(lines)?;
    let rules = lines.take(|line| value(line, "rules=", MAX_RULES))?;
    let mut words = vec![rules];
    for n in 0..rules {
        lines.take(|line| value(line, "rule=", MAX_RULES).filter(|&given| given == n))?;
        let rule = take_stated(lines)?;
        words.extend([rule.vars, rule.left.len() as u32, rule.right.len() as u32]);
        words.extend(rule.left);
        words.extend(rule.right);
    }
    Ok(words)
}

/// The words of the `term=` line due; they are in form only.
pub fn take_term_line(lines: &mut Lines) -> Result<Vec<u32>, Answer> {
    lines.take(|line| tokens(line.strip_prefix(b"term=")?, MAX_WORDS))
}

pub fn read_book(text: &[u8], out: &mut [u32]) -> Answer {
    out.fill(0);
    of((|| {
        let mut lines = Lines::of(text)?;
        let words = take_book(&mut lines)?;
        lines.end()?;
        book::read(&words)?;
        give(&words, out)
    })())
}

pub fn read_term(text: &[u8], out: &mut [u32]) -> Answer {
    out.fill(0);
    of((|| {
        let mut lines = Lines::of(text)?;
        let words = lines.take(|line| tokens(line, MAX_WORDS))?;
        lines.end()?;
        checked(&words)?;
        give(&words, out)
    })())
}

/// The tokens of words, parted by one blank.
pub fn words_text(words: &[u32]) -> String {
    let token = |&w: &u32| match kind(w) {
        SYMBOL => format!("s{}.{}", id(w), count(w)),
        ABSTRACTION => "l".to_string(),
        PATTERN => format!("m{}.{}", id(w), count(w)),
        _ => format!("v{}", id(w)),
    };
    words.iter().map(token).collect::<Vec<_>>().join(" ")
}

pub(crate) fn book_text(book: &Book) -> String {
    let mut text = format!("book=1\nrules={}\n", book.rules.len());
    for (n, rule) in book.rules.iter().enumerate() {
        let left = words_text(&rule.left.words);
        let right = words_text(&rule.right.words);
        text += &format!("rule={n}\nvars={}\nleft={left}\nright={right}\n", rule.vars);
    }
    text
}

pub fn write_book(book: &[u32], out: &mut [u8]) -> Answer {
    out.fill(0);
    of((|| {
        let text = book_text(&book::read(book)?);
        if text.len() > MAX_TEXT {
            return Err(Answer::new(TOO_SHORT, 0));
        }
        give(text.as_bytes(), out)
    })())
}

pub fn write_term(term: &[u32], out: &mut [u8]) -> Answer {
    out.fill(0);
    of((|| {
        let text = words_text(&checked(term)?.words) + "\n";
        give(text.as_bytes(), out)
    })())
}
