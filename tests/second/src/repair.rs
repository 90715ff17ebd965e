//! Repairing a book that came by mail (request E1): the rules that break the
//! book rules are left out, the others are numbered anew.

use crate::answer::{give, of, Answer, TOO_SHORT};
use crate::book::{lay_rule, Book, MAX_RULES};
use crate::program::refusal;
use crate::text::{book_text, take_book_line, take_stated, value, Lines, Stated, MAX_TEXT};

/// `rules=` and `rule=` may hold any number up to this one.
pub const MAX_STATED: usize = 65_535;

/// A book as it came; its lines are in form, no more.
struct Mail {
    /// The number in `rules=`.
    stated: u32,
    /// The rules present.
    rules: Vec<Stated>,
}

/// The form of all lines. The text ends after a whole rule or after `rules=`.
fn read_mail(text: &[u8]) -> Result<Mail, Answer> {
    let mut lines = Lines::of(text)?;
    take_book_line(&mut lines)?;
    let stated = lines.take(|line| value(line, "rules=", MAX_STATED))?;
    let mut rules = Vec::new();
    while !lines.at_end() {
        lines.take(|line| value(line, "rule=", MAX_STATED))?;
        rules.push(take_stated(&mut lines)?);
    }
    Ok(Mail { stated, rules })
}

/// The new book, and for each old position the new one if the rule stays.
struct Sorted {
    book: Book,
    places: Vec<Option<usize>>,
}

/// A rule stays if it keeps the book rules and there is still a place for it.
fn sort(rules: &[Stated]) -> Sorted {
    let mut kept = Vec::new();
    let mut places = Vec::new();
    for rule in rules {
        let sound = lay_rule(rule.vars as usize, &rule.left, &rule.right);
        match sound {
            Some(sound) if kept.len() < MAX_RULES => {
                places.push(Some(kept.len()));
                kept.push(sound);
            }
            _ => places.push(None),
        }
    }
    Sorted { book: Book { rules: kept }, places }
}

/// The lines after the new book.
fn notes(stated: u32, places: &[Option<usize>]) -> String {
    let mut text = String::new();
    for (old, place) in places.iter().enumerate() {
        text += &match place {
            Some(new) => format!("kept={old} {new}\n"),
            None => format!("dropped={old}\n"),
        };
    }
    if stated as usize != places.len() {
        text += &format!("rules-was={stated}\n");
    }
    text
}

/// The whole output, if there is room for it.
pub(crate) fn repaired(text: &[u8]) -> Result<String, Answer> {
    let mail = read_mail(text)?;
    let sorted = sort(&mail.rules);
    let book = book_text(&sorted.book);
    if book.len() > MAX_TEXT {
        return Err(Answer::new(TOO_SHORT, 0));
    }
    Ok(book + &notes(mail.stated, &sorted.places))
}

pub fn repair_book(text: &[u8], out: &mut [u8]) -> Answer {
    out.fill(0);
    of(repaired(text).and_then(|new| give(new.as_bytes(), out)))
}

/// What the program `repair` prints for this standard input.
pub fn repair_file(input: &[u8]) -> Vec<u8> {
    repaired(input).unwrap_or_else(refusal).into_bytes()
}
