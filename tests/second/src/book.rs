//! The book: its check and its laid out rules.

use crate::answer::{Answer, BAD_BOOK};
use crate::renumber::list_is_good;
use crate::term::{first_bad, Laid};
use crate::words::{count, id, in_table, kind, PATTERN, SYMBOL, VARIABLE};

pub const MAX_RULES: usize = 64;
pub const MAX_VARS: usize = 16;
pub const MAX_SIDE: usize = 64;
pub const MAX_SIDE_NESTING: usize = 16;

/// A pattern variable where it stands in a left side.
#[derive(Clone, Debug)]
pub struct Occurrence {
    pub at: usize,
    pub variable: usize,
    /// Abstractions of the left side above it.
    pub d: u32,
    pub list: Vec<u32>,
}

#[derive(Clone, Debug)]
pub struct Rule {
    pub vars: usize,
    pub left: Laid,
    pub right: Laid,
    /// In prefix order.
    pub occurrences: Vec<Occurrence>,
    /// For each variable, its count.
    pub counts: Vec<u32>,
}

impl Rule {
    /// The first occurrence of a variable; a checked rule has one.
    pub fn first(&self, variable: usize) -> usize {
        self.occurrences
            .iter()
            .position(|o| o.variable == variable)
            .unwrap_or(0)
    }

    pub fn occurrence_at(&self, at: usize) -> Option<usize> {
        self.occurrences.iter().position(|o| o.at == at)
    }

    /// How many arguments are set aside where the rule is tried at a root with
    /// this word; None if the word is not one for the rule.
    pub fn aside(&self, w: u32) -> Option<u32> {
        let own = self.left.words[0];
        let same = kind(w) == SYMBOL && id(w) == id(own);
        if same {
            count(w).checked_sub(count(own))
        } else {
            None
        }
    }
}

#[derive(Clone, Debug)]
pub struct Book {
    pub rules: Vec<Rule>,
}

/// Checks a book and lays it out; otherwise 12 with the place.
pub fn read(words: &[u32]) -> Result<Book, Answer> {
    let bad = |at: usize| Answer::new(BAD_BOOK, at as u32);
    let Some(&number) = words.first() else {
        return Err(bad(0));
    };
    if number > MAX_RULES as u32 {
        return Err(bad(MAX_RULES));
    }
    let mut rest = &words[1..];
    let mut rules = Vec::new();
    for n in 0..number as usize {
        let (rule, after) = take_rule(rest).ok_or(bad(n))?;
        rules.push(rule);
        rest = after;
    }
    if !rest.is_empty() {
        return Err(bad(number as usize));
    }
    Ok(Book { rules })
}

pub fn check_book(words: &[u32]) -> Answer {
    crate::answer::of(read(words).map(|_| ()))
}

/// Splits one good rule off the front of the words.
fn take_rule(words: &[u32]) -> Option<(Rule, &[u32])> {
    if words.len() < 3 {
        return None;
    }
    let in_range = |n: u32| n >= 1 && n <= MAX_SIDE as u32;
    if words[0] > MAX_VARS as u32 || !in_range(words[1]) || !in_range(words[2]) {
        return None;
    }
    let (vars, l, r) = (words[0] as usize, words[1] as usize, words[2] as usize);
    let sides = &words[3..];
    if sides.len() < l + r {
        return None;
    }
    let rule = lay_rule(vars, &sides[..l], &sides[l..l + r])?;
    Some((rule, &sides[l + r..]))
}

/// Lays out a rule that keeps the book rules.
pub(crate) fn lay_rule(vars: usize, left: &[u32], right: &[u32]) -> Option<Rule> {
    let whole = |side| first_bad(side, MAX_SIDE, MAX_SIDE_NESTING, in_table).is_none();
    if !whole(left) || !whole(right) {
        return None;
    }
    let left = Laid::of(left);
    let right = Laid::of(right);
    let occurrences = occurrences(&left)?;

    // Each variable below vars occurs, no other, always with one count.
    let mut counts: Vec<Option<u32>> = vec![None; vars];
    for o in &occurrences {
        let known = counts.get_mut(o.variable)?;
        let k = o.list.len() as u32;
        if *known.get_or_insert(k) != k {
            return None;
        }
    }
    let counts = counts.into_iter().collect::<Option<Vec<u32>>>()?;

    for (at, &w) in right.words.iter().enumerate() {
        let good = match kind(w) {
            VARIABLE => id(w) <= right.above[at],
            PATTERN => counts.get(id(w) as usize) == Some(&count(w)),
            _ => true,
        };
        if !good {
            return None;
        }
    }
    Some(Rule { vars, left, right, occurrences, counts })
}

/// The occurrences in a left side, or None if it breaks the rules for lefts.
fn occurrences(left: &Laid) -> Option<Vec<Occurrence>> {
    if kind(left.words[0]) != SYMBOL {
        return None;
    }
    let mut found = Vec::new();
    let mut at = 0;
    while at < left.len() {
        let w = left.words[at];
        match kind(w) {
            // Kind 2 stands only in the lists, which are stepped over below.
            VARIABLE => return None,
            PATTERN => {
                let mut list = Vec::new();
                for child in left.children(at) {
                    if kind(left.words[child]) != VARIABLE {
                        return None;
                    }
                    list.push(id(left.words[child]));
                }
                let d = left.above[at];
                if !list_is_good(&list, d) {
                    return None;
                }
                found.push(Occurrence { at, variable: id(w) as usize, d, list });
                at = left.end[at];
            }
            _ => at += 1,
        }
    }
    Some(found)
}
