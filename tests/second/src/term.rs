//! Terms: the check, and a laid out form for those that passed one.

use crate::answer::{Answer, BAD_TERM};
use crate::words::{count, in_table, kind, ABSTRACTION, PATTERN};

pub const MAX_WORDS: usize = 4_096;
pub const MAX_NESTING: usize = 64;

/// The first bad place of a list that should be one whole tree of words, each
/// good by itself, or None. A list that ends early is bad at its length.
pub fn first_bad(
    words: &[u32],
    max_words: usize,
    max_nesting: usize,
    good: impl Fn(u32) -> bool,
) -> Option<usize> {
    // For each node still open, how many of its children are yet to come.
    let mut open: Vec<u32> = Vec::new();
    let mut complete = false;
    for (at, &w) in words.iter().enumerate() {
        if complete || at >= max_words || open.len() >= max_nesting || !good(w) {
            return Some(at);
        }
        if let Some(missing) = open.last_mut() {
            *missing -= 1;
        }
        open.push(count(w));
        while open.last() == Some(&0) {
            open.pop();
        }
        // A node whose last child has just begun stays open (with 0 missing)
        // below that child, so that nesting is the length of the list.
        complete = open.is_empty();
    }
    if complete {
        None
    } else {
        Some(words.len())
    }
}

pub fn check_term(words: &[u32]) -> Answer {
    let good = |w| in_table(w) && kind(w) != PATTERN;
    match first_bad(words, MAX_WORDS, MAX_NESTING, good) {
        None => Answer::DONE,
        Some(at) => Answer::new(BAD_TERM, at as u32),
    }
}

/// A whole tree of words with what is asked of its offsets again and again.
#[derive(Clone, Debug)]
pub struct Laid {
    pub words: Vec<u32>,
    /// The offset after the part that begins here.
    pub end: Vec<usize>,
    /// How many abstractions stand above.
    pub above: Vec<u32>,
    /// Nesting, the root's being 1.
    pub nesting: Vec<usize>,
}

impl Laid {
    /// Lays out a list that passed a check.
    pub fn of(words: &[u32]) -> Laid {
        let n = words.len();
        let mut laid = Laid {
            words: words.to_vec(),
            end: vec![n; n],
            above: vec![0; n],
            nesting: vec![0; n],
        };
        // Open nodes: offset and children not yet complete.
        let mut open: Vec<(usize, u32)> = Vec::new();
        for at in 0..n {
            laid.nesting[at] = open.len() + 1;
            if let Some(&(parent, _)) = open.last() {
                let own = u32::from(kind(words[parent]) == ABSTRACTION);
                laid.above[at] = laid.above[parent] + own;
            }
            open.push((at, count(words[at])));
            while let Some(&(done, 0)) = open.last() {
                laid.end[done] = at + 1;
                open.pop();
                if let Some((_, missing)) = open.last_mut() {
                    *missing -= 1;
                }
            }
        }
        laid
    }

    pub fn len(&self) -> usize {
        self.words.len()
    }

    pub fn is_empty(&self) -> bool {
        self.words.is_empty()
    }

    /// The offsets of a node's children, in order.
    pub fn children(&self, at: usize) -> Vec<usize> {
        let mut found = Vec::new();
        let mut child = at + 1;
        for _ in 0..count(self.words[at]) {
            found.push(child);
            child = self.end[child];
        }
        found
    }
}
