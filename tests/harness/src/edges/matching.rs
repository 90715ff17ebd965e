//! Matching one rule: document 01's marked terms rule by rule, and the edges of matching.

use super::words::{book, book_a, book_b, bush, chain, rungs, wide, words, Rule};
use super::{clear, edge, fits, flat, Edge, Told, BAD_BOOK, BAD_TERM, NONE_FITS, NO_ROOM, NO_RULE};
use crate::case::Case;

fn matched(name: impl Into<String>, book: &[u32], rule: u32, term: &[u32], room: usize, told: Told) -> Edge {
    edge(name, Case::MatchRule { book: book.to_vec(), rule, term: term.to_vec(), room }, told)
}

/// The one body of a rule that fits, or none.
fn one(body: Option<&str>) -> Told {
    body.map_or_else(|| clear(NONE_FITS, 0), |body| fits(&[words(body)]))
}

/// A marked term, and for each rule of its book the body with which it fits.
type Marked<'a> = (&'a str, &'a str, &'a [Option<&'a str>]);

const A: [Marked; 6] = [
    ("P1", "s2.2 s7.0 s7.0", &[Some("s7.0"), None, None]),
    ("P2", "s2.2 s7.0 s8.0", &[None, None, None]),
    ("P3", "s3.1 l v2", &[None, Some("v1"), None]),
    ("P4", "s3.1 l v1", &[None, None, None]),
    ("P5", "s3.1 l s4.1 v1", &[None, None, Some("v1")]),
    ("P6", "s3.1 l s4.1 s7.0", &[None, Some("s4.1 s7.0"), Some("s7.0")]),
];

const B: [Marked; 4] = [
    ("P7", "s6.2 l v1 l l v2", &[Some("v1")]),
    ("P8", "s6.2 l v1 l l v1", &[None]),
    ("P9", "s6.2 l v2 l l v3", &[Some("v2")]),
    ("P10", "s6.2 l v2 l l v2", &[None]),
];

fn marked(book: &[u32], table: &[Marked]) -> Vec<Edge> {
    let mut edges = Vec::new();
    for &(mark, term, rules) in table {
        for (number, &body) in rules.iter().enumerate() {
            edges.push(matched(format!("{mark} {term} by rule {number}"), book, number as u32, &words(term), 3, one(body)));
        }
    }
    edges
}

fn refusals() -> Vec<Edge> {
    let a = book_a();
    let refused = |name: &str, book: &[u32], rule, term: &str, number, at| matched(name, book, rule, &words(term), 3, clear(number, at));
    vec![
        refused("a book with a word after it", &[0, 0], 0, "s0.0", BAD_BOOK, 0),
        refused("a rule number out of range", &a, 3, "s0.0", NO_RULE, 3),
        refused("the largest rule number", &a, u32::MAX, "s0.0", NO_RULE, u64::from(u32::MAX)),
        refused("no such rule, and a bad term", &a, 3, "v0", NO_RULE, 3),
        refused("a bad term", &a, 0, "s2.2 s0.0 v0", BAD_TERM, 2),
        refused("a term with a pattern variable", &a, 0, "s2.2 m0.0 m0.0", BAD_TERM, 1),
    ]
}

/// Two variables: one under four abstractions with all of them in its list, one under two with none.
fn counts() -> Vec<Edge> {
    let book = book(&[(2, "s5.2 l l l l m0.4 v4 v2 v3 v1 l l m1.0", "s0.0")]);
    let term = words("s5.2 l l l l s0.2 v4 v6 l l v3");
    let bodies = || fits(&[words("s0.2 v1 v6"), words("v1")]);
    let open = words("s5.2 l l l l v1 l l v2");
    vec![
        matched("counts 4 and 0", &book, 0, &term, 5, bodies()),
        matched("counts 4 and 0, output exact", &book, 0, &term, 4, bodies()),
        matched("counts 4 and 0, output one short", &book, 0, &term, 3, clear(NO_ROOM, 0)),
        matched("a part that mentions a loop's stop", &book, 0, &open, 3, clear(NONE_FITS, 0)),
    ]
}

/// Sixteen variables: fourteen below the root, and two below its last child.
const SIXTEEN: Rule = (16, "s0.15 m0.0 m1.0 m2.0 m3.0 m4.0 m5.0 m6.0 m7.0 m8.0 m9.0 m10.0 m11.0 m12.0 m13.0 s1.2 m14.0 m15.0", "s0.0");

fn variables() -> Vec<Edge> {
    let book = book(&[SIXTEEN]);
    let leaves: Vec<u32> = (20..36).collect();
    let term = [words("s0.15"), leaves[..14].to_vec(), words("s1.2"), leaves[14..].to_vec()].concat();
    let bodies: Vec<Vec<u32>> = leaves.iter().map(|&leaf| vec![leaf]).collect();
    vec![matched("16 variables", &book, 0, &term, 17, fits(&bodies))]
}

/// Where the parts of a term end is told by the lengths of two bodies.
fn parts() -> Vec<Edge> {
    let book = book(&[(2, "s1.2 m0.0 m1.0", "s0.0")]);
    let over = |name: &str, first: Vec<u32>, second: Vec<u32>| {
        let term = [words("s1.2"), first.clone(), second.clone()].concat();
        matched(name, &book, 0, &term, 4_095, fits(&[first, second]))
    };
    // The two parts and the root are 4,096 words.
    let large = [&wide(3)[..4_050], &bush(0, 3)].concat();
    vec![
        over("parts of one word", words("v65535"), words("s7.0")),
        over("a part of 4,054 words and one of 41", large, rungs(41, 7)),
        over("parts of nesting 63", chain(63), chain(63)),
        over("parts in parts", words("s0.2 s0.1 s7.0 l v1"), words("s0.2 l v1 s0.1 s7.0")),
    ]
}

pub fn edges() -> Vec<Edge> {
    flat([marked(&book_a(), &A), marked(&book_b(), &B), refusals(), counts(), variables(), parts()])
}
