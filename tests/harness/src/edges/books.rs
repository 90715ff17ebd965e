//! The check of a book: how many rules, how long and how deep their sides, and lists that are none.

use super::words::{book, bush, chain, rule};
use super::{answer, clear, edge, flat, Edge, BAD_BOOK};
use crate::case::Case;
use second::words::symbol;

fn good(name: &str, book: Vec<u32>) -> Edge {
    edge(name, Case::CheckBook { book }, answer(rosenduch::DONE, 0))
}

fn bad(name: &str, book: Vec<u32>, at: u64) -> Edge {
    edge(name, Case::CheckBook { book }, clear(BAD_BOOK, at))
}

/// So many rules that turn a leaf into a leaf, of five words each.
fn leaves(rules: u32) -> Vec<u32> {
    let mut out = vec![rules];
    (0..rules).for_each(|_| out.extend(rule(0, &[0], &[0])));
    out
}

fn rules() -> Vec<Edge> {
    vec![
        bad("no words", Vec::new(), 0),
        good("no rules", vec![0]),
        bad("no rules and a word after them", vec![0, 0], 0),
        good("64 rules of leaves", leaves(64)),
        bad("65 rules of leaves", leaves(65), 64),
        bad("64 rules without the last word", leaves(64)[..320].to_vec(), 63),
        bad("64 rules and a word after them", [leaves(64), vec![0]].concat(), 64),
    ]
}

/// A book with one rule, whose right side is a leaf.
fn with_left(left: Vec<u32>) -> Vec<u32> {
    [vec![1], rule(0, &left, &[0])].concat()
}

fn bushes(children: u32, leaves: u32) -> Vec<u32> {
    with_left([vec![symbol(0, children)], bush(0, leaves).repeat(children as usize)].concat())
}

fn sides() -> Vec<Edge> {
    vec![
        good("64 words in a left side", bushes(9, 6)),
        bad("65 words in a left side", bushes(8, 7), 0),
        good("a left side of nesting 16", with_left(chain(16))),
        bad("a left side of nesting 17", with_left(chain(17)), 0),
    ]
}

fn lists() -> Vec<Edge> {
    let left = |left: &str| book(&[(1, left, "s0.0")]);
    vec![
        good("the list 1 under one abstraction", left("s3.1 l m0.1 v1")),
        bad("the list 2 under one abstraction", left("s3.1 l m0.1 v2"), 0),
        bad("the list 1 1 under two abstractions", left("s3.1 l l m0.2 v1 v1"), 0),
        good("four ids under five abstractions", left("s3.1 l l l l l m0.4 v5 v3 v2 v1")),
        bad("five ids under five abstractions", left("s3.1 l l l l l m0.5 v1 v2 v3 v4 v5"), 0),
    ]
}

pub fn edges() -> Vec<Edge> {
    flat([rules(), sides(), lists()])
}
