//! Rewriting at the root: what is written, and each refusal. Simplifying has its small books from here.

use second::gen;

use super::words::{book, book_a, words, Rule};
use super::{clear, done, edge, flat, Edge, Told, BAD_TERM, DAMAGED, NONE_FITS, NO_ROOM, OVER};
use crate::case::Case;

/// Each step doubles a part.
pub const DOUBLE: Rule = (1, "s1.1 m0.0", "s3.2 m0.0 m0.0");

/// What the part names outside is one further away.
pub const UNDER: Rule = (1, "s1.1 m0.0", "l m0.0");

/// Two steps, one after the other.
pub const CHAIN: [Rule; 2] = [(0, "s1.0", "s2.0"), (0, "s2.0", "s3.0")];

/// A tree for them, whose node for `s3.0` has a tag of 9.
pub const CRACKED: &str = "2 0 3 s1.0 10 s2.0 14 s3.0 18 19 1 0 0 0 1 1 0 0 9 0";

/// The tree of a book, with zeros after it.
pub fn tree_and_zeros(book: &[u32]) -> Vec<u32> {
    [gen::compiled(book), vec![0; 13]].concat()
}

fn at_root(name: &str, book: &[u32], term: &str, room: usize, told: Told) -> Edge {
    edge(name, Case::RewriteRoot { book: book.to_vec(), tree: tree_and_zeros(book), term: words(term), room }, told)
}

fn rewritten() -> Vec<Edge> {
    let a = book_a();
    let to = |name: &str, book: &[u32], term: &str, new: &str, visits| at_root(name, book, term, 5, done(words(new)).visits(visits));
    vec![
        to("s3.1 l s4.1 v1", &a, "s3.1 l s4.1 v1", "s4.1 s3.1 l v1", 5),
        to("s3.1 l s4.1 s7.0 by the lower rule", &a, "s3.1 l s4.1 s7.0", "s4.1 s7.0", 4),
        to("s1.1 v1 under a new abstraction", &book(&[UNDER]), "s1.1 v1", "l v2", 2),
        to("a part put twice", &book(&[DOUBLE]), "s1.1 s7.0", "s3.2 s7.0 s7.0", 2),
    ]
}

fn refusals() -> Vec<Edge> {
    let (under, double, chain) = (book(&[UNDER]), book(&[DOUBLE]), book(&CHAIN));
    let refused = |name: &str, book: &[u32], term: &str, number, at, visits| at_root(name, book, term, 2, clear(number, at).visits(visits));
    let cracked = Case::RewriteRoot { book: chain, tree: words(CRACKED), term: words("s3.0"), room: 2 };
    vec![
        refused("no rule fits", &book_a(), "s7.0", NONE_FITS, 0, 2),
        refused("over id 65,535", &under, "s1.1 v65535", OVER, 0, 2),
        refused("one word short", &double, "s1.1 s7.0", NO_ROOM, 0, 2),
        refused("a bad term", &double, "s1.1", BAD_TERM, 1, 0),
        edge("a damaged tree", cracked, clear(DAMAGED, 18).visits(2)),
    ]
}

pub fn edges() -> Vec<Edge> {
    flat([rewritten(), refusals()])
}
