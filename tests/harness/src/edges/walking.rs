//! Matching by the tree: document 01's marked terms, by the trees that it gives.

use second::gen;

use super::compiling::{tree_a, tree_b};
use super::words::{book, words};
use super::{clear, edge, fits, Edge, BAD_TERM, NONE_FITS};
use crate::case::Case;

/// A marked term, the rule with its body where one fits, and the nodes visited.
type Marked<'a> = (&'a str, &'a str, Option<(u32, &'a str)>, u64);

/// The root Switch and Same, or a Switch, Closed and perhaps a Switch below it; then a Leaf or a Fail.
const A: [Marked; 6] = [
    ("P1", "s2.2 s7.0 s7.0", Some((0, "s7.0")), 3),
    ("P2", "s2.2 s7.0 s8.0", None, 3),
    ("P3", "s3.1 l v2", Some((1, "v1")), 4),
    ("P4", "s3.1 l v1", None, 5),
    ("P5", "s3.1 l s4.1 v1", Some((2, "v1")), 5),
    ("P6", "s3.1 l s4.1 s7.0", Some((1, "s4.1 s7.0")), 4),
];

/// Four Switches, Closed and, where it says yes, Same; then a Leaf or a Fail.
const B: [Marked; 4] = [
    ("P7", "s6.2 l v1 l l v2", Some((0, "v1")), 7),
    ("P8", "s6.2 l v1 l l v1", None, 6),
    ("P9", "s6.2 l v2 l l v3", Some((0, "v2")), 7),
    ("P10", "s6.2 l v2 l l v2", None, 7),
];

/// Book A with rules 1 and 2 exchanged: the inner Switch comes before Closed.
const EXCHANGED: [Marked; 3] = [
    ("P3, rules 1 and 2 exchanged,", "s3.1 l v2", Some((2, "v1")), 5),
    ("P5, rules 1 and 2 exchanged,", "s3.1 l s4.1 v1", Some((1, "v1")), 4),
    ("P6, rules 1 and 2 exchanged,", "s3.1 l s4.1 s7.0", Some((1, "s7.0")), 4),
];

fn marked(tree: &[u32], table: &[Marked]) -> Vec<Edge> {
    let walked = |&(mark, term, found, visits): &Marked| {
        let told = found.map_or_else(|| clear(NONE_FITS, 0), |(rule, body)| fits(&[words(body)]).further(rule));
        edge(format!("{mark} {term}"), Case::MatchTree { tree: tree.to_vec(), term: words(term), room: 3 }, told.visits(visits))
    };
    table.iter().map(walked).collect()
}

fn refusals() -> Vec<Edge> {
    let bad = |name: &str, tree: Vec<u32>, term: &str, at| {
        edge(name, Case::MatchTree { tree, term: words(term), room: 3 }, clear(BAD_TERM, at).visits(0))
    };
    vec![bad("a bad term", tree_a(), "s2.2 s7.0 v0", 2), bad("a bad term, and a damaged tree", vec![5], "s2.2 s7.0", 2)]
}

pub fn edges() -> Vec<Edge> {
    let with_zeros = [tree_b(), vec![0; 51]].concat();
    let exchanged = book(&[(1, "s2.2 m0.0 m0.0", "m0.0"), (1, "s3.1 l s4.1 m0.1 v1", "s4.1 s3.1 l m0.1 v1"), (1, "s3.1 l m0.0", "m0.0")]);
    let mut edges = marked(&tree_a(), &A);
    edges.extend(marked(&with_zeros, &B));
    edges.extend(marked(&gen::compiled(&exchanged), &EXCHANGED));
    edges.extend(refusals());
    edges
}
