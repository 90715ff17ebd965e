//! Damaged nodes below others: each kind of document 01's "Walking" at the third node of a walk, and the nodes visited up to it.

use super::compiling::subtree;
use super::words::{book, words, Rule};
use super::{clear, edge, fits, Edge, DAMAGED, NONE_FITS};
use crate::case::Case;

/// A damaged node's kind and its words, where a token `+n` is the address n words after its first.
type Damage<'a> = (&'a str, &'a str);

/// The way to the node: the root Switch, which sends all but `s5.2` to a Fail, and the Switch for the abstraction. Four places are uncovered then,
/// of which 0 and 1 are entered; 2 has `s7.0` and 3 has `v1` under one abstraction.
const WAY: &str = "2 0 1 s5.2 7 6 0 2 1 1 l 13 13";
const NODE: u32 = 13;
const TERM: &str = "s5.2 l v1 s7.0";

/// The term behind three offsets that are sent to the Fail.
const WITHIN: &str = "s0.2 l v1 s5.2 l v1 s7.0";

/// The left side fits the term; a Leaf that fits the book is `1 0 1 0 3 1 1`.
const FITTING: Rule = (1, "s5.2 l m0.1 v1 s7.0", "s9.0");

const SWITCHES: [Damage; 9] = [
    ("a tag of 5", "5"),
    ("a Switch cut short", "2 2 1 s5.2 +6"),
    ("a Switch at a place not uncovered", "2 4 0 +4 0"),
    ("a default that is not later", "2 2 0 +0"),
    ("a default outside", "2 2 0 +4"),
    ("a case that is not later", "2 2 1 s7.0 +0 +6 0"),
    ("a case outside", "2 2 1 s7.0 +7 +6 0"),
    ("the root entered twice", "2 0 1 s5.2 +6 +6 0"),
    ("a part entered twice", "2 1 1 l +6 +6 0"),
];

const LEAVES: [Damage; 13] = [
    ("a Leaf cut short", "1 0 0"),
    ("a Leaf without a list's words", "1 0 1 0 3 1"),
    ("a rule of 64", "1 64 1 0 3 1 1"),
    ("17 variables", "1 0 17 0 2 0 2 0 2 0 2 0 2 0 2 0 2 0 2 0 2 0 2 0 2 0 2 0 2 0 2 0 2 0 2 0 2 0"),
    ("a Leaf with a place not uncovered", "1 0 1 0 4 0"),
    ("a Leaf with a list of 5", "1 0 1 0 3 5 1 2 3 4 5"),
    ("a Leaf with the id 0", "1 0 1 0 3 1 0"),
    ("a Leaf with an id outside", "1 0 1 0 3 1 2"),
    ("a Leaf with an id twice", "1 0 1 0 3 2 1 1"),
    ("a part with no body", "1 0 1 0 3 0"),
    ("a second part with no body", "1 0 2 0 2 0 3 0"),
    ("three of two set aside", "1 0 1 3 3 1 1"),
    ("the largest number set aside", "1 0 1 4294967295 3 1 1"),
];

const TESTS: [Damage; 16] = [
    ("Closed cut short", "3 3 1 1 +6"),
    ("Closed at a place not uncovered", "3 4 0 +5 +5 0"),
    ("Closed with a list of 5", "3 3 5 1 1 1 1 1 +10 +10 0"),
    ("Closed with an id outside", "3 3 1 2 +6 +6 0"),
    ("Closed with an id twice", "3 3 2 1 1 +7 +7 0"),
    ("Closed, with a yes that is not later", "3 3 1 1 +0 +6 0"),
    ("Closed, with a yes outside", "3 3 1 1 +7 +6 0"),
    ("Closed, with a no that is not later", "3 3 0 +5 +0 0"),
    ("Closed, with a no outside", "3 3 0 +5 +6 0"),
    ("Same cut short", "4 2 2 0 +6"),
    ("Same with a place not uncovered", "4 2 4 0 +6 +6 0"),
    ("Same with lists of 5", "4 3 3 5 1 1 1 1 1 1 1 1 1 1 +16 +16 0"),
    ("Same with an id outside in the first list", "4 3 3 1 2 1 +8 +8 0"),
    ("Same with an id outside in the later list", "4 3 3 1 1 2 +8 +8 0"),
    ("Same, with a yes that is not later", "4 2 2 0 +0 +6 0"),
    ("Same, with a no outside", "4 2 3 0 +6 +7 0"),
];

/// Damage by the book alone: a rule that is not there, other counts, another number of variables, another number set aside.
const BY_BOOK: [Damage; 5] = [
    ("a rule that the book has not", "1 1 1 0 3 1 1"),
    ("another number of variables", "1 0 0 0"),
    ("a variable more", "1 0 2 0 3 1 1 2 0"),
    ("another count", "1 0 1 0 2 0"),
    ("another number set aside", "1 0 1 1 3 1 1"),
];

/// The tree with the node at the end of the way.
fn with_node(node: &str) -> Vec<u32> {
    [words(WAY), subtree(NODE, node)].concat()
}

/// The node is the third of a match and of rewriting at the root. Over the longer term three offsets come first, with 2 nodes each.
fn at_node(&(name, node): &Damage) -> Vec<Edge> {
    let (tree, book) = (with_node(node), book(&[FITTING]));
    let name = format!("the third node, {name}");
    let told = |visits| clear(DAMAGED, NODE.into()).visits(visits);
    let root = Case::RewriteRoot { book: book.clone(), tree: tree.clone(), term: words(TERM), room: 9 };
    let all = Case::Simplify { book, tree, term: words(WITHIN), budget: 9, room: 9 };
    vec![edge(name.clone(), root, told(3)), edge(name, all, told(3 * 2 + 3))]
}

/// Without a book too.
fn at_node_alone(damage: &Damage) -> Edge {
    let case = Case::MatchTree { tree: with_node(damage.1), term: words(TERM), room: 9 };
    edge(format!("the third node, {}", damage.0), case, clear(DAMAGED, NODE.into()).visits(3))
}

/// Every kind of damage, the node before it where the address is none, and the way where it is sound.
pub fn edges() -> Vec<Edge> {
    let without_book: Vec<_> = SWITCHES.iter().chain(&LEAVES).chain(&TESTS).collect();
    let mut edges: Vec<_> = without_book.iter().copied().map(at_node_alone).collect();
    edges.extend(without_book.into_iter().chain(&BY_BOOK).flat_map(at_node));
    let by_way = |name: &str, node: &str, told| edge(name, Case::MatchTree { tree: with_node(node), term: words(TERM), room: 9 }, told);
    edges.extend([
        by_way("the second node, an address behind the tree", "", clear(DAMAGED, 7).visits(2)),
        by_way("the third node, a Leaf that fits", "1 0 1 0 3 1 1", fits(&[words("v1")]).further(0).visits(3)),
        by_way("the third node, a rule that only the book has not", "1 1 1 0 3 1 1", fits(&[words("v1")]).further(1).visits(3)),
        by_way("the third node, a Fail", "0", clear(NONE_FITS, 0).visits(3)),
    ]);
    edges
}
