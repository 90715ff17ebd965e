//! Rules for a front part of the arguments: what fits and how many arguments are set aside, which rule wins, and wrong numbers in a tree.

use second::gen;

use super::renumbering::{body, both_ways, one_rule};
use super::words::{book, words, Rule};
use super::{clear, done, edge, fits, flat, Edge, Told, DAMAGED, NONE_FITS, NO_ROOM};
use crate::case::Case;

/// A symbol with so many leaves.
pub fn with_leaves(id: u32, count: usize) -> String {
    format!("s{id}.{count}{}", " s7.0".repeat(count))
}

/// A term, and the arguments set aside with the body where a rule fits.
type Front<'a> = (&'a str, Option<(u32, &'a str)>);

/// Terms by the one rule of a book with one variable, and by the tree.
fn by_left(left: &str, terms: &[Front]) -> Vec<Edge> {
    let told = |found: Option<(u32, &str)>| {
        let aside = found.map_or(0, |(aside, _)| aside);
        body(found.map(|(_, body)| body)).aside(aside)
    };
    let edges = |&(term, found): &Front| both_ways(&format!("{term} by {left}"), &one_rule(left), term, 3, || told(found));
    terms.iter().flat_map(edges).collect()
}

fn fronts() -> Vec<Edge> {
    let single = [
        ("s2.0", None),
        ("s2.1 s7.0", Some((0, "s7.0"))),
        ("s2.2 s7.0 s8.0", Some((1, "s7.0"))),
        ("s2.3 s4.1 v3 l v1 v2", Some((2, "s4.1 v3"))),
        ("s2.15 v5 v1 v1 v1 v1 v1 v1 v1 v1 v1 v1 v1 v1 v1 v1", Some((14, "v5"))),
        ("s3.2 s7.0 s8.0", None),
        ("l s7.0", None),
    ];
    let inside = [
        ("s3.1 s2.1 s7.0", Some((0, "s7.0"))),
        ("s3.1 s2.2 s7.0 s8.0", None),
        ("s3.1 s2.0", None),
        ("s3.2 s2.1 s7.0 s8.0", Some((1, "s7.0"))),
        ("s3.2 s2.2 s7.0 s8.0 s9.0", None),
    ];
    let both = [("s2.2 s2.1 s7.0 s8.0", Some((1, "s7.0"))), ("s2.1 s2.2 s7.0 s8.0", None)];
    flat([by_left("s2.1 m0.0", &single), by_left("s3.1 s2.1 m0.0", &inside), by_left("s2.1 s2.1 m0.0", &both)])
}

/// What is set aside is not asked.
fn asked() -> Vec<Edge> {
    let same = [("s2.3 s7.0 s7.0 s8.0", Some((1, "s7.0"))), ("s2.3 s7.0 s8.0 s7.0", None), ("s2.3 s7.0 s8.0 s8.0", None)];
    let closed = [("s3.2 l v2 l v1", Some((1, "v1"))), ("s3.2 l v1 l v2", None)];
    flat([by_left("s2.2 m0.0 m0.0", &same), by_left("s3.1 l m0.0", &closed)])
}

/// No argument of the left side, and all 15.
fn counts() -> Vec<Edge> {
    let leaf = book(&[(0, "s2.0", "s0.0")]);
    let full = book(&[(0, &with_leaves(2, 15), "s0.0")]);
    let found = |name: &str, book: &[u32], term: &str, aside| both_ways(name, book, term, 3, || fits(&[]).aside(aside));
    let none = |name: &str, book: &[u32], term: &str| both_ways(name, book, term, 3, || clear(NONE_FITS, 0));
    flat([
        found("no argument, and none set aside", &leaf, "s2.0", 0),
        found("no argument, and 15 set aside", &leaf, &with_leaves(2, 15), 15),
        none("no argument, and a variable", &leaf, "v2"),
        found("15 arguments, and none set aside", &full, &with_leaves(2, 15), 0),
        none("15 arguments, and 14 in the term", &full, &with_leaves(2, 14)),
    ])
}

fn rooms() -> Vec<Edge> {
    let with_room = |name: &str, room, told: &dyn Fn() -> Told| both_ways(name, &one_rule("s2.1 m0.0"), "s2.2 s4.1 s7.0 s8.0", room, told);
    flat([
        with_room("one set aside, output exact", 2, &|| body(Some("s4.1 s7.0")).aside(1)),
        with_room("one set aside, output one short", 1, &|| clear(NO_ROOM, 0)),
    ])
}

const PAIR: Rule = (1, "s2.2 m0.0 m0.0", "m0.0");
const SINGLE: Rule = (1, "s2.1 m0.0", "m0.0");

/// A term, and the rule that wins with the number set aside.
type Won<'a> = (&'a str, Option<(u32, u32)>);

/// Each rule is asked too: the one that wins fits, and none before it does.
fn winners(name: &str, rules: &[Rule], terms: &[Won]) -> Vec<Edge> {
    let book = book(rules);
    let tree = gen::compiled(&book);
    let mut edges = Vec::new();
    for &(text, won) in terms {
        let term = words(text);
        let told = |aside| fits(&[words("s7.0")]).aside(aside);
        let none = || clear(NONE_FITS, 0);
        let by_tree = won.map_or_else(none, |(rule, aside)| told(aside).further(rule));
        edges.push(edge(format!("{text} by {name}"), Case::MatchTree { tree: tree.clone(), term: term.clone(), room: 3 }, by_tree));
        let last = won.map_or(rules.len() as u32 - 1, |(rule, _)| rule);
        for rule in 0..=last {
            let by_rule = won.filter(|won| won.0 == rule).map_or_else(none, |(_, aside)| told(aside));
            let case = Case::MatchRule { book: book.clone(), rule, term: term.clone(), room: 3 };
            edges.push(edge(format!("{text} by {name}, rule {rule}"), case, by_rule));
        }
    }
    edges
}

fn lowest() -> Vec<Edge> {
    let fewer_after: [Won; 6] = [
        ("s2.0", None),
        ("s2.1 s7.0", Some((1, 0))),
        ("s2.2 s7.0 s7.0", Some((0, 0))),
        ("s2.2 s7.0 s8.0", Some((1, 1))),
        ("s2.3 s7.0 s7.0 s8.0", Some((0, 1))),
        ("s2.3 s7.0 s8.0 s8.0", Some((1, 2))),
    ];
    let fewer_before: [Won; 3] = [("s2.1 s7.0", Some((0, 0))), ("s2.2 s7.0 s7.0", Some((0, 1))), ("s2.3 s7.0 s7.0 s8.0", Some((0, 2)))];
    flat([
        winners("the rule for fewer arguments after", &[PAIR, SINGLE], &fewer_after),
        winners("the rule for fewer arguments before", &[SINGLE, PAIR], &fewer_before),
    ])
}

/// A tree that is a Leaf of rule 0 without variables.
fn leaf(aside: u32) -> Vec<u32> {
    vec![1, 0, 0, aside]
}

/// Without a book: at most the count of the root's word, whatever its kind.
fn damaged_alone() -> Vec<Edge> {
    let mut edges = Vec::new();
    for (term, count) in [("s3.0", 0), ("s3.2 s7.0 s8.0", 2), (&with_leaves(3, 15), 15), ("l s7.0", 1), ("v1", 0)] {
        let mut over = |aside, told: Told| {
            edges.push(edge(
                format!("a Leaf with {aside} set aside, over {term}"),
                Case::MatchTree { tree: leaf(aside), term: words(term), room: 3 },
                told.visits(1),
            ));
        };
        over(count, fits(&[]).further(0).aside(count));
        over(count + 1, clear(DAMAGED, 0));
        over(u32::MAX, clear(DAMAGED, 0));
    }
    let entered = |name: &str, aside, told: Told| {
        let tree = words(&format!("2 0 1 s3.2 6 6 2 1 1 s7.0 12 12 1 5 0 {aside}"));
        edge(name, Case::MatchTree { tree, term: words("s3.2 s7.0 s8.0"), room: 3 }, told.visits(3))
    };
    edges.extend([
        entered("two of two set aside, below an entered part", 2, fits(&[]).further(5).aside(2)),
        entered("three of two set aside, below an entered part", 3, clear(DAMAGED, 12)),
    ]);
    edges
}

/// With a book: the count of the root's word, whatever its kind, less the count of the left side.
fn damaged_by_book() -> Vec<Edge> {
    let two = book(&[(0, "s3.2 s7.0 s7.0", "s9.0")]);
    let none = book(&[(0, "s3.0", "s9.0")]);
    let by_leaf = |name: &str, book: &[u32], aside, term: &str, told: Told| {
        edge(name, Case::RewriteRoot { book: book.to_vec(), tree: leaf(aside), term: words(term), room: 3 }, told.visits(1))
    };
    let bad = |name: &str, book: &[u32], aside, term: &str| by_leaf(name, book, aside, term, clear(DAMAGED, 0));
    let three = "s3.3 s7.0 s7.0 s8.0";
    vec![
        by_leaf("one of three set aside, of a rule with two", &two, 1, three, done(words("s9.1 s8.0"))),
        bad("none of three set aside, of a rule with two", &two, 0, three),
        bad("two of three set aside, of a rule with two", &two, 2, three),
        bad("four of three set aside, of a rule with two", &two, 4, three),
        bad("fewer arguments than the rule, none set aside", &two, 0, "s3.1 s7.0"),
        bad("fewer arguments than the rule, one set aside", &two, 1, "s3.1 s7.0"),
        bad("fewer arguments than the rule, one less than none set aside", &two, u32::MAX, "s3.1 s7.0"),
        bad("an abstraction, none set aside", &none, 0, "l v1"),
        by_leaf("an abstraction, one set aside", &none, 1, "l v1", done(words("s9.1 v1"))),
        by_leaf("a variable, none set aside", &none, 0, "v1", done(words("s9.0"))),
        bad("a variable, one set aside", &none, 1, "v1"),
        bad("a variable, of a rule with two", &two, 0, "v1"),
    ]
}

/// In simplifying too, where each offset is walked: below `s5`, the Leaf sets one argument of `s3` aside.
fn damaged_in_steps() -> Vec<Edge> {
    let book = book(&[(0, "s3.1 s7.0", "s9.0")]);
    let tree = words("2 0 4 s3.1 12 s3.2 16 s3.3 16 0 20 20 1 0 0 0 1 0 0 1 0");
    let by_tree = |name: &str, term: &str, told| {
        edge(name, Case::Simplify { book: book.clone(), tree: tree.clone(), term: words(term), budget: 9, room: 9 }, told)
    };
    let new = done(words("s5.2 s9.0 s9.1 s8.0")).further(2).visits(4 + 6 + 8);
    vec![
        by_tree("one of two set aside, after none of one", "s5.2 s3.1 s7.0 s3.2 s7.0 s8.0", new),
        by_tree(
            "one of three set aside, after none of one",
            "s5.2 s3.1 s7.0 s3.3 s7.0 s8.0 s8.0",
            clear(DAMAGED, 16).further(1).visits(4 + 6),
        ),
    ]
}

pub fn edges() -> Vec<Edge> {
    flat([fronts(), asked(), counts(), rooms(), lowest(), damaged_alone(), damaged_by_book(), damaged_in_steps()])
}
