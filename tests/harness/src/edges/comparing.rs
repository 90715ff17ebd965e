//! Comparing two parts, as a variable that occurs twice shows it, and the Same test of a tree by hand.

use super::renumbering::{body, both_ways, one_rule, YES};
use super::words::words;
use super::{clear, edge, fits, flat, Edge, BAD_TERM, NONE_FITS};
use crate::case::Case;

/// Nodes with one child, down to a leaf.
fn chain(nesting: usize, leaf: &str) -> String {
    format!("{}{leaf}", "s0.1 ".repeat(nesting - 1))
}

/// Parts that nest as deep as they may, and one level deeper.
fn deep() -> Vec<Edge> {
    let book = one_rule("s2.2 m0.0 m0.0");
    let part = chain(63, "s0.0");
    let twice = |name: &str, first: &str, later: &str, found: Option<&str>| {
        both_ways(name, &book, &format!("s2.2 {first} {later}"), 63, || body(found))
    };
    let over = chain(64, "s0.0");
    let over = both_ways("a part twice, in nesting 65", &book, &format!("s2.2 {over} {over}"), 64, || clear(BAD_TERM, 64));
    flat([
        twice("a part twice, in nesting 64", &part, &part, Some(&part)),
        twice("parts that differ in the last word, in nesting 64", &part, &chain(63, "s1.0"), None),
        twice("parts whose last words are v1 and v2, in nesting 64", &chain(63, "v1"), &chain(63, "v2"), None),
        over,
    ])
}

/// Book B's variable over parts with so many abstractions of their own: with 60 the later part ends in nesting 64.
fn deep_abstractions() -> Vec<Edge> {
    let book = one_rule("s6.2 l m0.1 v1 l l m0.1 v2");
    let term = |own: usize, first: u32, later: u32| {
        let own = "l ".repeat(own);
        format!("s6.2 l {own}v{first} l l {own}v{later}")
    };
    let under = |first, later, found: Option<u32>| {
        let name = format!("v{first} and v{later} under 60 abstractions of the parts' own");
        let found = found.map(|id| format!("{}v{id}", "l ".repeat(60)));
        both_ways(&name, &book, &term(60, first, later), 61, || body(found.as_deref()))
    };
    let over = both_ways("61 abstractions of the parts' own, in nesting 65", &book, &term(61, 62, 63), 62, || clear(BAD_TERM, 127));
    flat([
        under(60, 60, Some(60)),
        under(61, 62, Some(61)),
        under(62, 63, Some(62)),
        under(60, 61, None),
        under(61, 61, None),
        under(62, 62, None),
        over,
    ])
}

/// The place of an id in its list counts, not the id.
fn lists() -> Vec<Edge> {
    let crossed = one_rule("s6.2 l l m0.2 v2 v1 l l m0.2 v1 v2");
    let four = one_rule("s6.2 l l l l m0.4 v1 v2 v3 v4 l l l l m0.4 v4 v3 v2 v1");
    let by = |name: &str, book: &[u32], term: &str, found: Option<&str>| both_ways(name, book, term, 4, || body(found));
    flat([
        by("the lists 2 1 and 1 2", &crossed, "s6.2 l l s0.2 v1 v2 l l s0.2 v2 v1", Some("s0.2 v2 v1")),
        by("the lists 2 1 and 1 2, one id", &crossed, "s6.2 l l v1 l l v1", None),
        by("the fourth of four ids", &four, "s6.2 l l l l v4 l l l l v1", Some("v4")),
        by("the fourth of four ids and the first", &four, "s6.2 l l l l v4 l l l l v4", None),
        by("an id outside four", &four, "s6.2 l l l l v5 l l l l v5", Some("v5")),
    ])
}

/// A part under so many abstractions, with a list.
type Part<'a> = (u32, &'a [u32], &'a str);

/// A tree that goes down `s6.2` and the abstractions around two parts, and asks there whether their bodies are the same.
fn asks_same(first: &Part, later: &Part) -> Vec<u32> {
    let mut entered = vec![(0, words("s6.2")[0])];
    let mut places = [1, 2];
    let mut uncovered = 3;
    for (place, part) in places.iter_mut().zip([first, later]) {
        for _ in 0..part.0 {
            entered.push((*place, words("l")[0]));
            *place = uncovered;
            uncovered += 1;
        }
    }
    let k = first.1.len() as u32;
    let test = 6 * entered.len() as u32;
    let (fail, leaf) = (test + 6 + 2 * k, test + 7 + 2 * k);
    let mut tree = Vec::new();
    for (&(place, head), next) in entered.iter().zip(1..) {
        tree.extend([2, place, 1, head, 6 * next, fail]);
    }
    tree.extend([4, places[0], places[1], k]);
    tree.extend(first.1);
    tree.extend(later.1);
    tree.extend([leaf, fail, 0, 1, YES, 0, 0]);
    tree
}

fn asked(name: &str, first: Part, later: Part, same: bool) -> Edge {
    let below = |&(d, _, part): &Part| format!("{}{part}", "l ".repeat(d as usize));
    let term = words(&format!("s6.2 {} {}", below(&first), below(&later)));
    let told = if same { fits(&[]).further(YES) } else { clear(NONE_FITS, 0) };
    let name = format!("asks whether two parts are the same: {name}");
    edge(name, Case::MatchTree { tree: asks_same(&first, &later), term, room: 3 }, told)
}

/// No Closed test comes first here, so parts that have no body are compared as well.
fn by_hand() -> Vec<Edge> {
    vec![
        asked("two parameters", (1, &[1], "v1"), (3, &[2], "v2"), true),
        asked("two ids outside", (1, &[1], "v2"), (3, &[2], "v4"), true),
        asked("an id outside and a parameter", (1, &[1], "v2"), (3, &[2], "v2"), false),
        asked("a parameter and an id outside", (1, &[1], "v1"), (3, &[2], "v4"), false),
        asked("an id outside, and one under an abstraction", (0, &[], "v1"), (1, &[], "v2"), true),
        asked("an id outside, and one that is not closed", (0, &[], "v1"), (1, &[], "v1"), false),
        asked("an id that is not closed, and one outside", (1, &[], "v1"), (0, &[], "v1"), false),
        asked("two ids that are not closed", (1, &[], "v1"), (1, &[], "v1"), false),
        asked("two ids that are not in their lists", (2, &[1], "v2"), (2, &[2], "v1"), false),
        asked("an id in its list, and one that is not", (2, &[1], "v1"), (2, &[2], "v1"), false),
        asked("ids of the parts' own", (1, &[1], "l v1"), (2, &[2], "l v1"), true),
        asked("parameters under abstractions of the parts' own", (1, &[1], "l v2"), (2, &[2], "l v3"), true),
        asked("an id of its own, and a parameter", (1, &[1], "l v1"), (2, &[2], "l v3"), false),
        asked("parameters beside abstractions", (1, &[1], "s0.2 l v1 v1"), (2, &[2], "s0.2 l v1 v2"), true),
        asked("a parameter beside abstractions, and none", (1, &[1], "s0.2 l v1 v1"), (2, &[2], "s0.2 l v1 v1"), false),
        asked("the later part shorter", (0, &[], "s0.1 s7.0"), (0, &[], "s7.0"), false),
        asked("the first part shorter", (0, &[], "s0.1 s7.0"), (0, &[], "s0.2 s7.0 s7.0"), false),
        asked("a symbol and a variable", (0, &[], "s7.0"), (0, &[], "v7"), false),
    ]
}

pub fn edges() -> Vec<Edge> {
    flat([deep(), deep_abstractions(), lists(), by_hand()])
}
