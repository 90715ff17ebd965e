//! Renumbering, as the operations on rules and trees show it: which parts are closed for a list, what their bodies are, and what terms bodies
//! stand for.

use second::gen;

use super::words::{book, words};
use super::{clear, done, edge, fits, flat, Edge, Told, BAD_TERM, DAMAGED, NONE_FITS, NO_ROOM, OVER};
use crate::case::Case;

/// A book of one rule with one variable, whose right side is a leaf.
pub fn one_rule(left: &str) -> Vec<u32> {
    book(&[(1, left, "s0.0")])
}

/// A term by the rule of a book, and by the tree of that book.
pub fn both_ways(name: &str, book: &[u32], term: &str, room: usize, told: impl Fn() -> Told) -> Vec<Edge> {
    let term = words(term);
    let tree = gen::compiled(book);
    let by_rule = Case::MatchRule { book: book.to_vec(), rule: 0, term: term.clone(), room };
    vec![edge(name, by_rule, told()), edge(name, Case::MatchTree { tree, term, room }, told().further(0))]
}

/// The body of a part where it has one.
pub fn body(part: Option<&str>) -> Told {
    part.map_or_else(|| clear(NONE_FITS, 0), |part| fits(&[words(part)]))
}

/// Parts under one abstraction, with no list.
fn closed_for_none() -> Vec<Edge> {
    let book = one_rule("s3.1 l m0.0");
    let part = |part: &str, found: Option<&str>| {
        both_ways(&format!("{part} under one abstraction"), &book, &format!("s3.1 l {part}"), 3, || body(found))
    };
    let cut = both_ways("s0.1 and no word after it, under one abstraction", &book, "s3.1 l s0.1", 3, || clear(BAD_TERM, 3));
    flat([part("v1", None), part("v2", Some("v1")), part("l v1", Some("l v1")), part("l v2", None), part("l v3", Some("l v2")), cut])
}

/// The rule of the Leaf behind a test that says yes.
pub const YES: u32 = 5;

/// A tree that goes down `s3.1` and d abstractions, and asks there whether the part is closed for a list.
fn asks_closed(d: u32, list: &[u32]) -> Vec<u32> {
    let k = list.len() as u32;
    let test = 6 * (d + 1);
    let (fail, leaf) = (test + 5 + k, test + 6 + k);
    let mut tree = Vec::new();
    for place in 0..=d {
        let head = if place == 0 { words("s3.1")[0] } else { words("l")[0] };
        tree.extend([2, place, 1, head, 6 * (place + 1), fail]);
    }
    tree.extend([3, d + 1, k]);
    tree.extend(list);
    tree.extend([leaf, fail, 0, 1, YES, 0, 0]);
    tree
}

fn closed_for_some() -> Vec<Edge> {
    let asked = |name: &str, d: u32, list: &[u32], part: &str, told: Told| {
        let term = words(&format!("s3.1 {} {part}", "l ".repeat(d as usize)));
        edge(name, Case::MatchTree { tree: asks_closed(d, list), term, room: 3 }, told)
    };
    let yes = || fits(&[]).further(YES);
    let no = || clear(NONE_FITS, 0);
    let list_of_1 = one_rule("s3.1 l m0.1 v1");
    let mut edges = both_ways("v1 under one abstraction, list 1", &list_of_1, "s3.1 l v1", 3, || body(Some("v1")));
    edges.extend([
        asked("asks whether v1 under one abstraction is closed for none", 1, &[], "v1", no()),
        asked("asks whether v2 under one abstraction is closed for none", 1, &[], "v2", yes()),
        asked("asks whether v1 under one abstraction is closed for 1", 1, &[1], "v1", yes()),
        asked("asks whether v1 under two abstractions is closed for 2", 2, &[2], "v1", no()),
        asked("asks for the list 2 under one abstraction", 1, &[2], "v1", clear(DAMAGED, 12)),
        asked("asks for the list 1 1 under two abstractions", 2, &[1, 1], "v1", clear(DAMAGED, 18)),
        asked("asks for four ids under five abstractions", 5, &[5, 3, 2, 1], "v1", yes()),
        asked("asks for five ids under five abstractions", 5, &[1, 2, 3, 4, 5], "v1", clear(DAMAGED, 36)),
    ]);
    edges
}

/// Parts under three abstractions, with the list 3 1.
const LISTED: &str = "s3.1 l l l m0.2 v3 v1";

fn bodies() -> Vec<Edge> {
    let book = one_rule(LISTED);
    let part = |name: &str, part: &str, room, told: &dyn Fn() -> Told| {
        both_ways(&format!("{name} under three abstractions, list 3 1"), &book, &format!("s3.1 l l l {part}"), room, told)
    };
    let found = || body(Some("s0.2 v1 l v3"));
    flat([
        part("s0.2 v3 l v2", "s0.2 v3 l v2", 5, &found),
        part("s0.2 v3 l v2, exact room,", "s0.2 v3 l v2", 4, &found),
        part("s0.2 v3 l v2, one word short,", "s0.2 v3 l v2", 3, &|| clear(NO_ROOM, 0)),
        part("v5", "v5", 2, &|| body(Some("v4"))),
        part("v2", "v2", 2, &|| body(None)),
    ])
}

fn terms() -> Vec<Edge> {
    let book = one_rule(LISTED);
    let from = |name: &str, body: &str, room: usize, told: Told| {
        let bodies = words(body);
        let mut lengths = [0; 16];
        lengths[0] = bodies.len() as u32;
        let name = format!("the body {name} under three abstractions, list 3 1");
        edge(name, Case::BuildLeft { book: book.clone(), rule: 0, bodies, lengths, room }, told)
    };
    let term = |part: &str| done(words(&format!("s3.1 l l l {part}")));
    let one = |body: &str, told| from(body, body, 6, told);
    vec![
        from("s0.2 v3 l v2", "s0.2 v3 l v2", 9, term("s0.2 v4 l v4")),
        from("s0.2 v3 l v2, exact room,", "s0.2 v3 l v2", 8, term("s0.2 v4 l v4")),
        from("s0.2 v3 l v2, one word short,", "s0.2 v3 l v2", 7, clear(NO_ROOM, 0)),
        one("v1", term("v3")),
        one("v2", term("v1")),
        one("v3", term("v4")),
        one("v65534", term("v65535")),
        one("v65535", clear(OVER, 0)),
        one("v1 v1", clear(BAD_TERM, 0)),
        one("v0", clear(BAD_TERM, 0)),
    ]
}

pub fn edges() -> Vec<Edge> {
    flat([closed_for_none(), closed_for_some(), bodies(), terms()])
}
