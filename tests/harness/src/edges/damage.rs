//! Damaged trees: each kind of document 01's "Walking", and what is no damage.

use super::words::words;
use super::{clear, edge, fits, flat, Edge, Told, DAMAGED, NONE_FITS, NO_ROOM};
use crate::case::Case;

const TERM: &str = "s5.2 l v1 s7.0";

/// A tree over the term, with room for three words, and the nodes visited.
fn over(name: &str, tree: Vec<u32>, told: Told, visits: u64) -> Edge {
    edge(name, Case::MatchTree { tree, term: words(TERM), room: 3 }, told.visits(visits))
}

/// A tree whose node at 0 is damaged.
fn at_once(name: &str, tree: &str) -> Edge {
    over(name, words(tree), clear(DAMAGED, 0), 1)
}

fn damaged(name: &str, tree: &str, at: u64, visits: u64) -> Edge {
    over(name, words(tree), clear(DAMAGED, at), visits)
}

fn none_fits(name: &str, tree: &str, visits: u64) -> Edge {
    over(name, words(tree), clear(NONE_FITS, 0), visits)
}

fn nodes() -> Vec<Edge> {
    vec![
        at_once("no tree", ""),
        at_once("a tag of 5", "5"),
        at_once("the largest tag", "4294967295"),
        none_fits("Fail, and words after it", "0 5", 1),
    ]
}

fn switches() -> Vec<Edge> {
    vec![
        at_once("a Switch cut short", "2 0"),
        at_once("a Switch past the table", "2 0 1 s5.2 6"),
        at_once("a Switch of very many cases", "2 0 4294967295 0 0 0"),
        at_once("a Switch at a place not uncovered", "2 1 0 4 0"),
        at_once("a default that is not later", "2 0 0 0"),
        at_once("a default outside", "2 0 0 4"),
        at_once("a case whose address is not later", "2 0 1 s5.2 0 6 0"),
        none_fits("a case that is not taken has any address", "2 0 1 s5.0 0 6 0", 2),
        over("a case taken", words("2 0 1 s5.2 7 6 0 1 3 0 0"), fits(&[]).further(3), 2),
        damaged("a place entered twice", "2 0 1 s5.2 6 12 2 0 1 s5.2 12 12 0", 6, 2),
        none_fits("a default at a place that is entered", "2 0 1 s5.2 6 12 2 0 1 s5.0 12 12 0", 3),
    ]
}

fn leaves() -> Vec<Edge> {
    let entered = "2 0 1 s5.2 6 6 2 1 1 l 12 12";
    vec![
        at_once("a Leaf cut short", "1 0"),
        at_once("a Leaf without its number set aside", "1 0 0"),
        at_once("a Leaf past the table", "1 0 1 0 0"),
        at_once("a rule of 64", "1 64 0 0"),
        at_once("17 variables", &format!("1 0 17 0{}", " 0 0".repeat(17))),
        at_once("a variable at a place not uncovered", "1 0 1 0 1 0"),
        at_once("a list over 4 ids", "1 0 1 0 0 5 1 2 3 4 5"),
        at_once("a list with an id outside", "1 0 1 0 0 1 1"),
        over("a part over the room", words("1 63 1 0 0 0"), clear(NO_ROOM, 0), 1),
        damaged("a part with no body", &format!("{entered} 1 0 1 0 3 0"), 12, 3),
        over("a part with a body", words(&format!("{entered} 1 9 2 0 3 1 1 2 0")), fits(&[words("v1"), words("s7.0")]).further(9), 3),
    ]
}

fn tests() -> Vec<Edge> {
    vec![
        at_once("Closed cut short", "3 0 0 5"),
        none_fits("Closed, yes", "3 0 0 5 6 0 1", 2),
        at_once("Closed with a yes that is not later", "3 0 0 0 5 0"),
        at_once("Closed with 5 ids", "3 0 5 1 2 3 4 5 10 10 0"),
        none_fits("Same, yes", "4 0 0 0 7 6 1 0", 2),
        damaged("Same, no", "2 0 1 s5.2 6 6 4 1 2 0 5 13 0 1", 13, 3),
        at_once("Same with a place not uncovered", "4 0 1 0 6 6 0"),
        at_once("Same cut short", "4 0 0 0 5"),
    ]
}

fn lengths() -> Vec<Edge> {
    vec![over("16,384 words", vec![0; 16_384], clear(NONE_FITS, 0), 1), over("16,385 words", vec![0; 16_385], clear(DAMAGED, 16_384), 0)]
}

pub fn edges() -> Vec<Edge> {
    flat([nodes(), switches(), leaves(), tests(), lengths()])
}
