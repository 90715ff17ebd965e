//! Simplifying: document 01's terms, budgets, room, growth over each limit, a damaged tree, refusals.

use super::rewriting::{tree_and_zeros, CHAIN, CRACKED, DOUBLE, UNDER};
use super::words::{book, book_a, words};
use super::{answer, clear, done, edge, flat, Edge, Told, BAD_BOOK, BAD_TERM, DAMAGED, NO_ROOM, OVER};
use crate::case::Case;

const FIRST: &str = "s2.2 s3.1 l s7.0 s7.0";
const SECOND: &str = "s3.1 l s4.1 s4.1 v1";

/// With the book's own tree, and room for eight words.
fn by_book(name: &str, book: &[u32], term: &str, budget: u16, told: Told) -> Edge {
    edge(name, Case::Simplify { book: book.to_vec(), tree: tree_and_zeros(book), term: words(term), budget, room: 8 }, told)
}

/// Done after so many steps, with this result and so many nodes visited.
fn after(steps: u32, result: &str, visits: u64) -> Told {
    done(words(result)).further(steps).visits(visits)
}

/// The budget is used after so many steps, and the term is this so far.
fn used(steps: u32, so_far: &str, visits: u64) -> Told {
    Told { words: Some(words(so_far)), ..answer(rosenduch::BUDGET_USED, 0) }.further(steps).visits(visits)
}

/// Refused after so many steps.
fn refused(steps: u32, number: u32, at: u64, visits: u64) -> Told {
    clear(number, at).further(steps).visits(visits)
}

/// The first term takes 7 nodes to the step at 1, 3 to the step at 0 and 2 to see that none is left. The second takes 5 to the step at 0, 7 to the
/// step at 1 and 13 over the five offsets of the last search.
fn marked() -> Vec<Edge> {
    let a = book_a();
    vec![
        by_book(FIRST, &a, FIRST, 1_000, after(2, "s7.0", 7 + 3 + 2)),
        by_book(SECOND, &a, SECOND, 1_000, after(2, "s4.1 s4.1 s3.1 l v1", 5 + 7 + 13)),
        by_book("budget 0", &a, FIRST, 0, used(0, FIRST, 7)),
        by_book("budget 1", &a, FIRST, 1, used(1, "s2.2 s7.0 s7.0", 7 + 3)),
        by_book("budget 2, used and no rule fits", &a, FIRST, 2, after(2, "s7.0", 7 + 3 + 2)),
        by_book("budget 0 over a leaf, no rule fits", &a, "s7.0", 0, after(0, "s7.0", 2)),
    ]
}

/// By the cracked tree of the chain.
fn cracked(name: &str, term: &str, budget: u16, room: usize, told: Told) -> Edge {
    edge(name, Case::Simplify { book: book(&CHAIN), tree: words(CRACKED), term: words(term), budget, room }, told)
}

fn rooms() -> Vec<Edge> {
    vec![
        cracked("room for the result", "s4.0", 9, 1, after(0, "s4.0", 2)),
        cracked("no room", "s4.0", 9, 0, refused(0, NO_ROOM, 0, 2)),
        cracked("no room, with the budget used", "s1.0", 1, 0, refused(1, NO_ROOM, 0, 4)),
    ]
}

/// Each offset takes 2 nodes.
fn growing() -> Vec<Edge> {
    let deeper = book(&[(0, "s1.0", "s2.1 s1.0")]);
    let (double, under) = (book(&[DOUBLE]), book(&[UNDER]));
    let twelve = format!("{}s7.0", "s1.1 ".repeat(12));
    let all = u16::MAX;
    vec![
        by_book("over 4,096 words", &double, &twelve, all, clear(OVER, 0).further(2_040)),
        by_book("over nesting 64", &deeper, "s1.0", all, refused(63, OVER, 0, 64 * 65)),
        by_book("over nesting 64, with the budget used before", &deeper, "s1.0", 3, used(3, "s2.1 s2.1 s2.1 s1.0", 2 + 4 + 6 + 8)),
        by_book("id 65,534 becomes 65,535", &under, "s1.1 v65534", all, after(1, "l v65535", 2 + 4)),
        by_book("over id 65,535", &under, "s1.1 v65535", all, refused(0, OVER, 0, 2)),
        by_book("a rule that never ends", &book(&[(0, "s1.0", "s1.0")]), "s1.0", 300, used(300, "s1.0", 301 * 2)),
    ]
}

fn damaged() -> Vec<Edge> {
    let no_tree = Case::Simplify { book: book(&CHAIN), tree: Vec::new(), term: words("s1.0"), budget: 1, room: 3 };
    vec![
        cracked("damage met at the third step", "s1.0", 9, 3, refused(2, DAMAGED, 18, 6)),
        cracked("damage met with the budget used", "s1.0", 2, 3, refused(2, DAMAGED, 18, 6)),
        cracked("damage not met yet", "s1.0", 1, 3, used(1, "s2.0", 4)),
        edge("no tree", no_tree, refused(0, DAMAGED, 0, 1)),
    ]
}

fn refusals() -> Vec<Edge> {
    let cut = book(&CHAIN)[..10].to_vec();
    let both = Case::Simplify { book: cut, tree: words(CRACKED), term: words("v0"), budget: 9, room: 3 };
    vec![
        edge("a bad book, and a bad term", both, refused(0, BAD_BOOK, 1, 0)),
        cracked("a bad term", "s0.1 v0", 9, 3, refused(0, BAD_TERM, 1, 0)),
    ]
}

pub fn edges() -> Vec<Edge> {
    flat([marked(), rooms(), growing(), damaged(), refusals()])
}
