//! Building a left side from bodies: what a match gave is given back, and the edges of building.

use super::words::{book, book_a, book_b, rungs, words};
use super::{clear, done, edge, flat, Edge, Told, BAD_BOOK, BAD_TERM, NO_ROOM, NO_RULE, OVER};
use crate::case::Case;

/// The place of bad lengths: one more than the last variable.
const LENGTHS: u64 = 16;

fn built(name: &str, book: &[u32], rule: u32, bodies: &[u32], lengths: &[u32], room: usize, told: Told) -> Edge {
    let mut sixteen = [0; 16];
    sixteen[..lengths.len()].copy_from_slice(lengths);
    edge(name, Case::BuildLeft { book: book.to_vec(), rule, bodies: bodies.to_vec(), lengths: sixteen, room }, told)
}

fn given_back() -> Vec<Edge> {
    let (a, b) = (book_a(), book_b());
    let from = |mark: &str, book: &[u32], rule, body: &str, term: &str| {
        let body_words = words(body);
        built(&format!("{mark} from {body}"), book, rule, &body_words, &[body_words.len() as u32], 7, done(words(term)))
    };
    vec![
        from("P1", &a, 0, "s7.0", "s2.2 s7.0 s7.0"),
        from("P3", &a, 1, "v1", "s3.1 l v2"),
        from("P5", &a, 2, "v1", "s3.1 l s4.1 v1"),
        from("P6", &a, 1, "s4.1 s7.0", "s3.1 l s4.1 s7.0"),
        from("P7", &b, 0, "v1", "s6.2 l v1 l l v2"),
        from("P9", &b, 0, "v2", "s6.2 l v2 l l v3"),
    ]
}

/// Bodies for the first rule of book A, which has one variable.
fn bad_bodies() -> Vec<Edge> {
    let a = book_a();
    let bad = |name: &str, bodies: &str, length, at| built(name, &a, 0, &words(bodies), &[length], 7, clear(BAD_TERM, at));
    vec![
        bad("a body with a bad word", "s0.1 v0", 2, 0),
        bad("a body that is two terms", "s7.0 s7.0", 2, 0),
        bad("a body with a pattern variable", "m0.0", 1, 0),
        bad("an empty body", "", 0, 0),
        bad("lengths that sum to less than the bodies", "s7.0 s7.0", 1, LENGTHS),
        bad("lengths that sum to more than the bodies", "s7.0", 2, LENGTHS),
    ]
}

fn refusals() -> Vec<Edge> {
    let a = book_a();
    let one = |name: &str, book: &[u32], rule, body: &str, length, told| built(name, book, rule, &words(body), &[length], 7, told);
    vec![
        one("a bad book", &[1], 0, "s7.0", 1, clear(BAD_BOOK, 0)),
        one("a rule number out of range", &a, 3, "s7.0", 1, clear(NO_RULE, 3)),
        one("no such rule, and bad bodies", &a, 3, "v0", 2, clear(NO_RULE, 3)),
        one("an id of 65,535", &a, 1, "v65534", 1, done(words("s3.1 l v65535"))),
        one("an id of 65,536", &a, 1, "v65535", 1, clear(OVER, 0)),
    ]
}

fn variables() -> Vec<Edge> {
    let two = book(&[(2, "s1.2 m0.0 m1.0", "s0.0")]);
    let given = words("s7.0 s0.1 s8.0");
    let term = || done(words("s1.2 s7.0 s0.1 s8.0"));
    let mut unused = [0; 16];
    unused[..2].copy_from_slice(&[1, 1]);
    unused[15] = 1;
    vec![
        built("two bodies", &two, 0, &given, &[1, 2], 5, term()),
        built("two bodies, output exact", &two, 0, &given, &[1, 2], 4, term()),
        built("two bodies, output one short", &two, 0, &given, &[1, 2], 3, clear(NO_ROOM, 0)),
        built("the second body is bad", &two, 0, &words("s7.0 v0"), &[1, 1], 3, clear(BAD_TERM, 1)),
        built("a length at an unused variable", &two, 0, &words("s7.0 v0 s7.0"), &unused, 3, clear(BAD_TERM, LENGTHS)),
    ]
}

/// One body, with room for every term.
fn large(name: &str, book: &[u32], rule: u32, body: Vec<u32>, told: Told) -> Edge {
    built(name, book, rule, &body, &[body.len() as u32], rosenduch::MOST_TERM, told)
}

/// Rule 1 of book A puts its body two levels down; a root with the same variable 15 times has 15 bodies and one word more.
fn limits() -> Vec<Edge> {
    let a = book_a();
    let left = format!("s0.15{}", " m0.0".repeat(15));
    let repeated = book(&[(1, &left, "s0.0")]);
    let deep = rungs(62, 0);
    let wide = rungs(273, 7);
    vec![
        large("nesting 64", &a, 1, deep.clone(), done([words("s3.1 l"), deep].concat())),
        large("nesting 65", &a, 1, rungs(63, 0), clear(OVER, 0)),
        large("4,096 words", &repeated, 0, wide.clone(), done([words("s0.15"), wide.repeat(15)].concat())),
        large("4,111 words", &repeated, 0, rungs(274, 12), clear(OVER, 0)),
    ]
}

pub fn edges() -> Vec<Edge> {
    flat([given_back(), bad_bodies(), refusals(), variables(), limits()])
}
