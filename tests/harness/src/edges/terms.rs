//! The check of a term: its length, its nesting, the table of words, and the first bad place.

use super::words::{chain, wide, words};
use super::{answer, clear, edge, flat, Edge, BAD_TERM};
use crate::case::Case;

fn good(name: &str, term: Vec<u32>) -> Edge {
    edge(name, Case::CheckTerm { term }, answer(rosenduch::DONE, 0))
}

fn bad(name: &str, term: Vec<u32>, at: u64) -> Edge {
    edge(name, Case::CheckTerm { term }, clear(BAD_TERM, at))
}

fn sizes() -> Vec<Edge> {
    let wide = |last, length: usize| wide(last)[..length].to_vec();
    vec![
        bad("no words", Vec::new(), 0),
        good("one word", words("s0.0")),
        good("bushes of 4,096 words", wide(3, 4_096)),
        bad("bushes of 4,096 words and a word after them", [wide(3, 4_096), words("s0.0")].concat(), 4_096),
        bad("bushes of 4,097 words", wide(4, 4_097), 4_096),
        bad("bushes of 4,097 words without the last", wide(4, 4_096), 4_096),
        good("a chain of nesting 64", chain(64)),
        bad("a chain of nesting 65", chain(65), 64),
    ]
}

/// One word after `s0.1`, and two leaves after it.
fn tables() -> Vec<Edge> {
    let after_one = |(name, token): (&str, &str)| bad(name, words(&format!("s0.1 {token} s0.0 s0.0")), 1);
    let broken = [
        ("a symbol of count 16", "s0.16"),
        ("a symbol of id 1,024", "s1024.0"),
        ("an abstraction of count 0", "16777216"),
        ("an abstraction of count 2", "16908288"),
        ("an abstraction of id 1", "16842753"),
        ("a variable of count 1", "33619969"),
        ("a variable of id 0", "v0"),
        ("a pattern variable", "m0.0"),
        ("kind 4", "67108864"),
        ("all bits", "4294967295"),
    ];
    broken.map(after_one).into()
}

fn places() -> Vec<Edge> {
    vec![
        bad("a word after a complete term", words("s0.0 s0.0"), 1),
        bad("words that run out", words("s0.2 s0.0"), 2),
        good("an id beyond the abstractions inside", words("v65535")),
    ]
}

pub fn edges() -> Vec<Edge> {
    flat([sizes(), tables(), places()])
}
