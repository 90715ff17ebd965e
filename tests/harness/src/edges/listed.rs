//! The edges that document 01 lists under "Run": 4,096 and 4,097 words, nesting 64 and 65, 64 and 65 rules, outputs exact and one short of
//! every operation that has one, budget 0. And the same limits of texts.

use second::gen;
use second::Rng;

use super::compiling::tree_a;
use super::words::{book_a, rule, words};
use super::{answer, clear, done, edge, fits, flat, text, Edge, Told, BAD_BOOK, BAD_TERM, BOOK_A, NOT_IN_FORM, NO_ROOM};
use crate::case::Case;

/// A book of so many rules, no two with the same symbol.
fn book_of(rules: u32) -> Vec<u32> {
    let mut out = vec![rules];
    (0..rules).for_each(|id| out.extend(rule(0, &[id], &words("s1000.0"))));
    out
}

/// Its text.
fn text_of(rules: u32) -> Vec<u8> {
    let rule = |id| format!("rule={id}\nvars=0\nleft=s{id}.0\nright=s1000.0\n");
    let rules_text: String = (0..rules).map(rule).collect();
    format!("book=1\nrules={rules}\n{rules_text}").into_bytes()
}

fn sizes() -> Vec<Edge> {
    let mut rng = Rng::new(1);
    let term = |name: &str, term, told| edge(name, Case::CheckTerm { term }, told);
    let book = |name: &str, rules, told| edge(name, Case::CheckBook { book: book_of(rules) }, told);
    let good = || answer(rosenduch::DONE, 0);
    vec![
        term("a term of 4,096 words", gen::wide(&mut rng, 4_096), good()),
        term("a term of 4,097 words", gen::wide(&mut rng, 4_097), clear(BAD_TERM, 4_096)),
        term("nesting 64", gen::chain(&mut rng, 64), good()),
        term("nesting 65", gen::chain(&mut rng, 65), clear(BAD_TERM, 64)),
        book("64 rules", 64, good()),
        book("65 rules", 65, clear(BAD_BOOK, 64)),
    ]
}

/// The text of so many tokens in a line.
fn tokens(number: usize) -> Vec<u8> {
    (vec!["s7.0"; number].join(" ") + "\n").into_bytes()
}

fn texts() -> Vec<Edge> {
    let line = |name: &str, number, told| edge(name, Case::ReadTerm { text: tokens(number), room: 4_096 }, told);
    let text = |name: &str, text, told| edge(name, Case::ReadBook { text, room: 9_000 }, told);
    vec![
        text("the text of 64 rules", text_of(64), done(book_of(64))),
        text("the text of 65 rules", text_of(65), clear(NOT_IN_FORM, 2)),
        line("a line of 4,096 tokens", 4_096, clear(BAD_TERM, 1)),
        line("a line of 4,097 tokens", 4_097, clear(NOT_IN_FORM, 1)),
        text("a text of 65,536 bytes", vec![b' '; 65_536], clear(NOT_IN_FORM, 1)),
        text("a text of 65,537 bytes", vec![b' '; 65_537], clear(NOT_IN_FORM, 0)),
    ]
}

/// Each operation with an output, over document 01's first example, and its result.
fn with_outputs() -> Vec<(Case, Told)> {
    let (book, tree, term) = (book_a(), tree_a(), words("s2.2 s7.0 s7.0"));
    let (s7, room) = (|| words("s7.0"), 0);
    let mut lengths = [0; 16];
    lengths[0] = 1;
    let rewriting = (book.clone(), tree.clone(), term.clone());
    let (b, t, u) = rewriting.clone();
    let root = Case::RewriteRoot { book: b, tree: t, term: u, room };
    let (b, t, u) = rewriting;
    let simplify = Case::Simplify { book: b, tree: t, term: u, budget: 1_000, room };
    vec![
        (Case::MatchRule { book: book.clone(), rule: 0, term: term.clone(), room }, fits(&[s7()])),
        (Case::BuildLeft { book: book.clone(), rule: 0, bodies: s7(), lengths, room }, done(term.clone())),
        (Case::Compile { book: book.clone(), room }, done(tree.clone()).further(725)),
        (Case::MatchTree { tree, term: term.clone(), room }, fits(&[s7()]).further(0).visits(3)),
        (root, done(s7()).visits(3)),
        (simplify, done(s7()).further(1).visits(3 + 2)),
        (Case::ReadBook { text: BOOK_A.into(), room }, done(book.clone())),
        (Case::WriteBook { book, room }, text(BOOK_A)),
        (Case::ReadTerm { text: b"s2.2 s7.0 s7.0\n".to_vec(), room }, done(term.clone())),
        (Case::WriteTerm { term, room }, text("s2.2 s7.0 s7.0\n")),
        (Case::RepairBook { text: BOOK_A.into(), room }, text(&(BOOK_A.to_string() + "kept=0 0\nkept=1 1\nkept=2 2\n"))),
    ]
}

/// A case with another room.
fn with_room(case: &Case, length: usize) -> Case {
    let mut case = case.clone();
    if let Some(room) = case.room() {
        *room = length;
    }
    case
}

fn outputs() -> Vec<Edge> {
    let mut edges = Vec::new();
    for (case, told) in with_outputs() {
        let need = told.words.as_ref().map_or(0, Vec::len).max(told.bytes.as_ref().map_or(0, Vec::len));
        // The nodes visited, and in simplifying the steps that were completed, are told after a refusal too.
        let steps = if let Case::Simplify { .. } = case { 1 } else { 0 };
        let short = Told { visits: told.visits, ..clear(NO_ROOM, 0).further(steps) };
        edges.push(edge("an output one short", with_room(&case, need - 1), short));
        edges.push(edge("an output exact", with_room(&case, need), told));
    }
    edges
}

fn budgets() -> Vec<Edge> {
    let term = || words("s2.2 s7.0 s7.0");
    let unlike = || words("s2.2 s7.0 s8.0");
    let simplify = |name: &str, term, told: Told| {
        edge(name, Case::Simplify { book: book_a(), tree: tree_a(), term, budget: 0, room: 4_096 }, told.further(0))
    };
    vec![
        simplify("budget 0, a rule fits", term(), Told { number: rosenduch::BUDGET_USED, ..done(term()).visits(3) }),
        simplify("budget 0, no rule fits", unlike(), done(unlike()).visits(3 + 2 + 2)),
    ]
}

pub fn edges() -> Vec<Edge> {
    flat([sizes(), texts(), outputs(), budgets()])
}
