//! What is written takes the arguments set aside, or cannot: roots of right sides and of bodies, sums, and the order of 18.

use second::gen;
use second::Rng;

use super::front::with_leaves;
use super::words::{book, words, Rule};
use super::{answer, clear, done, edge, flat, Edge, Told, BAD_BOOK, BAD_TERM, CANNOT_TAKE, DAMAGED, NONE_FITS, NO_ROOM, OVER};
use crate::case::Case;

fn at_root(name: &str, rules: &[Rule], term: Vec<u32>, room: usize, told: Told) -> Edge {
    let book = book(rules);
    let tree = gen::compiled(&book);
    edge(name, Case::RewriteRoot { book, tree, term, room }, told)
}

/// The nodes on the way to a left side of one symbol with abstractions below it: a Switch for each of them, and the Leaf.
fn visits(left: &str) -> u64 {
    2 + left.split(' ').filter(|&token| token == "l").count() as u64
}

/// A term by one rule: the new term, or how many arguments cannot be taken.
fn one(rule: Rule, term: &str, new: Result<&str, u64>) -> Edge {
    let told = match new {
        Ok(new) => done(words(new)),
        Err(aside) => clear(CANNOT_TAKE, aside),
    };
    at_root(&format!("{term} by {} to {}", rule.1, rule.2), &[rule], words(term), 40, told.visits(visits(rule.1)))
}

/// Roots that are a symbol, an abstraction, or a body with a symbol, an abstraction or a variable. A variable alone is no right side.
fn roots() -> Vec<Edge> {
    let to = |right: &'static str| (1, "s3.1 m0.0", right);
    let (symbol, abstraction, body) = (to("s4.2 m0.0 s9.0"), to("l m0.0"), to("m0.0"));
    vec![
        at_root("fewer arguments than the rule", &[symbol], words("s3.0"), 40, clear(NONE_FITS, 0).visits(2)),
        one(symbol, "s3.1 s7.0", Ok("s4.2 s7.0 s9.0")),
        one(symbol, "s3.3 s7.0 l v2 v1", Ok("s4.4 s7.0 s9.0 l v2 v1")),
        one(symbol, "s3.2 l v1 s5.1 s8.0", Ok("s4.3 l v1 s9.0 s5.1 s8.0")),
        one(abstraction, "s3.1 s7.0", Ok("l s7.0")),
        one(abstraction, "s3.2 s7.0 s8.0", Err(1)),
        one(abstraction, "s3.3 s7.0 s8.0 s8.0", Err(2)),
        one(body, "s3.2 s9.0 s8.0", Ok("s9.1 s8.0")),
        one(body, "s3.2 s4.1 s7.0 s8.0", Ok("s4.2 s7.0 s8.0")),
        one(body, "s3.2 l s7.0 s8.0", Err(1)),
        one(body, "s3.2 v5 s8.0", Err(1)),
        one(body, "s3.1 v5", Ok("v5")),
        one(body, "s3.1 l v1", Ok("l v1")),
    ]
}

/// Roots that are a body with a parameter: the written child of the variable decides.
fn parameters() -> Vec<Edge> {
    let to = |right: &'static str| (2, "s3.2 l m0.1 v1 m1.0", right);
    let second = (1, "s3.1 l l m0.2 v2 v1", "m0.2 l s7.0 s9.0");
    vec![
        one(to("m0.1 m1.0"), "s3.3 l v1 s9.0 s8.0", Ok("s9.1 s8.0")),
        one(to("m0.1 m1.0"), "s3.3 l v1 v4 s8.0", Err(1)),
        one(to("m0.1 m1.0"), "s3.3 l v1 l s7.0 s8.0", Err(1)),
        one(to("m0.1 s6.1 m1.0"), "s3.3 l v1 v4 s8.0", Ok("s6.2 v4 s8.0")),
        one(to("m0.1 l v1"), "s3.3 l v1 s9.0 s8.0", Err(1)),
        one(to("m0.1 m0.1 m1.0"), "s3.3 l v1 s9.0 s8.0", Ok("s9.1 s8.0")),
        one(to("m0.1 m0.1 m1.0"), "s3.3 l v1 v4 s8.0", Err(1)),
        one(to("m0.1 m1.0"), "s3.3 l s6.1 v1 s9.0 s8.0", Ok("s6.2 s9.0 s8.0")),
        one(to("m0.1 m1.0"), "s3.3 l l v2 s9.0 s8.0", Err(1)),
        one(to("m0.1 m1.0"), "s3.3 l v2 s9.0 s8.0", Err(1)),
        one(second, "s3.2 l l v1 s8.0", Ok("s9.1 s8.0")),
        one(second, "s3.2 l l v2 s8.0", Err(1)),
    ]
}

/// Of a right side with so many leaves, or a body with so many, and so many arguments set aside.
fn sum(own: usize, aside: usize) -> Vec<Edge> {
    let set_aside = " s8.0".repeat(aside);
    let taken = format!("s4.{}{}{set_aside}", own + aside, " s7.0".repeat(own));
    let new = || if own + aside <= 15 { Ok(&taken[..]) } else { Err(aside as u64) };
    let by_right = one((0, "s3.0", &with_leaves(4, own)), &format!("s3.{aside}{set_aside}"), new());
    let by_body = format!("s3.{} {}{set_aside}", aside + 1, with_leaves(4, own));
    let by_body = (aside < 15).then(|| one((1, "s3.1 m0.0", "m0.0"), &by_body, new()));
    [Some(by_right), by_body].into_iter().flatten().collect()
}

/// Sums of 15 and of 16, and the largest.
fn sums() -> Vec<Edge> {
    let pairs = [(0, 15), (1, 14), (7, 8), (14, 1), (1, 15), (2, 14), (8, 8), (15, 1), (15, 15)];
    pairs.into_iter().flat_map(|(own, aside)| sum(own, aside)).collect()
}

const TO_LOOP: Rule = (1, "s3.1 m0.0", "l s2.2 m0.0 m0.0");
const TO_SYMBOL: Rule = (1, "s3.1 m0.0", "s2.2 m0.0 m0.0");

/// 18 comes before 15, also where writing passes a limit: words, nesting, ids.
fn before_15() -> Vec<Edge> {
    let mut rng = Rng::new(2);
    let most = rosenduch::MOST_TERM;
    let with = |count: u32, part: Vec<u32>| {
        let aside = vec![words("s8.0")[0]; count as usize - 1];
        [words(&format!("s3.{count}")), part, aside].concat()
    };
    let (long, deep, far) = (gen::wide(&mut rng, 2_500), gen::chain(&mut rng, 63), words("v65535"));
    let over = |name: &str, rule, term, told: Told| at_root(name, &[rule], term, most, told.visits(2));
    let cannot = || clear(CANNOT_TAKE, 1);
    vec![
        over("over 4,096 words, and cannot take", TO_LOOP, with(2, long.clone()), cannot()),
        over("over 4,096 words, and takes", TO_SYMBOL, with(2, long.clone()), clear(OVER, 0)),
        over("over 4,096 words, and nothing set aside", TO_LOOP, with(1, long), clear(OVER, 0)),
        over("over nesting 64, and cannot take", TO_LOOP, with(2, deep.clone()), cannot()),
        over("over nesting 64, and nothing set aside", TO_LOOP, with(1, deep), clear(OVER, 0)),
        over("over id 65,535, and cannot take", TO_LOOP, with(2, far.clone()), cannot()),
        over("over id 65,535, and nothing set aside", TO_LOOP, with(1, far), clear(OVER, 0)),
    ]
}

/// The whole term with the arguments: 4,096 words, one more, nesting 64 in what is set aside.
fn limits() -> Vec<Edge> {
    let long = gen::wide(&mut Rng::new(2), 4_093);
    let term = [words("s3.2 s7.0"), long.clone()].concat();
    let new = || done([words("s4.3 s7.0 s9.0"), long.clone()].concat());
    let to: Rule = (1, "s3.1 m0.0", "s4.2 m0.0 s9.0");
    let longer: Rule = (1, "s3.1 m0.0", "s4.3 m0.0 s9.0 s9.0");
    let deep = |head: &str| words(&format!("{head} s7.0 {}s8.0", "l ".repeat(62)));
    vec![
        at_root("4,096 words with the argument", &[to], term.clone(), 4_096, new().visits(2)),
        at_root("4,096 words with the argument, one short", &[to], term.clone(), 4_095, clear(NO_ROOM, 0).visits(2)),
        at_root("4,097 words with the argument", &[longer], term, 4_096, clear(OVER, 0).visits(2)),
        at_root("nesting 64 in the argument", &[(1, "s3.1 m0.0", "s4.1 m0.0")], deep("s3.2"), 100, done(deep("s4.2")).visits(2)),
    ]
}

/// 12, 11 and 14 come before 18, and 18 before 13.
fn order() -> Vec<Edge> {
    let book = book(&[TO_LOOP]);
    let tree = gen::compiled(&book);
    let two = words("s3.2 s7.0 s8.0");
    let by = |name: &str, book: &[u32], tree: &[u32], term: &[u32], told| {
        edge(name, Case::RewriteRoot { book: book.to_vec(), tree: tree.to_vec(), term: term.to_vec(), room: 0 }, told)
    };
    vec![
        by("cannot take, and no room", &book, &tree, &two, clear(CANNOT_TAKE, 1).visits(2)),
        by("cannot take, and a damaged tree", &book, &words("1 0 1 0 0 0"), &two, clear(DAMAGED, 0).visits(1)),
        by("cannot take, and a bad book", &[], &tree, &two, clear(BAD_BOOK, 0).visits(0)),
        by("cannot take, and a bad term", &book, &tree, &two[..2], clear(BAD_TERM, 2).visits(0)),
    ]
}

/// By the rule whose right side is its variable.
fn simplified(name: &str, term: &str, budget: u16, room: usize, told: Told) -> Edge {
    let book = book(&[(1, "s3.1 m0.0", "m0.0")]);
    let tree = gen::compiled(&book);
    edge(name, Case::Simplify { book, tree, term: words(term), budget, room }, told)
}

/// Each offset takes 2 nodes.
fn simplifying() -> Vec<Edge> {
    let after = |steps, result: &str, visits| done(words(result)).further(steps).visits(visits);
    let used = |steps, so_far: &str, visits| {
        Told { words: Some(words(so_far)), ..answer(rosenduch::BUDGET_USED, 0) }.further(steps).visits(visits)
    };
    let cannot = |steps, aside, visits| clear(CANNOT_TAKE, aside).further(steps).visits(visits);
    let twice = "s3.3 s3.0 s4.1 s7.0 s8.0";
    let later = "s5.2 s3.1 s7.0 s3.3 v1 s7.0 s8.0";
    vec![
        simplified("a body takes two, and its body one", twice, 9, 8, after(2, "s4.2 s7.0 s8.0", 2 + 2 + 6)),
        simplified("a body takes two, budget 1", twice, 1, 8, used(1, "s3.2 s4.1 s7.0 s8.0", 2 + 2)),
        simplified("under an abstraction, and a part behind", "s5.2 l s3.2 s9.0 v1 s7.0", 9, 8, after(1, "s5.2 l s9.1 v1 s7.0", 6 + 10)),
        simplified("the second step cannot take", later, 9, 8, cannot(1, 2, 4 + 6)),
        simplified("the second step cannot take, and no room", later, 9, 0, cannot(1, 2, 4 + 6)),
        simplified("the second step cannot take, budget 1", later, 1, 8, used(1, "s5.2 s7.0 s3.3 v1 s7.0 s8.0", 4 + 6)),
        simplified("the second step cannot take, budget 0", later, 0, 8, used(0, later, 4)),
        simplified("the first step cannot take, and a part could be rewritten", "s3.2 l s3.1 s7.0 s8.0", 9, 8, cannot(0, 1, 2)),
    ]
}

pub fn edges() -> Vec<Edge> {
    flat([roots(), parameters(), sums(), before_15(), limits(), order(), simplifying()])
}
