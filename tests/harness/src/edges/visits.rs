//! The nodes visited: what the root alone settles, refusals before and after a walk, budgets, the marked terms searched from offset to offset, and
//! large sums. The counts of other edges stand with them.

use second::{gen, Rng};

use super::compiling::{tree_a, tree_b};
use super::rewriting::{CHAIN, DOUBLE, UNDER};
use super::words::{book, book_a, book_b, wide, words, Rule};
use super::{answer, clear, done, edge, fits, flat, Edge, Told, BAD_BOOK, BAD_TERM, CANNOT_TAKE, DAMAGED, NONE_FITS, NO_ROOM, OVER};
use crate::case::Case;

/// Which operation walks: a match, rewriting at the root, or simplifying with a budget.
#[derive(Clone, Copy)]
enum Shape {
    Match,
    Root,
    All(u16),
}

/// A case with room for nine words.
fn by(shape: Shape, book: Vec<u32>, tree: Vec<u32>, term: Vec<u32>) -> Case {
    let room = 9;
    match shape {
        Shape::Match => Case::MatchTree { tree, term, room },
        Shape::Root => Case::RewriteRoot { book, tree, term, room },
        Shape::All(budget) => Case::Simplify { book, tree, term, budget, room },
    }
}

fn by_a(shape: Shape, term: &str) -> Case {
    by(shape, book_a(), tree_a(), words(term))
}

/// A tree that names no rule, with the nodes that each offset takes. What is not on the way does not count.
const ROOTS: [(&str, &str, u64); 10] = [
    ("a Fail", "0", 1),
    ("a Switch without cases", "2 0 0 4 0", 2),
    ("a Switch, and nodes that are passed over", "2 0 0 9 0 2 0 0 4 0", 2),
    ("a Switch with a case that is not met", "2 0 1 s8.0 6 7 1 0", 2),
    ("a Switch whose case and default are one Fail", "2 0 1 s9.0 6 6 0", 2),
    ("a Switch with one head twice", "2 0 2 s9.0 8 s9.0 0 8 0", 2),
    ("a Switch below the default", "2 0 0 4 2 0 1 s9.0 10 10 0", 3),
    ("a Switch with a Switch below its case, and one below its default", "2 0 1 s9.0 6 10 2 0 0 14 2 0 0 14 0", 3),
    ("Closed", "3 0 0 5 5 0", 2),
    ("Same", "4 0 0 0 6 6 0", 2),
];

/// A root that settles each offset of four words, in every operation that walks.
fn roots() -> Vec<Edge> {
    let term = "s0.2 s9.0 l v1";
    let mut edges = Vec::new();
    for (name, tree, each) in ROOTS {
        let name = format!("no rule, by {name}");
        let (tree, book) = (words(tree), book(&CHAIN));
        let leaf = Case::MatchTree { tree: tree.clone(), term: words("s9.0"), room: 3 };
        let root = Case::RewriteRoot { book: book.clone(), tree: tree.clone(), term: words(term), room: 5 };
        let all = Case::Simplify { book, tree, term: words(term), budget: 0, room: 5 };
        edges.push(edge(name.clone(), leaf, clear(NONE_FITS, 0).visits(each)));
        edges.push(edge(name.clone(), root, clear(NONE_FITS, 0).visits(each)));
        edges.push(edge(name, all, done(words(term)).further(0).visits(4 * each)));
    }
    edges
}

/// Offsets that book A's root settles: other symbols, fewer arguments than any rule has, abstractions, variables.
fn settled() -> Vec<Edge> {
    let none = ["s7.0", "s2.0", "s2.1 s7.0", "s3.0", "s1.2 s7.0 s7.0", "l s2.2 s7.0 s7.0", "v1"];
    let by_root = |term: &str| edge(format!("{term} by the root alone"), by_a(Shape::Match, term), clear(NONE_FITS, 0).visits(2));
    let mut edges: Vec<_> = none.into_iter().map(by_root).collect();
    let each = "s1.4 s2.1 s7.0 s3.0 l v1 s2.0";
    edges.push(edge("seven offsets by the root alone", by_a(Shape::All(9), each), done(words(each)).further(0).visits(7 * 2)));
    let last = "s1.4 s2.1 s7.0 s3.0 l v1 s2.2 v1 v1";
    let new = "s1.4 s2.1 s7.0 s3.0 l v1 v1";
    edges.push(edge(
        "six offsets by the root alone, and a rule",
        by_a(Shape::All(9), last),
        done(words(new)).further(1).visits(6 * 2 + 3 + 7 * 2),
    ));
    edges
}

/// A root Switch that is damaged for some words only: the first offset is sent to the Fail, the second to an address that is none.
fn damaged_later() -> Vec<Edge> {
    let second = |name: &str, tree: &str, term: &str, at, visits| {
        edge(name, by(Shape::All(9), book(&CHAIN), words(tree), words(term)), clear(DAMAGED, at).visits(visits))
    };
    vec![
        second("the second offset by a default outside", "2 0 1 s0.1 6 99 0", "s0.1 s9.0", 0, 2 + 1),
        second("the second offset by a default that is not later", "2 0 1 s0.1 6 0 0", "s0.1 s9.0", 0, 2 + 1),
        second("the second offset by a case outside", "2 0 1 s9.0 99 6 0", "s0.1 s9.0", 0, 2 + 1),
        second("the third offset by a node below", "2 0 1 s9.0 7 6 0 5", "s0.1 l s9.0", 7, 2 + 2 + 2),
        second("the first offset, with a default outside for all", "2 0 0 99 0", "s0.1 s9.0", 0, 1),
    ]
}

/// An edge before any walk.
fn unwalked(name: &str, shape: Shape, book: Vec<u32>, tree: Vec<u32>, term: &str, told: Told) -> Edge {
    edge(format!("before any walk: {name}"), by(shape, book, tree, words(term)), told)
}

/// Nothing is walked, or the one node that is not there.
fn before() -> Vec<Edge> {
    let long = vec![0; 16_385];
    let mut edges = Vec::new();
    for shape in [Shape::Match, Shape::Root, Shape::All(9)] {
        let told = |name: &str, tree, term: &str, told| unwalked(name, shape, book_a(), tree, term, told);
        let zero = |number, at| clear(number, at).visits(0);
        edges.extend([
            told("a bad term", tree_a(), "s2.2 s7.0", zero(BAD_TERM, 2)),
            told("a bad term, and no tree", Vec::new(), "v0", zero(BAD_TERM, 0)),
            told("a bad term, and a tree over its size", long.clone(), "v0", zero(BAD_TERM, 0)),
            told("a tree over its size", long.clone(), "s7.0", zero(DAMAGED, 16_384)),
            told("not so with no tree", Vec::new(), "s7.0", clear(DAMAGED, 0).visits(1)),
            told("not so with a tree of one bad word", vec![5], "s7.0", clear(DAMAGED, 0).visits(1)),
        ]);
    }
    edges
}

fn bad_books() -> Vec<Edge> {
    let long = vec![0; 16_385];
    let bad = |name: &str, shape, book, tree, term: &str| unwalked(name, shape, book, tree, term, clear(BAD_BOOK, 0).visits(0));
    let both = |shape| {
        let sound = bad("a bad book", shape, Vec::new(), tree_a(), "s2.2 s7.0 s7.0");
        [sound, bad("a bad book, and a tree over its size", shape, vec![1], long.clone(), "v0")]
    };
    [Shape::Root, Shape::All(9)].into_iter().flat_map(both).collect()
}

/// An edge after a walk, by one rule and its own tree.
fn after(name: &str, rule: Rule, shape: Shape, term: Vec<u32>, told: Told) -> Edge {
    let book = book(&[rule]);
    let tree = gen::compiled(&book);
    edge(format!("after a walk: {name}"), by(shape, book, tree, term), told)
}

/// Refused after so many steps.
fn refused(number: u32, at: u64, steps: u32, visits: u64) -> Told {
    clear(number, at).further(steps).visits(visits)
}

/// 15 and 18 keep what was walked: the search of the step that is refused, and those before it.
fn refused_steps() -> Vec<Edge> {
    let by = |name: &str, shape, term: &str, told| after(name, UNDER, shape, words(term), told);
    // Doubled below a root, the part of 2,048 words has 4,097.
    let half = [words("s1.1"), gen::wide(&mut Rng::new(3), 2_048)].concat();
    let over = || refused(OVER, 0, 0, 2);
    let cannot = || refused(CANNOT_TAKE, 1, 0, 2);
    let later = "s5.2 s1.1 s7.0 s1.1 v65535";
    let later_aside = "s5.2 s1.1 s7.0 s1.2 s7.0 s8.0";
    let so_far = "s5.2 l s7.0 s1.1 v65535";
    vec![
        after("over 4,096 words at the root", DOUBLE, Shape::Root, half.clone(), over()),
        after("over 4,096 words in a step", DOUBLE, Shape::All(9), half, over()),
        by("over id 65,535 at the root", Shape::Root, "s1.1 v65535", over()),
        by("over id 65,535 in the first step", Shape::All(9), "s1.1 v65535", over()),
        by("over id 65,535 in the second step", Shape::All(9), later, refused(OVER, 0, 1, 4 + 8)),
        by("a second step over id 65,535, budget 1", Shape::All(1), later, used(1, so_far, 4 + 8)),
        by("cannot take at the root", Shape::Root, "s1.2 s7.0 s8.0", cannot()),
        by("cannot take in the first step", Shape::All(9), "s1.2 s7.0 s8.0", cannot()),
        by("cannot take in the second step", Shape::All(9), later_aside, refused(CANNOT_TAKE, 1, 1, 4 + 8)),
    ]
}

/// 13 keeps all that was walked.
fn no_room() -> Vec<Edge> {
    let by = |name: &str, shape, term: &str, told| after(name, DOUBLE, shape, words(term), told);
    let ten = "s1.1 s0.9 s7.0 s7.0 s7.0 s7.0 s7.0 s7.0 s7.0 s7.0 s7.0";
    vec![
        by("no room for a body", Shape::Match, ten, refused(NO_ROOM, 0, 0, 2)),
        by("no room at the root", Shape::Root, ten, refused(NO_ROOM, 0, 0, 2)),
        by("no room at the end", Shape::All(9), ten, refused(NO_ROOM, 0, 1, 2 + 21 * 2)),
        by("no room with the budget used", Shape::All(0), &format!("s5.1 {ten}"), refused(NO_ROOM, 0, 0, 2 + 2)),
    ]
}

/// The budget is used after so many steps, and the term is this so far.
fn used(steps: u32, so_far: &str, visits: u64) -> Told {
    Told { words: Some(words(so_far)), ..answer(rosenduch::BUDGET_USED, 0) }.further(steps).visits(visits)
}

/// The last search counts, whatever it finds: with each budget one more search than steps.
fn budgets() -> Vec<Edge> {
    let book = book(&[(1, "s1.1 m0.0", "m0.0")]);
    let tree = gen::compiled(&book);
    let told = |budget, term: &str, told| {
        edge(format!("{term}, budget {budget}"), by(Shape::All(budget), book.clone(), tree.clone(), words(term)), told)
    };
    let finished = |steps, result: &str, visits| done(words(result)).further(steps).visits(visits);
    let (nested, beside) = ("s1.1 s1.1 s7.0", "s5.2 s1.1 s7.0 s1.1 s8.0");
    vec![
        told(0, nested, used(0, nested, 2)),
        told(1, nested, used(1, "s1.1 s7.0", 2 + 2)),
        told(2, nested, finished(2, "s7.0", 2 + 2 + 2)),
        told(65_535, nested, finished(2, "s7.0", 2 + 2 + 2)),
        told(0, beside, used(0, beside, 4)),
        told(1, beside, used(1, "s5.2 s7.0 s1.1 s8.0", 4 + 6)),
        told(2, beside, finished(2, "s5.2 s7.0 s8.0", 4 + 6 + 6)),
        told(0, "s7.0", finished(0, "s7.0", 2)),
    ]
}

/// The marked terms by rewriting at the root, and by simplifying with budget 0: where no rule fits, each offset after the root takes 2.
fn marked() -> Vec<Edge> {
    let (a, b) = ((book_a(), tree_a()), (book_b(), tree_b()));
    let table = [
        ("P1", &a, "s2.2 s7.0 s7.0", Some("s7.0"), 3),
        ("P2", &a, "s2.2 s7.0 s8.0", None, 3),
        ("P3", &a, "s3.1 l v2", Some("v1"), 4),
        ("P4", &a, "s3.1 l v1", None, 5),
        ("P5", &a, "s3.1 l s4.1 v1", Some("s4.1 s3.1 l v1"), 5),
        ("P6", &a, "s3.1 l s4.1 s7.0", Some("s4.1 s7.0"), 4),
        ("P7", &b, "s6.2 l v1 l l v2", Some("s7.0"), 7),
        ("P8", &b, "s6.2 l v1 l l v1", None, 6),
        ("P9", &b, "s6.2 l v2 l l v3", Some("s7.0"), 7),
        ("P10", &b, "s6.2 l v2 l l v2", None, 7),
    ];
    let mut edges = Vec::new();
    for (mark, (book, tree), term, new, visits) in table {
        let case = |shape| by(shape, book.clone(), tree.clone(), words(term));
        let at_root = new.map_or_else(|| clear(NONE_FITS, 0), |new| done(words(new)));
        let others = 2 * (words(term).len() as u64 - 1);
        let all = new.map_or_else(|| done(words(term)).further(0).visits(visits + others), |_| used(0, term, visits));
        edges.push(edge(format!("{mark} {term}, and the nodes visited"), case(Shape::Root), at_root.visits(visits)));
        edges.push(edge(format!("{mark} {term}, and the nodes visited"), case(Shape::All(0)), all));
    }
    edges
}

/// Switches without cases, one below the other, and then this.
fn switches(number: u32, last: &[u32]) -> Vec<u32> {
    let mut tree: Vec<u32> = (1..=number).flat_map(|next| [2, 0, 0, 4 * next]).collect();
    tree.extend(last);
    tree
}

/// As many Switches as a tree holds, over a term and over a term of 4,096 words; and a rule that never ends, as often as there can be steps.
fn sums() -> Vec<Edge> {
    let longest = |last: &[u32]| switches(4_095, last);
    let most = wide(3);
    let same = book(&[(0, "s1.0", "s1.0")]);
    let endless = by(Shape::All(u16::MAX), same.clone(), gen::compiled(&same), words("s1.0"));
    let search = Case::Simplify { book: same, tree: longest(&[0]), term: most.clone(), budget: 9, room: 4_096 };
    vec![
        edge("4,095 Switches and a Fail", by(Shape::Match, Vec::new(), longest(&[0]), words("s7.0")), clear(NONE_FITS, 0).visits(4_096)),
        edge(
            "4,095 Switches and a Leaf",
            by(Shape::Match, Vec::new(), longest(&[1, 63, 0, 0]), words("s7.0")),
            fits(&[]).further(63).visits(4_096),
        ),
        edge(
            "4,095 Switches and a bad tag",
            by(Shape::Match, Vec::new(), longest(&[5]), words("s7.0")),
            clear(DAMAGED, 16_380).visits(4_096),
        ),
        edge("4,095 Switches and a Fail, at 4,096 offsets", search, done(most).further(0).visits(4_096 * 4_096)),
        edge("65,535 steps", endless, used(65_535, "s1.0", 65_536 * 2)),
    ]
}

/// More visits than 32 bits hold: 257 searches of 4,096 offsets, the last of which alone has a rule.
pub fn largest() -> Edge {
    let mut term = wide(3);
    *term.last_mut().unwrap_or(&mut 0) = words("s1.0")[0];
    let root = words("2 0 1 s1.0 6 10 1 0 0 0");
    let below = (0..4_093).flat_map(|node| [2, 0, 0, 14 + 4 * node]);
    let tree: Vec<u32> = root.into_iter().chain(below).chain([0]).collect();
    let case = Case::Simplify { book: book(&[(0, "s1.0", "s1.0")]), tree, term: term.clone(), budget: 256, room: 4_096 };
    let told = Told { words: Some(term), ..answer(rosenduch::BUDGET_USED, 0) };
    edge("more nodes visited than 32 bits hold", case, told.further(256).visits(257 * (4_095 * 4_095 + 2)))
}

pub fn edges() -> Vec<Edge> {
    flat([roots(), settled(), damaged_later(), before(), bad_books(), refused_steps(), no_room(), budgets(), marked(), sums()])
}
