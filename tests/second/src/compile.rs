//! The tree compiler.

use std::rc::Rc;

use crate::answer::{give, of, Answer, TOO_SHORT};
use crate::book::{self, Book, Rule};
use crate::words::{count, id, kind, symbol, MAX_ARGUMENTS, PATTERN};

pub const MAX_TREE: usize = 16_384;

pub const FAIL: u32 = 0;
pub const LEAF: u32 = 1;
pub const SWITCH: u32 = 2;
pub const CLOSED: u32 = 3;
pub const SAME: u32 = 4;

/// A condition on the occurrences of a row's rule, named by their numbers.
#[derive(Clone, Copy)]
enum Constraint {
    Closed(usize),
    /// The first occurrence of a variable and a later one.
    Same(usize, usize),
}

/// A constraint as it reads on one path: with places instead of occurrences.
#[derive(Clone, PartialEq, Eq)]
enum Test {
    Closed { place: u32, list: Vec<u32> },
    Same { places: [u32; 2], lists: [Vec<u32>; 2] },
}

impl Test {
    /// Same places and lists; for closedness the list as a set.
    fn same_as(&self, other: &Test) -> bool {
        match (self, other) {
            (Test::Closed { place, list }, Test::Closed { place: p, list: l }) => {
                let (mut a, mut b) = (list.clone(), l.clone());
                a.sort_unstable();
                b.sort_unstable();
                place == p && a == b
            }
            _ => self == other,
        }
    }
}

#[derive(Clone)]
struct Row {
    rule: usize,
    /// Open places with a symbol or abstraction: place and offset in the left.
    open: Vec<(u32, usize)>,
    /// For each occurrence its place, once that is uncovered.
    places: Vec<Option<u32>>,
    /// Those left, in order.
    constraints: Vec<Constraint>,
    /// Arguments of the root set aside; known once the root is entered.
    aside: u32,
}

impl Row {
    fn of(number: usize, rule: &Rule) -> Row {
        let mut constraints = Vec::new();
        for (n, o) in rule.occurrences.iter().enumerate() {
            if o.list.len() as u32 != o.d {
                constraints.push(Constraint::Closed(n));
            }
        }
        for (n, o) in rule.occurrences.iter().enumerate() {
            let first = rule.first(o.variable);
            if first != n {
                constraints.push(Constraint::Same(first, n));
            }
        }
        Row {
            rule: number,
            open: vec![(0, 0)],
            places: vec![None; rule.occurrences.len()],
            constraints,
            aside: 0,
        }
    }

    /// The constraint with its places; None while one of them is covered.
    fn test(&self, rule: &Rule, constraint: Constraint) -> Option<Test> {
        let list = |n: usize| rule.occurrences[n].list.clone();
        Some(match constraint {
            Constraint::Closed(n) => Test::Closed { place: self.places[n]?, list: list(n) },
            Constraint::Same(a, b) => Test::Same {
                places: [self.places[a]?, self.places[b]?],
                lists: [list(a), list(b)],
            },
        })
    }

    /// Where the given test stands among the constraints left.
    fn position(&self, rule: &Rule, test: &Test) -> Option<usize> {
        self.constraints
            .iter()
            .position(|&c| self.test(rule, c).is_some_and(|t| t.same_as(test)))
    }

    /// The offset of the symbol or abstraction at an open place.
    fn head_at(&self, place: u32) -> Option<usize> {
        self.open.iter().find(|o| o.0 == place).map(|o| o.1)
    }

    /// The row after its node at `place` was entered; `next` is the number of
    /// the node's first child.
    fn enter(&self, rule: &Rule, place: u32, at: usize, next: u32) -> Row {
        let mut row = self.clone();
        row.open.retain(|o| o.0 != place);
        for (child, new) in rule.left.children(at).into_iter().zip(next..) {
            if kind(rule.left.words[child]) == PATTERN {
                if let Some(n) = rule.occurrence_at(child) {
                    row.places[n] = Some(new);
                }
            } else {
                row.open.push((new, child));
            }
        }
        row
    }
}

/// A subtree still to be written: its rows, the first number for new places,
/// and the word that is to hold its address.
struct Pending {
    rows: Vec<Rc<Row>>,
    next: u32,
    address_at: Option<usize>,
}

/// The tree of a book, or None if it is over its size.
pub fn tree_of(book: &Book) -> Option<Vec<u32>> {
    let rows = book
        .rules
        .iter()
        .enumerate()
        .map(|(n, rule)| Rc::new(Row::of(n, rule)))
        .collect();
    let mut tree: Vec<u32> = Vec::new();
    // The last pending subtree is the next to be written, so that each node
    // is followed by its subtrees in order, without recursion.
    // The root is place 0, so the next place is 1.
    let mut pending = vec![Pending { rows, next: 1, address_at: None }];
    while let Some(Pending { rows, next, address_at }) = pending.pop() {
        if let Some(at) = address_at {
            tree[at] = tree.len() as u32;
        }
        let subtrees = write_node(book, &rows, next, &mut tree);
        if tree.len() > MAX_TREE {
            return None;
        }
        pending.extend(subtrees.into_iter().rev());
    }
    Some(tree)
}

/// Writes the node for a list of rows and hands back its subtrees in order.
fn write_node(book: &Book, rows: &[Rc<Row>], next: u32, tree: &mut Vec<u32>) -> Vec<Pending> {
    let Some(first) = rows.first() else {
        tree.push(FAIL);
        return Vec::new();
    };
    let lowest = first.open.iter().map(|o| o.0).min();
    if let Some(place) = lowest {
        return write_switch(book, rows, next, place, tree);
    }
    let rule = &book.rules[first.rule];
    let test = first.constraints.first().and_then(|&c| first.test(rule, c));
    match test {
        Some(test) => write_test(book, rows, next, &test, tree),
        None => {
            write_leaf(rule, first, tree);
            Vec::new()
        }
    }
}

fn write_leaf(rule: &Rule, row: &Row, tree: &mut Vec<u32>) {
    tree.extend([LEAF, row.rule as u32, rule.vars as u32, row.aside]);
    for variable in 0..rule.vars {
        let n = rule.first(variable);
        let list = &rule.occurrences[n].list;
        tree.extend([row.places[n].unwrap_or(0), list.len() as u32]);
        tree.extend(list);
    }
}

fn write_test(
    book: &Book,
    rows: &[Rc<Row>],
    next: u32,
    test: &Test,
    tree: &mut Vec<u32>,
) -> Vec<Pending> {
    match test {
        Test::Closed { place, list } => {
            tree.extend([CLOSED, *place, list.len() as u32]);
            tree.extend(list);
        }
        Test::Same { places, lists } => {
            tree.extend([SAME, places[0], places[1], lists[0].len() as u32]);
            tree.extend(&lists[0]);
            tree.extend(&lists[1]);
        }
    }
    let (mut yes, mut no) = (Vec::new(), Vec::new());
    for row in rows {
        match row.position(&book.rules[row.rule], test) {
            Some(n) => {
                let mut struck = Row::clone(row);
                struck.constraints.remove(n);
                yes.push(Rc::new(struck));
            }
            None => {
                yes.push(row.clone());
                no.push(row.clone());
            }
        }
    }
    let at = tree.len();
    tree.extend([0, 0]);
    vec![
        Pending { rows: yes, next, address_at: Some(at) },
        Pending { rows: no, next, address_at: Some(at + 1) },
    ]
}

fn write_switch(
    book: &Book,
    rows: &[Rc<Row>],
    next: u32,
    place: u32,
    tree: &mut Vec<u32>,
) -> Vec<Pending> {
    let heads = if place == 0 { root_heads(book, rows) } else { heads(book, rows, place) };
    tree.extend([SWITCH, place, heads.len() as u32]);
    let mut subtrees = Vec::new();
    for &w in &heads {
        let kept = rows.iter().filter_map(|row| in_case(book, row, place, w, next)).collect();
        tree.extend([w, 0]);
        let address_at = Some(tree.len() - 1);
        subtrees.push(Pending { rows: kept, next: next + count(w), address_at });
    }
    let kept = rows.iter().filter(|row| row.head_at(place).is_none()).cloned().collect();
    tree.push(0);
    subtrees.push(Pending { rows: kept, next, address_at: Some(tree.len() - 1) });
    subtrees
}

/// The heads at a place over all rows, in order of first appearance.
fn heads(book: &Book, rows: &[Rc<Row>], place: u32) -> Vec<u32> {
    let mut heads: Vec<u32> = Vec::new();
    for row in rows {
        if let Some(at) = row.head_at(place) {
            let w = book.rules[row.rule].left.words[at];
            if !heads.contains(&w) {
                heads.push(w);
            }
        }
    }
    heads
}

/// The heads at the root: each symbol in order of first appearance, with every
/// count from its smallest on.
fn root_heads(book: &Book, rows: &[Rc<Row>]) -> Vec<u32> {
    // Symbols with their smallest counts.
    let mut symbols: Vec<(u32, u32)> = Vec::new();
    for w in heads(book, rows, 0) {
        match symbols.iter_mut().find(|s| s.0 == id(w)) {
            Some(known) => known.1 = known.1.min(count(w)),
            None => symbols.push((id(w), count(w))),
        }
    }
    symbols
        .iter()
        .flat_map(|&(i, least)| (least..=MAX_ARGUMENTS).map(move |c| symbol(i, c)))
        .collect()
}

/// The row as it stands in the case of a head; None if it doesn't.
fn in_case(book: &Book, row: &Rc<Row>, place: u32, w: u32, next: u32) -> Option<Rc<Row>> {
    // Without a head, its pattern variable stands there or above.
    let Some(at) = row.head_at(place) else {
        return Some(row.clone());
    };
    let rule = &book.rules[row.rule];
    if place != 0 {
        let equal = rule.left.words[at] == w;
        return equal.then(|| Rc::new(row.enter(rule, place, at, next)));
    }
    let aside = rule.aside(w)?;
    let mut entered = row.enter(rule, place, at, next);
    entered.aside = aside;
    Some(Rc::new(entered))
}

pub fn compile(book: &[u32], out: &mut [u32]) -> Answer {
    out.fill(0);
    of((|| {
        let book = book::read(book)?;
        let tree = tree_of(&book).ok_or(Answer::new(TOO_SHORT, 0))?;
        give(&tree, out)
    })())
}
