//! What the nodes visited of a seeded case show, so that a run can tell what it met.

use crate::case::Case;
use crate::outcome::Outcome;

const MATCH: usize = 5;
const ROOT: usize = 6;
const ALL: usize = 7;

/// The operations that walk, by their place in `OPERATIONS`.
pub const WALKS: [usize; 3] = [MATCH, ROOT, ALL];

/// A kind, and the operations that have it.
pub type Kind = (&'static str, &'static [usize]);

const NO_BOOK: &str = "a bad book, none";
const NO_TERM: &str = "a bad term, none";
const TOO_LONG: &str = "a tree over its size, none";
const NO_TREE: &str = "no tree, one";
const DAMAGED_ROOT: &str = "the root damaged, one";
const DAMAGED_BELOW: &str = "a node below damaged";
const DAMAGED_LATER: &str = "the root damaged, at a later offset";
const DAMAGED_AFTER: &str = "damage after a step";
const ONE: &str = "none fits, one node";
const SETTLED: &str = "none fits, by the root alone";
const FURTHER: &str = "none fits, further down";
const FITS: &str = "a rule fits";
const NO_ROOM: &str = "no room";
const OVER: &str = "over a limit, first step";
const OVER_AFTER: &str = "over a limit, after a step";
const CANNOT: &str = "cannot take, first step";
const CANNOT_AFTER: &str = "cannot take, after a step";
const BUDGET_0: &str = "budget 0, a rule fits";
const BUDGET: &str = "the budget used";
const NOWHERE: &str = "a single search, nothing found";
const ENDED: &str = "steps, and nothing found";

/// All kinds.
pub const KINDS: [Kind; 21] = [
    (NO_BOOK, &[ROOT, ALL]),
    (NO_TERM, &WALKS),
    (TOO_LONG, &WALKS),
    (NO_TREE, &WALKS),
    (DAMAGED_ROOT, &WALKS),
    (DAMAGED_BELOW, &WALKS),
    (DAMAGED_LATER, &[ALL]),
    (DAMAGED_AFTER, &[ALL]),
    (ONE, &[MATCH, ROOT]),
    (SETTLED, &[MATCH, ROOT]),
    (FURTHER, &[MATCH, ROOT]),
    (FITS, &[MATCH, ROOT]),
    (NO_ROOM, &WALKS),
    (OVER, &[ROOT, ALL]),
    (OVER_AFTER, &[ALL]),
    (CANNOT, &[ROOT, ALL]),
    (CANNOT_AFTER, &[ALL]),
    (BUDGET_0, &[ALL]),
    (BUDGET, &[ALL]),
    (NOWHERE, &[ALL]),
    (ENDED, &[ALL]),
];

/// The tree of a case that walks, and its budget, if any.
fn walked(case: &Case) -> Option<(&[u32], u16)> {
    match case {
        Case::MatchTree { tree, .. } | Case::RewriteRoot { tree, .. } => Some((tree, 0)),
        Case::Simplify { tree, budget, .. } => Some((tree, *budget)),
        _ => None,
    }
}

/// The kind of a case that walks.
pub fn kind(case: &Case, outcome: &Outcome) -> Option<&'static str> {
    let (tree, budget) = walked(case)?;
    let all = case.operation() == ALL;
    let after = all && outcome.further > 0;
    Some(match (outcome.number, outcome.visits) {
        (12, _) => NO_BOOK,
        (11, _) => NO_TERM,
        (14, _) => damage(tree, outcome, after),
        (1, 1) => ONE,
        (1, 2) => SETTLED,
        (1, _) => FURTHER,
        (2, _) if budget == 0 => BUDGET_0,
        (2, _) => BUDGET,
        (13, _) => NO_ROOM,
        (15, _) => [OVER, OVER_AFTER][usize::from(after)],
        (18, _) => [CANNOT, CANNOT_AFTER][usize::from(after)],
        _ if !all => FITS,
        _ => [NOWHERE, ENDED][usize::from(after)],
    })
}

fn damage(tree: &[u32], outcome: &Outcome, after: bool) -> &'static str {
    match outcome.visits {
        _ if tree.len() > rosenduch::MOST_TREE => TOO_LONG,
        _ if tree.is_empty() => NO_TREE,
        _ if after => DAMAGED_AFTER,
        _ if outcome.at > 0 => DAMAGED_BELOW,
        1 => DAMAGED_ROOT,
        _ => DAMAGED_LATER,
    }
}

/// Whether nothing is visited exactly where nothing is walked, and as many nodes as searches or more where something is.
pub fn is_lawful(case: &Case, outcome: &Outcome) -> bool {
    let searches = if case.operation() == ALL { u64::from(outcome.further) + 1 } else { 1 };
    match kind(case, outcome) {
        None | Some(NO_BOOK | NO_TERM | TOO_LONG) => outcome.visits == 0,
        Some(_) => outcome.visits >= searches,
    }
}
