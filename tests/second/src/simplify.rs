//! Rewriting at the root, and simplifying.

use crate::answer::{give, of, Answer, BUDGET_USED, CANNOT_TAKE, NO_RULE_FITS, TOO_LARGE};
use crate::book::{self, Book};
use crate::fit::checked;
use crate::right::{write_right, written_root};
use crate::term::{check_term, Laid};
use crate::walk::{check_length, walk, Found};
use crate::words::{count, id, kind, word, MAX_ARGUMENTS, SYMBOL};

/// The root of what is written once it has taken the arguments set aside, or
/// 18 if it can't take them.
fn taking(root: u32, aside: u32) -> Result<u32, Answer> {
    let sum = count(root) + aside;
    if aside > 0 && (kind(root) != SYMBOL || sum > MAX_ARGUMENTS) {
        return Err(Answer::new(CANNOT_TAKE, aside));
    }
    Ok(word(kind(root), sum, id(root)))
}

/// The whole term after the part at `at` was rewritten, or 18 or 15.
fn rewritten(book: &Book, term: &Laid, at: usize, found: &Found) -> Result<Vec<u32>, Answer> {
    let too_large = Answer::new(TOO_LARGE, 0);
    let rule = &book.rules[found.rule];
    let root = taking(written_root(rule, &found.bodies), found.aside)?;
    let mut part =
        write_right(rule, &found.bodies, term.nesting[at]).map_err(|_| too_large)?;
    if found.aside > 0 {
        part[0] = root;
        let kept = (count(term.words[at]) - found.aside) as usize;
        part.extend(&term.words[term.children(at)[kept]..term.end[at]]);
    }
    let mut new = term.words[..at].to_vec();
    new.extend(part);
    new.extend(&term.words[term.end[at]..]);
    if check_term(&new) != Answer::DONE {
        return Err(too_large);
    }
    Ok(new)
}

/// Beside the answer, the nodes visited.
pub fn rewrite_root(book: &[u32], tree: &[u32], term: &[u32], out: &mut [u32]) -> (Answer, u64) {
    out.fill(0);
    let mut visits = 0;
    let answer = of((|| {
        let book = book::read(book)?;
        let term = checked(term)?;
        check_length(tree)?;
        let found = walk(tree, &term, 0, Some(&book), &mut visits)?;
        let found = found.ok_or(Answer::new(NO_RULE_FITS, 0))?;
        give(&rewritten(&book, &term, 0, &found)?, out)
    })());
    (answer, visits)
}

/// What a run has done so far.
#[derive(Clone, Copy, Debug, Default, PartialEq, Eq)]
pub struct Done {
    /// The steps completed.
    pub steps: u32,
    /// The nodes visited by all walks of all searches.
    pub visits: u64,
}

/// The lowest offset where the walk finds a rule.
fn lowest(
    book: &Book,
    tree: &[u32],
    term: &Laid,
    visits: &mut u64,
) -> Result<Option<(usize, Found)>, Answer> {
    for at in 0..term.len() {
        if let Some(found) = walk(tree, term, at, Some(book), visits)? {
            return Ok(Some((at, found)));
        }
    }
    Ok(None)
}

/// Simplifies a checked term; `done` counts, also where it is refused. The
/// answer is 0 or 2 with the term so far.
pub fn simplify_checked(
    book: &Book,
    tree: &[u32],
    term: Laid,
    budget: u16,
    done: &mut Done,
) -> Result<(u32, Vec<u32>), Answer> {
    let mut term = term;
    loop {
        let Some((at, found)) = lowest(book, tree, &term, &mut done.visits)? else {
            return Ok((0, term.words));
        };
        if done.steps == u32::from(budget) {
            return Ok((BUDGET_USED, term.words));
        }
        term = Laid::of(&rewritten(book, &term, at, &found)?);
        done.steps += 1;
    }
}

/// Beside the answer, the steps completed and the nodes visited.
pub fn simplify(
    book: &[u32],
    tree: &[u32],
    term: &[u32],
    budget: u16,
    out: &mut [u32],
) -> (Answer, u32, u64) {
    out.fill(0);
    let mut done = Done::default();
    let mut number = 0;
    let answer = of((|| {
        let book = book::read(book)?;
        let term = checked(term)?;
        check_length(tree)?;
        let (reached, result) = simplify_checked(&book, tree, term, budget, &mut done)?;
        number = reached;
        give(&result, out)
    })());
    let answer = if answer == Answer::DONE { Answer::new(number, 0) } else { answer };
    (answer, done.steps, done.visits)
}
