//! What a seeded case of a rule for a front part of the arguments shows, so that a run can tell what it met.

use second::book::{self, Book};
use second::right::{write_right, written_root};
use second::term::Laid;
use second::walk::{walk, Found};
use second::words::{count, id, kind, ABSTRACTION, PATTERN, SYMBOL, VARIABLE};

/// By what is at the root of what is written: the right side's own word, a body's, or that of a parameter's child.
const SYMBOL_TAKES: [&str; 3] = ["a symbol takes", "a body's symbol takes", "a parameter's symbol takes"];
const FIFTEEN: [&str; 3] = ["a symbol, sum 15", "a body's symbol, sum 15", "a parameter's symbol, sum 15"];
const OVER_FIFTEEN: [&str; 3] = ["a symbol, sum over 15", "a body's symbol, sum over 15", "a parameter's symbol, sum over 15"];
const NO_SYMBOL: [&str; 5] =
    ["an abstraction", "a body's abstraction", "a body's variable", "a parameter's abstraction", "a parameter's variable"];

const DAMAGE: &str = "damage";
const NONE_FITS: &str = "no rule fits";
const NONE_ASIDE: &str = "nothing set aside";
const MOST: &str = "a root with 15 arguments";
const SIXTEEN: &str = "sum 16";
const BOTH: &str = "cannot take, and over a limit";
const OVER: &str = "takes, and over a limit";

/// All kinds.
pub fn all() -> impl Iterator<Item = &'static str> {
    let others = [DAMAGE, NONE_FITS, NONE_ASIDE, MOST, SIXTEEN, BOTH, OVER];
    SYMBOL_TAKES.into_iter().chain(FIFTEEN).chain(OVER_FIFTEEN).chain(NO_SYMBOL).chain(others)
}

/// The kinds of a rewriting, by the first of the term's offsets where the tree names a rule.
pub fn kinds(book: &[u32], tree: &[u32], term: &[u32], offsets: usize) -> Vec<&'static str> {
    let (Ok(book), 0) = (book::read(book), second::check_term(term).number) else {
        return Vec::new();
    };
    let laid = Laid::of(term);
    for at in 0..offsets.min(term.len()) {
        match walk(tree, &laid, at, Some(&book), &mut 0) {
            Err(_) => return vec![DAMAGE],
            Ok(Some(found)) if found.aside == 0 => return vec![NONE_ASIDE],
            Ok(Some(found)) => return found_kinds(&book, &found, &laid, at),
            Ok(None) => {}
        }
    }
    vec![NONE_FITS]
}

fn found_kinds(book: &Book, found: &Found, term: &Laid, at: usize) -> Vec<&'static str> {
    let rule = &book.rules[found.rule];
    let root = written_root(rule, &found.bodies);
    let sum = count(root) + found.aside;
    let refused = kind(root) != SYMBOL || sum > 15;
    let over = write_right(rule, &found.bodies, term.nesting[at]).is_err();
    let mut kinds = vec![root_kind(root, sum, way(rule.right.words[0], found))];
    let further = [
        (MOST, count(term.words[at]) == 15),
        (SIXTEEN, kind(root) == SYMBOL && sum == 16),
        (BOTH, refused && over),
        (OVER, !refused && over),
    ];
    kinds.extend(further.into_iter().filter(|kind| kind.1).map(|kind| kind.0));
    kinds
}

/// Where the root of what is written comes from: 0 the right side's first word itself, 1 a body, 2 a parameter's child.
fn way(own: u32, found: &Found) -> usize {
    if kind(own) != PATTERN {
        return 0;
    }
    let body = found.bodies[id(own) as usize][0];
    let is_parameter = kind(body) == VARIABLE && id(body) <= count(own);
    1 + usize::from(is_parameter)
}

fn root_kind(root: u32, sum: u32, way: usize) -> &'static str {
    match (kind(root), sum) {
        (SYMBOL, 15) => FIFTEEN[way],
        (SYMBOL, 0..=14) => SYMBOL_TAKES[way],
        (SYMBOL, _) => OVER_FIFTEEN[way],
        (ABSTRACTION, _) => NO_SYMBOL[[0, 1, 3][way]],
        // A right side's own root is no variable.
        _ => NO_SYMBOL[[0, 2, 4][way]],
    }
}
