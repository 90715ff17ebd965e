//! The operations that walk, without the nodes visited: those are asked for in
//! visits.rs, everything else in the other files.

use second::Answer;

#[allow(dead_code)]
pub fn match_tree(
    tree: &[u32],
    term: &[u32],
    bodies: &mut [u32],
    lengths: &mut [u32; 16],
) -> (Answer, u32, u32) {
    let (answer, rule, aside, _) = second::match_tree(tree, term, bodies, lengths);
    (answer, rule, aside)
}

#[allow(dead_code)]
pub fn rewrite_root(book: &[u32], tree: &[u32], term: &[u32], out: &mut [u32]) -> Answer {
    second::rewrite_root(book, tree, term, out).0
}

#[allow(dead_code)]
pub fn simplify(
    book: &[u32],
    tree: &[u32],
    term: &[u32],
    budget: u16,
    out: &mut [u32],
) -> (Answer, u32) {
    let (answer, steps, _) = second::simplify(book, tree, term, budget, out);
    (answer, steps)
}
