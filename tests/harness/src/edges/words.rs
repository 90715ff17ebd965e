//! Terms, books and trees for the edges, in document 01's tokens.

use second::words::{pattern, symbol, variable, LAMBDA};

fn word(token: &str) -> u32 {
    let number = |digits: &str| digits.parse::<u32>().unwrap_or_else(|_| panic!("no token: {token}"));
    let two = |rest: &str| rest.split_once('.').map(|(id, count)| (number(id), number(count)));
    if token == "l" {
        return LAMBDA;
    }
    match token.split_at(1) {
        ("v", id) => variable(number(id)),
        ("s", rest) => two(rest).map_or_else(|| panic!("no token: {token}"), |(id, count)| symbol(id, count)),
        ("m", rest) => two(rest).map_or_else(|| panic!("no token: {token}"), |(id, count)| pattern(id, count)),
        _ => number(token),
    }
}

/// The words of tokens parted by blanks. A bare number is that word, whatever it means.
pub fn words(tokens: &str) -> Vec<u32> {
    tokens.split_whitespace().map(word).collect()
}

/// A rule's number of variables, left side and right side.
pub type Rule<'a> = (u32, &'a str, &'a str);

pub fn book(rules: &[Rule]) -> Vec<u32> {
    let mut out = vec![rules.len() as u32];
    for &(vars, left, right) in rules {
        out.extend(rule(vars, &words(left), &words(right)));
    }
    out
}

/// The words of one rule.
pub fn rule(vars: u32, left: &[u32], right: &[u32]) -> Vec<u32> {
    [&[vars, left.len() as u32, right.len() as u32], left, right].concat()
}

/// Document 01's book A.
pub fn book_a() -> Vec<u32> {
    book(&[(1, "s2.2 m0.0 m0.0", "m0.0"), (1, "s3.1 l m0.0", "m0.0"), (1, "s3.1 l s4.1 m0.1 v1", "s4.1 s3.1 l m0.1 v1")])
}

/// Document 01's book B, with a leaf on the right.
pub fn book_b() -> Vec<u32> {
    book(&[(1, "s6.2 l m0.1 v1 l l m0.1 v2", "s7.0")])
}

/// A symbol with so many leaves.
pub fn bush(id: u32, leaves: u32) -> Vec<u32> {
    let mut out = vec![0; leaves as usize + 1];
    out[0] = symbol(id, leaves);
    out
}

/// Nodes with one child, down to a leaf: as many words as it nests.
pub fn chain(nesting: usize) -> Vec<u32> {
    rungs(nesting, 0)
}

/// A term of so many words: each node has leaves and, as its last child, the next node.
pub fn rungs(length: usize, leaves: usize) -> Vec<u32> {
    let at = |i: usize| if i + 1 < length && i.is_multiple_of(leaves + 1) { symbol(0, leaves as u32 + 1) } else { 0 };
    (0..length).map(at).collect()
}

/// A wide term: nodes of 15 children, of which 14 are bushes and the last is the next node, 18 times over; then a node of so many children, of
/// which three are bushes. With 3 it has 4,096 words, with 4 it has 4,097.
pub fn wide(last: u32) -> Vec<u32> {
    let node = || [vec![symbol(0, 15)], bush(0, 15).repeat(14)].concat();
    let mut out: Vec<u32> = (0..18).flat_map(|_| node()).collect();
    out.push(symbol(0, last));
    out.extend(bush(0, 14).repeat(3));
    out.resize(out.len() + last as usize - 3, 0);
    out
}
