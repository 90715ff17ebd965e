//! Compiling: the trees of document 01's books, the room for them, refused books, and the largest and deepest trees.

use second::words::{pattern, symbol, LAMBDA};

use super::words::{book_a, book_b, rule, words};
use super::{answer, clear, done, edge, flat, Edge, Told, BAD_BOOK, NO_ROOM};
use crate::case::Case;

/// A tree whose root Switch has these symbols, each from its smallest count up to 15, with the subtree for a symbol and a count at an address; its
/// default is a Fail.
fn rooted(symbols: &[(u32, u32)], below: impl Fn(u32, u32, u32) -> Vec<u32>) -> Vec<u32> {
    let cases: Vec<_> = symbols.iter().flat_map(|&(id, least)| (least..=15).map(move |count| (id, count))).collect();
    let first = 4 + 2 * cases.len() as u32;
    let mut root = vec![2, 0, cases.len() as u32];
    let mut subtrees = Vec::new();
    for (id, count) in cases {
        let at = first + subtrees.len() as u32;
        root.extend([symbol(id, count), at]);
        subtrees.extend(below(id, count, at));
    }
    root.push(first + subtrees.len() as u32);
    [root, subtrees, vec![0]].concat()
}

/// The words of a subtree at an address: a token `+n` is the address n words after its first.
pub fn subtree(at: u32, tokens: &str) -> Vec<u32> {
    let token = |token: &str| match token.strip_prefix('+') {
        Some(after) => vec![at + words(after)[0]],
        None => words(token),
    };
    tokens.split_whitespace().flat_map(token).collect()
}

/// Book A's tree below `s2`: rule 0. The parts are at 1 and 2, one Fail is there.
fn below_s2(count: u32, at: u32) -> Vec<u32> {
    let aside = count - 2;
    subtree(at, &format!("4 1 2 0 +6 +12 1 0 1 {aside} 1 0 0"))
}

/// Below `s3`: rules 1 and 2. The children of `l` and of `s4.1` come after those of the root, two Fails are there.
fn below_s3(count: u32, at: u32) -> Vec<u32> {
    let (aside, loop_part, inner) = (count - 1, count + 1, count + 2);
    let asks = format!("2 1 1 l +6 +31 3 {loop_part} 0 +11 +17 1 1 1 {aside} {loop_part} 0");
    subtree(at, &format!("{asks} 2 {loop_part} 1 s4.1 +23 +30 1 2 1 {aside} {inner} 1 1 0 0"))
}

/// Below `s6`: book B's rule. The children of the three abstractions come after those of the root, five Fails are there.
fn below_s6(count: u32, at: u32) -> Vec<u32> {
    let (aside, first, outer, later) = (count - 2, count + 1, count + 2, count + 3);
    let down = format!("2 1 1 l +6 +43 2 2 1 l +12 +42 2 {outer} 1 l +18 +41");
    subtree(at, &format!("{down} 3 {later} 1 2 +24 +40 4 {first} {later} 1 1 2 +32 +39 1 0 1 {aside} {first} 1 1 0 0 0 0 0"))
}

/// The tree of book A: 62 words of the root, 14 times 13, 15 times 32 and a Fail are 725, and 14, 15 times 2 and 1 of its nodes are Fails.
pub fn tree_a() -> Vec<u32> {
    rooted(&[(2, 2), (3, 1)], |id, count, at| if id == 2 { below_s2(count, at) } else { below_s3(count, at) })
}

/// The tree of book B: 32 words of the root, 14 times 44 and a Fail are 649.
pub fn tree_b() -> Vec<u32> {
    rooted(&[(6, 2)], |_, count, at| below_s6(count, at))
}

fn compiled(name: &str, book: Vec<u32>, room: usize, told: Told) -> Edge {
    edge(name, Case::Compile { book, room }, told)
}

/// Done, with these words.
fn tree(words: Vec<u32>) -> Told {
    let length = words.len() as u32;
    done(words).further(length)
}

fn marked() -> Vec<Edge> {
    let a = || tree(tree_a());
    vec![
        compiled("book A, 725 words of which 45 are Fails", book_a(), 725, a()),
        compiled("book B, and zeros after its tree", book_b(), 700, tree(tree_b())),
        compiled("book A, one word short", book_a(), 724, clear(NO_ROOM, 0)),
        compiled("book A, two words more", book_a(), 727, a()),
        compiled("book A, no room", book_a(), 0, clear(NO_ROOM, 0)),
    ]
}

fn refusals() -> Vec<Edge> {
    let bad = |name: &str, book: Vec<u32>, at| compiled(name, book, 2, clear(BAD_BOOK, at));
    vec![
        compiled("no rules", vec![0], 2, tree(words("0"))),
        bad("no book", Vec::new(), 0),
        bad("a book with a word after it", vec![0, 0], 0),
        bad("65 rules", vec![65], 64),
        bad("book A without its last word", book_a()[..27].to_vec(), 2),
    ]
}

const RULES: u32 = 64;

/// The book with most root cases: its rules have one symbol each, no two the same, and no arguments, so each has 16 counts.
fn widest() -> Vec<u32> {
    let mut out = vec![RULES];
    (0..RULES).for_each(|id| out.extend(rule(0, &[id], &[0])));
    out
}

/// Its tree, 6,149 words: a Switch of 1,024 cases, their Leaves, and a Fail.
fn widest_tree() -> Vec<u32> {
    let symbols: Vec<_> = (0..RULES).map(|id| (id, 0)).collect();
    rooted(&symbols, |id, count, _| vec![1, id, 0, count])
}

/// The book with most rows in each count: its rules have one symbol, with one leaf each, no two the same.
fn fullest() -> Vec<u32> {
    let mut out = vec![RULES];
    (0..RULES).for_each(|id| out.extend(rule(0, &[symbol(1_000, 1), id], &[0])));
    out
}

/// Its tree, 5,870 words: for each count a Switch of 64 cases, their Leaves, and a Fail.
fn fullest_tree() -> Vec<u32> {
    let below = |_, count, at| {
        let leaves = at + 4 + 2 * RULES;
        let mut out = vec![2, 1, RULES];
        (0..RULES).for_each(|id| out.extend([id, leaves + 4 * id]));
        out.push(leaves + 4 * RULES);
        (0..RULES).for_each(|id| out.extend([1, id, 0, count - 1]));
        out.push(0);
        out
    };
    rooted(&[(1_000, 1)], below)
}

/// A left side of 64 words: child a of the root has `inner` children, of which child b is made to fill it. All other children are variables, each
/// its own; so many there are.
fn with_part(outer: usize, inner: usize, number: usize, part: fn(usize, u32) -> Vec<u32>) -> Vec<u32> {
    let (a, b) = (number / inner % outer, number % inner);
    let others = outer + inner - 2;
    let variables = |from: usize, number: usize| (from..from + number).map(|id| pattern(id as u32, 0)).collect::<Vec<_>>();
    let part = part(62 - others, others as u32);
    let below = [vec![symbol(2, inner as u32)], variables(outer - 1, b), part, variables(outer - 1 + b, inner - 1 - b)].concat();
    [vec![symbol(1, outer as u32)], variables(0, a), below, variables(a, outer - 1 - a)].concat()
}

/// An abstraction with symbols below it, so many words, whose leaves are all one variable. Each is to be closed, and the same as the first.
fn thicket(length: usize, variable: u32) -> Vec<u32> {
    let mut out = vec![LAMBDA];
    while out.len() < length {
        let left = length - out.len();
        let node = left.min(16);
        out.push(symbol(3, node as u32 - 1));
        out.resize(out.len() + node - if left > 16 { 2 } else { 1 }, pattern(variable, 0));
    }
    out
}

/// The deepest book: each of 30 rules asks at places of its own, so the tree goes down through rule after rule, 2,845 nodes before it is over its
/// size. The other rules are there again, so that many rows are gone through at each node.
fn deepest() -> Vec<u32> {
    let mut out = vec![RULES];
    (0..64).for_each(|number| out.extend(rule(10, &with_part(5, 6, number, thicket), &[0])));
    out
}

/// The book with most Switches one below the other, 2,478 of them before its tree is over its size.
fn most_switches() -> Vec<u32> {
    let mut out = vec![RULES];
    (0..64).for_each(|number| out.extend(rule(13, &with_part(8, 7, number, |length, _| symbols(length)), &[0])));
    out
}

/// So many symbols: bushes of eight words, each the last child of the one before.
fn symbols(number: usize) -> Vec<u32> {
    let at = |i: usize| match (number - i).min(9) {
        left if i.is_multiple_of(8) => symbol(3, left as u32 - 1),
        _ => 0,
    };
    (0..number).map(at).collect()
}

/// Two rules: the root of each has symbols below it, those of one as its first child and those of the other as its second. Its other children
/// are variables, `more` beside one. The symbols of the first times those of the second, seven times, are the words for each count that the root
/// may have, and some more.
fn pair(more: usize, first: usize, second: usize) -> Vec<u32> {
    let variables: Vec<u32> = (0..=more).map(|id| pattern(id as u32, 0)).collect();
    let root = [symbol(1, more as u32 + 2)];
    let one = [&root, &symbols(first)[..], &variables].concat();
    let other = [&root, &variables[..1], &symbols(second), &variables[1..]].concat();
    let vars = more as u32 + 1;
    [vec![2], rule(vars, &one, &[0]), rule(vars, &other, &[0])].concat()
}

fn limits() -> Vec<Edge> {
    let most = rosenduch::MOST_TREE;
    let whole = || answer(rosenduch::DONE, 0).further(most as u32);
    vec![
        compiled("64 rules with one symbol each, 1,024 root cases", widest(), most, tree(widest_tree())),
        compiled("64 rules with one symbol, all in each of 15 counts", fullest(), most, tree(fullest_tree())),
        compiled("64 rules of 64 words, one below the other", deepest(), most, clear(NO_ROOM, 0)),
        compiled("64 rules of 64 words, Switch below Switch", most_switches(), most, clear(NO_ROOM, 0)),
        compiled("a tree of 16,384 words, 11 counts", pair(3, 59, 1), most, whole()),
        compiled("a tree of 16,384 words, one word short", pair(3, 59, 1), most - 1, clear(NO_ROOM, 0)),
        compiled("a tree of 16,385 words, 14 counts", pair(0, 7, 22), most, clear(NO_ROOM, 0)),
        compiled("a tree of 16,385 words, and room for it", pair(0, 7, 22), most + 1, clear(NO_ROOM, 0)),
    ]
}

pub fn edges() -> Vec<Edge> {
    flat([marked(), refusals(), limits()])
}
