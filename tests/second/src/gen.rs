//! Seeded random inputs: terms, books, bodies, trees and texts, whole and
//! damaged. Alphabets are small and left sides are planted, so that rules do
//! fit often. The `*_case` functions give the whole input of one operation.

use crate::answer::Answer;
use crate::book::{self, MAX_SIDE, MAX_SIDE_NESTING};
use crate::compile::{tree_of, CLOSED, FAIL, LEAF, MAX_TREE, SAME, SWITCH};
use crate::fit::build_left;
use crate::renumber::body_of;
use crate::rng::Rng;
use crate::term::{first_bad, Laid, MAX_NESTING, MAX_WORDS};
use crate::text::{words_text, MAX_TEXT};
use crate::words::{
    count, id, in_table, kind, pattern, symbol, variable, word, LAMBDA, PATTERN, SYMBOL, VARIABLE,
};

// ---------------------------------------------------------------- terms

/// The symbols in use, with a leaf among them.
#[derive(Clone, Debug)]
pub struct Alphabet {
    pub symbols: Vec<u32>,
}

pub fn alphabet(rng: &mut Rng) -> Alphabet {
    let mut symbols = vec![symbol(7, 0)];
    for _ in 0..rng.from_to(1, 5) {
        // Few ids, so that one id often has several counts.
        let most = if rng.chance(1, 12) { 15 } else { 3 };
        let i = match rng.below(20) {
            0 => 1_023,
            1 => 0,
            _ => rng.from_to(2, 6) as u32,
        };
        symbols.push(symbol(i, rng.below(most + 1) as u32));
    }
    Alphabet { symbols }
}

impl Alphabet {
    fn leaf(&self, rng: &mut Rng) -> u32 {
        let leaves: Vec<u32> = self.symbols.iter().copied().filter(|&w| count(w) == 0).collect();
        *rng.pick(&leaves)
    }

    fn any(&self, rng: &mut Rng) -> u32 {
        *rng.pick(&self.symbols)
    }
}

/// An id that is mostly near the edges of `above`.
fn variable_id(rng: &mut Rng, above: u32) -> u32 {
    match rng.below(60) {
        0 => 65_535 - rng.below(4) as u32,
        1 => rng.from_to(1, 65_535) as u32,
        2..=30 if above > 0 => rng.from_to(1, above as usize) as u32,
        _ => rng.from_to(1, above as usize + 3) as u32,
    }
}

/// Adds one part of about `size` words or fewer, nesting at most `room`.
fn grow(rng: &mut Rng, a: &Alphabet, size: usize, room: usize, above: u32, out: &mut Vec<u32>) {
    if size <= 1 || room <= 1 {
        if rng.chance(1, 2) {
            out.push(variable(variable_id(rng, above)));
        } else {
            out.push(a.leaf(rng));
        }
        return;
    }
    if rng.chance(1, 4) {
        out.push(LAMBDA);
        grow(rng, a, size - 1, room - 1, above + 1, out);
        return;
    }
    let w = a.any(rng);
    let c = count(w) as usize;
    if c == 0 && size > 4 && rng.chance(3, 4) {
        return grow(rng, a, size, room, above, out);
    }
    out.push(w);
    let mut left = size - 1;
    for n in 0..c {
        // Uneven shares, so that terms are deep at times and flat at others.
        let share = if n + 1 == c { left } else { rng.below(left + 1) };
        grow(rng, a, share.max(1), room - 1, above, out);
        left = left.saturating_sub(share);
    }
}

/// A whole term of about `size` words.
pub fn term(rng: &mut Rng, a: &Alphabet, size: usize) -> Vec<u32> {
    loop {
        let mut out = Vec::new();
        let room = if rng.chance(1, 6) { MAX_NESTING } else { rng.from_to(1, 12) };
        grow(rng, a, size, room, 0, &mut out);
        if out.len() <= MAX_WORDS {
            return out;
        }
    }
}

/// A term of mostly small size.
pub fn small_term(rng: &mut Rng, a: &Alphabet) -> Vec<u32> {
    let size = match rng.below(30) {
        0 => rng.from_to(100, 800),
        1..=4 => rng.from_to(20, 80),
        _ => rng.from_to(1, 16),
    };
    term(rng, a, size)
}

/// A chain of one-child nodes down to a leaf: exactly `nesting` deep.
pub fn chain(rng: &mut Rng, nesting: usize) -> Vec<u32> {
    let mut out = Vec::new();
    for _ in 1..nesting {
        out.push(if rng.chance(1, 2) { LAMBDA } else { symbol(4, 1) });
    }
    out.push(if rng.chance(1, 2) { variable(1) } else { symbol(7, 0) });
    out
}

/// A term of exactly `words` words (two or more) out of s2.2 and leaves.
pub fn wide(rng: &mut Rng, words: usize) -> Vec<u32> {
    fn fill(rng: &mut Rng, words: usize, out: &mut Vec<u32>) {
        if words == 1 {
            let leaf = [symbol(7, 0), variable(1), variable(2)];
            return out.push(*rng.pick(&leaf));
        }
        if words.is_multiple_of(2) {
            out.push(if rng.chance(1, 2) { LAMBDA } else { symbol(4, 1) });
            return fill(rng, words - 1, out);
        }
        out.push(symbol(2, 2));
        // An odd half for each child keeps the nesting low.
        let mut one = (words - 1) / 2;
        if one.is_multiple_of(2) {
            one -= 1;
        }
        fill(rng, one, out);
        fill(rng, words - 1 - one, out);
    }
    let mut out = Vec::new();
    fill(rng, words.max(1), &mut out);
    out
}

/// Terms at the edges of size and nesting, good or one too many.
pub fn edge_term(rng: &mut Rng) -> Vec<u32> {
    match rng.below(6) {
        0 => chain(rng, 64),
        1 => chain(rng, 65),
        2 => wide(rng, 4_096),
        3 => wide(rng, 4_097),
        4 => {
            let n = rng.from_to(4_000, 4_200);
            wide(rng, n)
        }
        _ => {
            let n = rng.from_to(60, 68);
            chain(rng, n)
        }
    }
}

/// A word that often breaks something.
pub fn odd_word(rng: &mut Rng) -> u32 {
    match rng.below(12) {
        0 => pattern(rng.below(18) as u32, rng.below(6) as u32),
        1 => word(rng.below(6) as u32, rng.below(18) as u32, rng.below(1_030) as u32),
        2 => variable(0),
        3 => word(VARIABLE, 1, 1),
        4 => word(1, rng.below(3) as u32, rng.below(2) as u32),
        5 => symbol(1_023 + rng.below(2) as u32, rng.below(2) as u32),
        6 => symbol(rng.below(8) as u32, 15 + rng.below(2) as u32),
        7 => rng.next() as u32,
        8 => u32::MAX - rng.below(2) as u32,
        9 => variable(rng.from_to(1, 4) as u32),
        10 => LAMBDA,
        _ => symbol(rng.below(8) as u32, rng.below(4) as u32),
    }
}

/// Changes one thing in a list of words.
pub fn damage_words(rng: &mut Rng, words: &mut Vec<u32>) {
    let at = rng.below(words.len());
    match rng.below(7) {
        0 => words.truncate(at),
        1 => {
            let w = odd_word(rng);
            words.push(w);
        }
        2 => {
            let w = odd_word(rng);
            words.insert(at, w);
        }
        3 if !words.is_empty() => {
            words.remove(at);
        }
        4 if !words.is_empty() => {
            let n = rng.below(3) as u32;
            words[at] = words[at].wrapping_add(n).wrapping_sub(1);
        }
        _ if !words.is_empty() => words[at] = odd_word(rng),
        _ => {}
    }
}

// ---------------------------------------------------------------- books

/// A rule before it is put into a book.
#[derive(Clone, Debug)]
pub struct Source {
    pub vars: u32,
    pub left: Vec<u32>,
    pub right: Vec<u32>,
}

/// The words of a book in memory.
pub fn book_words(rules: &[Source]) -> Vec<u32> {
    let mut words = vec![rules.len() as u32];
    for rule in rules {
        words.extend([rule.vars, rule.left.len() as u32, rule.right.len() as u32]);
        words.extend(&rule.left);
        words.extend(&rule.right);
    }
    words
}

pub(crate) fn side_is_whole(side: &[u32]) -> bool {
    first_bad(side, MAX_SIDE, MAX_SIDE_NESTING, in_table).is_none()
}

/// Adds a pattern variable under d abstractions; `counts` has those so far.
fn grow_occurrence(rng: &mut Rng, d: u32, counts: &mut Vec<u32>, out: &mut Vec<u32>) {
    let fitting: Vec<usize> = (0..counts.len()).filter(|&x| counts[x] <= d).collect();
    let x = if counts.len() >= 16 && fitting.is_empty() {
        return out.push(symbol(7, 0));
    } else if !fitting.is_empty() && (counts.len() >= 16 || rng.chance(1, 3)) {
        *rng.pick(&fitting)
    } else {
        // All of the abstractions at times, as then nothing needs a test.
        let most = d.min(4);
        let k = if rng.chance(1, 3) { most } else { rng.below(most as usize + 1) as u32 };
        counts.push(k);
        counts.len() - 1
    };
    out.push(pattern(x as u32, counts[x]));
    for y in rng.distinct(counts[x] as usize, d) {
        out.push(variable(y));
    }
}

fn grow_left(
    rng: &mut Rng,
    a: &Alphabet,
    size: usize,
    room: usize,
    d: u32,
    counts: &mut Vec<u32>,
    out: &mut Vec<u32>,
) {
    if size <= 1 || room <= 2 || rng.chance(1, 5) {
        if rng.chance(3, 4) {
            grow_occurrence(rng, d, counts, out);
        } else {
            out.push(a.leaf(rng));
        }
        return;
    }
    if rng.chance(1, 3) {
        // Several at once at times: lists of two and more need them.
        let many = if rng.chance(1, 3) { rng.from_to(2, 4).min(room - 2) } else { 1 };
        out.extend(std::iter::repeat_n(LAMBDA, many));
        return grow_left(rng, a, size - 1, room - many, d + many as u32, counts, out);
    }
    let w = a.any(rng);
    out.push(w);
    let c = count(w) as usize;
    for _ in 0..c {
        grow_left(rng, a, (size - 1) / c.max(1), room - 1, d, counts, out);
    }
}

/// Numbers the variables of a left side anew, in a random order, and gives
/// their counts; None if one variable has two counts or there are too many.
fn settle(rng: &mut Rng, left: &mut [u32]) -> Option<Vec<u32>> {
    let mut seen: Vec<(u32, u32)> = Vec::new();
    for &w in left.iter().filter(|&&w| kind(w) == PATTERN) {
        match seen.iter().find(|s| s.0 == id(w)) {
            Some(s) if s.1 != count(w) => return None,
            Some(_) => {}
            None => seen.push((id(w), count(w))),
        }
    }
    if seen.len() > 16 {
        return None;
    }
    // In order of first occurrence half of the time.
    if rng.chance(1, 2) {
        for n in (1..seen.len()).rev() {
            seen.swap(n, rng.below(n + 1));
        }
    }
    for w in left.iter_mut().filter(|w| kind(**w) == PATTERN) {
        let new = seen.iter().position(|s| s.0 == id(*w))?;
        *w = pattern(new as u32, count(*w));
    }
    Some(seen.iter().map(|s| s.1).collect())
}

/// A fresh left side with the counts of its variables.
pub fn left(rng: &mut Rng, a: &Alphabet) -> (Vec<u32>, Vec<u32>) {
    loop {
        let mut out = Vec::new();
        let mut counts = Vec::new();
        let w = a.any(rng);
        out.push(w);
        let size = match rng.below(10) {
            0 => rng.from_to(10, 50),
            1..=3 => rng.from_to(5, 12),
            _ => rng.from_to(2, 7),
        };
        let room = if rng.chance(1, 8) { 16 } else { 7 };
        let c = count(w) as usize;
        for _ in 0..c {
            grow_left(rng, a, size.div_ceil(c), room - 1, 0, &mut counts, &mut out);
        }
        if side_is_whole(&out) {
            if let Some(counts) = settle(rng, &mut out) {
                return (out, counts);
            }
        }
    }
}

/// A left side near another one: a part made more or less special, a list
/// changed, two variables made one, or one made two.
pub fn vary_left(rng: &mut Rng, a: &Alphabet, from: &[u32]) -> (Vec<u32>, Vec<u32>) {
    for _ in 0..8 {
        let laid = Laid::of(from);
        let at = rng.below(from.len());
        let w = from[at];
        if at == 0 || kind(w) == VARIABLE {
            continue;
        }
        let d = laid.above[at];
        let mut new = from[..at].to_vec();
        let rest = &from[laid.end[at]..];
        match (kind(w) == PATTERN, rng.below(6)) {
            // Another list, the same variable.
            (true, 0) => {
                new.push(w);
                new.extend(rng.distinct(count(w) as usize, d).iter().map(|&y| variable(y)));
            }
            // The same ids in another order.
            (true, 4) => {
                let list = &from[at + 1..laid.end[at]];
                let order = rng.distinct(list.len(), list.len() as u32);
                new.push(w);
                new.extend(order.iter().map(|&j| list[j as usize - 1]));
            }
            // The same for all occurrences of the variable: it means the same.
            (true, 5) => {
                let k = count(w) as usize;
                let order = rng.distinct(k, k as u32);
                let mut all = from.to_vec();
                for o in (0..from.len()).filter(|&o| from[o] == w) {
                    for (j, &old) in order.iter().enumerate() {
                        all[o + 1 + j] = from[o + old as usize];
                    }
                }
                if let Some(counts) = settle(rng, &mut all) {
                    return (all, counts);
                }
                continue;
            }
            // Another variable of the left side with its count.
            (true, 1) => {
                let others: Vec<u32> = from
                    .iter()
                    .copied()
                    .filter(|&o| kind(o) == PATTERN && count(o) == count(w))
                    .collect();
                new.push(*rng.pick(&others));
                new.extend(&from[at + 1..laid.end[at]]);
            }
            // Something more special; ids from 16 on are settled below.
            (true, _) => {
                let mut counts = Vec::new();
                let mut part = Vec::new();
                let size = rng.from_to(2, 4);
                grow_left(rng, a, size, 4, d, &mut counts, &mut part);
                for w in part.iter_mut().filter(|w| kind(**w) == PATTERN) {
                    *w = pattern(id(*w) + 16, count(*w));
                }
                new.extend(part);
            }
            // A variable in place of a part.
            (false, _) => {
                let k = rng.below(d.min(4) as usize + 1);
                new.push(pattern(40, k as u32));
                new.extend(rng.distinct(k, d).iter().map(|&y| variable(y)));
            }
        }
        new.extend(rest);
        if let Some(counts) = settle(rng, &mut new) {
            if side_is_whole(&new) {
                return (new, counts);
            }
        }
    }
    left(rng, a)
}

fn grow_right(
    rng: &mut Rng,
    a: &Alphabet,
    size: usize,
    room: usize,
    own: u32,
    counts: &[u32],
    out: &mut Vec<u32>,
) {
    let x = rng.below(counts.len());
    let k = counts.get(x).copied();
    if let Some(k) = k {
        if (k == 0 || (size > 1 && room > 1)) && rng.chance(1, 2) {
            out.push(pattern(x as u32, k));
            for _ in 0..k {
                grow_right(rng, a, (size - 1) / k as usize, room - 1, own, counts, out);
            }
            return;
        }
    }
    if size <= 1 || room <= 1 {
        if own > 0 && rng.chance(1, 2) {
            out.push(variable(rng.from_to(1, own as usize) as u32));
        } else {
            out.push(a.leaf(rng));
        }
        return;
    }
    if rng.chance(1, 4) {
        out.push(LAMBDA);
        return grow_right(rng, a, size - 1, room - 1, own + 1, counts, out);
    }
    let w = a.any(rng);
    out.push(w);
    let c = count(w) as usize;
    for _ in 0..c {
        grow_right(rng, a, (size - 1) / c.max(1), room - 1, own, counts, out);
    }
}

/// A right side for variables with these counts.
pub fn right(rng: &mut Rng, a: &Alphabet, counts: &[u32]) -> Vec<u32> {
    loop {
        let mut out = Vec::new();
        let size = if rng.chance(1, 6) { rng.from_to(8, 40) } else { rng.from_to(1, 7) };
        let room = if rng.chance(1, 8) { 16 } else { 6 };
        grow_right(rng, a, size, room, 0, counts, &mut out);
        if side_is_whole(&out) {
            return out;
        }
    }
}

/// Whole rules over one alphabet, many of them near earlier ones.
pub fn rules(rng: &mut Rng, a: &Alphabet, number: usize) -> Vec<Source> {
    let mut made: Vec<Source> = Vec::new();
    for _ in 0..number {
        let (left, counts) = if !made.is_empty() && rng.chance(1, 2) {
            let near = rng.below(made.len());
            vary_left(rng, a, &made[near].left.clone())
        } else {
            left(rng, a)
        };
        let right = right(rng, a, &counts);
        made.push(Source { vars: counts.len() as u32, left, right });
    }
    made
}

/// How many rules a random book has: mostly few.
pub fn rule_number(rng: &mut Rng) -> usize {
    match rng.below(40) {
        0 => 0,
        1 => rng.from_to(12, 64),
        2..=6 => rng.from_to(5, 12),
        _ => rng.from_to(1, 5),
    }
}

/// A whole book.
pub fn book(rng: &mut Rng, a: &Alphabet) -> Vec<u32> {
    let n = rule_number(rng);
    book_words(&rules(rng, a, n))
}

/// A book with long sides: up to 64 rules of up to 64 words.
pub fn large_book(rng: &mut Rng, a: &Alphabet) -> Vec<u32> {
    let n = rng.from_to(32, 64);
    // A root with few arguments has a case for each count up to 15, so half
    // of the books have roots with many: their trees may be within the size.
    let many = rng.chance(1, 2);
    let mut made = Vec::new();
    while made.len() < n {
        let mut counts = Vec::new();
        let mut l = Vec::new();
        let w = if many { symbol(rng.below(40) as u32, 15 - rng.below(2) as u32) } else { a.any(rng) };
        l.push(w);
        let c = count(w) as usize;
        for _ in 0..c {
            grow_left(rng, a, 64 / c.max(1), 14, 0, &mut counts, &mut l);
        }
        if !side_is_whole(&l) || (l.len() < 20 && rng.chance(9, 10)) {
            continue;
        }
        if let Some(counts) = settle(rng, &mut l) {
            let r = right(rng, a, &counts);
            made.push(Source { vars: counts.len() as u32, left: l, right: r });
        }
    }
    book_words(&made)
}

/// Books at the edges: many rules, full sides, deep sides.
pub fn edge_book(rng: &mut Rng) -> Vec<u32> {
    let leaf = |n: usize| Source {
        vars: 0,
        left: vec![symbol(n as u32, 0)],
        right: vec![symbol(1_000, 0)],
    };
    match rng.below(5) {
        0 => book_words(&(0..64).map(leaf).collect::<Vec<_>>()),
        1 => book_words(&(0..65).map(leaf).collect::<Vec<_>>()),
        2 => {
            // Sides of 63 to 65 words, of the longest tokens.
            let side = |n: usize| {
                let mut words = vec![symbol(1_023, 15); 1];
                while words.len() < n {
                    words.push(symbol(1_000, 0));
                }
                // Four full nodes and one partly full one hold them all.
                let mut open = 15;
                let mut at = 1;
                while at + open < n {
                    let more = (n - at - open).min(15);
                    words[at] = symbol(1_000 + at as u32, more as u32);
                    open += more - 1;
                    at += 1;
                }
                words
            };
            let n = rng.from_to(1, 64);
            let long = rng.from_to(63, 65);
            let mut made: Vec<Source> = (0..n)
                .map(|_| Source { vars: 0, left: side(64), right: side(64) })
                .collect();
            let at = rng.below(n);
            made[at].left = side(long);
            book_words(&made)
        }
        _ => {
            // A chain of 15 to 17 with a variable at the end.
            let n = rng.from_to(15, 17);
            let mut l = vec![symbol(3, 1)];
            let mut d = 0;
            for _ in 2..n {
                if rng.chance(1, 2) {
                    l.push(LAMBDA);
                    d += 1;
                } else {
                    l.push(symbol(4, 1));
                }
            }
            let k = rng.below(if d == 0 { 1 } else { 2 }) as u32;
            l.push(pattern(0, k));
            for y in rng.distinct(k as usize, d) {
                l.push(variable(y));
            }
            let r = right(rng, &Alphabet { symbols: vec![symbol(7, 0)] }, &[k]);
            book_words(&[Source { vars: 1, left: l, right: r }])
        }
    }
}

/// A book with one or a few things changed; at times it stays good.
pub fn damaged_book(rng: &mut Rng, a: &Alphabet) -> Vec<u32> {
    let n = rng.from_to(1, 4);
    let mut made = rules(rng, a, n);
    if rng.chance(1, 2) {
        // Inside the rules, so that the layout stays right.
        for _ in 0..rng.from_to(1, 2) {
            let at = rng.below(made.len());
            let rule = &mut made[at];
            match rng.below(8) {
                0 => rule.vars = rng.below(18) as u32,
                1 => damage_words(rng, &mut rule.left),
                2 => damage_words(rng, &mut rule.right),
                3 => rule.left = rule.right.clone(),
                4 => {
                    // A list with one id twice, or one id off.
                    let ids: Vec<usize> = (0..rule.left.len())
                        .filter(|&n| kind(rule.left[n]) == VARIABLE)
                        .collect();
                    if !ids.is_empty() {
                        let n = *rng.pick(&ids);
                        let w = rule.left[n.saturating_sub(1)];
                        if kind(w) == VARIABLE && rng.chance(2, 3) {
                            rule.left[n] = w;
                        } else {
                            rule.left[n] = variable(rng.below(5) as u32);
                        }
                    }
                }
                _ => {
                    // Another id, count or kind, close to the right one.
                    let side = if rng.chance(1, 2) { &mut rule.left } else { &mut rule.right };
                    // An earlier change may have left nothing.
                    if side.is_empty() {
                        continue;
                    }
                    let at = rng.below(side.len());
                    let w = side[at];
                    side[at] = match rng.below(5) {
                        0 => w.wrapping_add(1),
                        1 => w.wrapping_sub(1),
                        2 => pattern(rng.below(4) as u32, count(w)),
                        3 if count(w) == 0 => variable(rng.from_to(1, 3) as u32),
                        _ => symbol(id(w) % 1_024, count(w) % 16),
                    };
                }
            }
        }
        return book_words(&made);
    }
    let mut words = book_words(&made);
    match rng.below(6) {
        0 => words[0] = rng.below(70) as u32,
        1 => words[0] = rng.next() as u32,
        2 => words.truncate(rng.below(words.len())),
        _ => damage_words(rng, &mut words),
    }
    words
}

// ---------------------------------------------------------------- bodies

/// A body for a variable of count k, often using its parameters.
pub fn body(rng: &mut Rng, a: &Alphabet, k: u32, size: usize) -> Vec<u32> {
    let mut out = term(rng, a, size);
    if k > 0 && rng.chance(2, 3) {
        let above = Laid::of(&out).above;
        for (at, w) in out.iter_mut().enumerate() {
            if count(*w) == 0 && rng.chance(1, 2) {
                *w = variable(above[at] + rng.from_to(1, k as usize) as u32);
            }
        }
    }
    out
}

/// Bodies for a rule of a good book, as one list with lengths.
pub fn bodies(rng: &mut Rng, a: &Alphabet, rule: &book::Rule) -> (Vec<u32>, [u32; 16]) {
    let mut list = Vec::new();
    let mut lengths = [0; 16];
    for (x, &k) in rule.counts.iter().enumerate() {
        let size = match rng.below(30) {
            0 => rng.from_to(50, 300),
            1..=4 => rng.from_to(8, 20),
            _ => rng.from_to(1, 6),
        };
        let one = body(rng, a, k, size);
        lengths[x] = one.len() as u32;
        list.extend(one);
    }
    (list, lengths)
}

/// Bodies that come near or past the limits of a built term.
pub fn edge_bodies(rng: &mut Rng, rule: &book::Rule) -> (Vec<u32>, [u32; 16]) {
    let mut list = Vec::new();
    let mut lengths = [0; 16];
    let way = rng.below(4);
    for length in lengths.iter_mut().take(rule.vars) {
        let one = match way {
            0 => {
                let n = rng.from_to(50, 64);
                chain(rng, n)
            }
            1 => {
                let n = rng.from_to(3_900, 4_096) / if rng.chance(1, 2) { 1 } else { rule.vars };
                wide(rng, n.max(1))
            }
            2 => vec![variable(65_535 - rng.below(20) as u32)],
            _ => {
                let total = 4_097usize.saturating_sub(rule.left.len()) / rule.occurrences.len();
                let near = (total + 2).saturating_sub(rng.below(5));
                wide(rng, near.clamp(1, 4_096))
            }
        };
        *length = one.len() as u32;
        list.extend(one);
    }
    (list, lengths)
}

pub fn damage_bodies(rng: &mut Rng, list: &mut Vec<u32>, lengths: &mut [u32; 16]) {
    let at = if rng.chance(1, 2) { rng.below(16) } else { rng.below(3) };
    match rng.below(6) {
        0 => lengths[at] = lengths[at].wrapping_add(rng.below(3) as u32).wrapping_sub(1),
        1 => lengths[at] = rng.next() as u32,
        2 => {
            // One word moved from one body to the other.
            let to = rng.below(4);
            if lengths[at] > 0 {
                lengths[at] -= 1;
                lengths[to] += 1;
            }
        }
        3 => {
            // A changed list with the sum kept right.
            let before = list.len();
            damage_words(rng, list);
            let n = (list.len() as u32).wrapping_sub(before as u32);
            lengths[at] = lengths[at].wrapping_add(n);
        }
        4 if !list.is_empty() => {
            let n = rng.below(list.len());
            list[n] = odd_word(rng);
        }
        _ => damage_words(rng, list),
    }
}

/// Gives a term with a symbol at its root more arguments at the end, if it
/// can have them.
pub fn lengthen(rng: &mut Rng, a: &Alphabet, term: &mut Vec<u32>) {
    let c = count(term[0]) as usize;
    if kind(term[0]) != SYMBOL || c >= 15 {
        return;
    }
    let more = match rng.below(6) {
        0 => 15 - c,
        1 => rng.from_to(1, 15 - c),
        _ => rng.from_to(1, (15 - c).min(3)),
    };
    let mut new = term.clone();
    new[0] = symbol(id(term[0]), (c + more) as u32);
    for _ in 0..more {
        let size = rng.from_to(1, 4);
        new.extend(self::term(rng, a, size));
    }
    if crate::check_term(&new) == Answer::DONE {
        *term = new;
    }
}

/// A term that a random rule of a good book fits at the root, if it can be
/// built; otherwise any small term. At times with more arguments.
pub fn instance(rng: &mut Rng, a: &Alphabet, words: &[u32]) -> Vec<u32> {
    if let Ok(book) = book::read(words) {
        if !book.rules.is_empty() {
            let n = rng.below(book.rules.len());
            let (list, lengths) = bodies(rng, a, &book.rules[n]);
            let mut out = vec![0; MAX_WORDS];
            if build_left(words, n as u32, &list, &lengths, &mut out) == Answer::DONE {
                let end = Laid::of(&out).end[0];
                out.truncate(end);
                if rng.chance(2, 5) {
                    lengthen(rng, a, &mut out);
                }
                return out;
            }
        }
    }
    small_term(rng, a)
}

/// A term with instances planted in it, the planted ones at times changed a
/// little, so that they just fail to fit.
pub fn planted(rng: &mut Rng, a: &Alphabet, words: &[u32]) -> Vec<u32> {
    let mut term = if rng.chance(1, 2) { instance(rng, a, words) } else { small_term(rng, a) };
    for _ in 0..rng.below(5) {
        let part = instance(rng, a, words);
        let laid = Laid::of(&term);
        let at = rng.below(term.len());
        let mut new = term[..at].to_vec();
        new.extend(part);
        new.extend(&term[laid.end[at]..]);
        if crate::check_term(&new) == Answer::DONE {
            term = new;
        }
    }
    if rng.chance(1, 4) {
        nudge(rng, &mut term);
    }
    term
}

/// Changes a leaf or an id of a whole term; it stays whole.
pub fn nudge(rng: &mut Rng, term: &mut [u32]) {
    for _ in 0..rng.from_to(1, 2) {
        let at = rng.below(term.len());
        let w = term[at];
        if count(w) == 0 {
            term[at] = match rng.below(3) {
                0 => symbol(7, 0),
                1 if kind(w) == VARIABLE && id(w) > 1 => w - 1,
                _ => variable(rng.from_to(1, 4) as u32),
            };
        } else if kind(w) == SYMBOL && rng.chance(1, 3) {
            term[at] = symbol((id(w) + 1) % 8, count(w));
        }
    }
}

/// Many copies of a term side by side, for long runs of steps.
pub fn repeated(term: &[u32], most: usize) -> Vec<u32> {
    let mut out = term.to_vec();
    while out.len() * 2 < most && Laid::of(&out).nesting.iter().all(|&n| n < MAX_NESTING) {
        let mut twice = vec![symbol(5, 2)];
        twice.extend(&out);
        twice.extend(&out);
        out = twice;
    }
    out
}

/// A term for a book: mostly planted, at times at an edge or damaged.
pub fn any_term(rng: &mut Rng, a: &Alphabet, words: &[u32]) -> Vec<u32> {
    match rng.below(24) {
        0 => edge_term(rng),
        1 | 2 => {
            let mut out = planted(rng, a, words);
            damage_words(rng, &mut out);
            out
        }
        3 => {
            let out = planted(rng, a, words);
            let most = rng.from_to(1, MAX_WORDS);
            repeated(&out, most)
        }
        4..=8 => small_term(rng, a),
        9..=14 => instance(rng, a, words),
        _ => planted(rng, a, words),
    }
}

// ---------------------------------------------------------------- trees

/// The compiled tree of a good book; a Fail if it has none.
pub fn compiled(words: &[u32]) -> Vec<u32> {
    let tree = book::read(words).ok().and_then(|book| tree_of(&book));
    tree.unwrap_or(vec![FAIL])
}

/// What a Leaf for a rule says of it.
#[derive(Clone)]
struct Shape {
    /// The arguments of its left side.
    own: u32,
    /// Its variables' counts.
    counts: Vec<u32>,
}

/// For each rule of a good book, its shape.
fn shapes(words: &[u32]) -> Vec<Shape> {
    let shape = |r: &book::Rule| Shape { own: count(r.left.words[0]), counts: r.counts.clone() };
    match book::read(words) {
        Ok(book) => book.rules.iter().map(shape).collect(),
        Err(_) => Vec::new(),
    }
}

/// A place of a random tree while it is made.
#[derive(Clone)]
struct Spot {
    d: u32,
    entered: bool,
    /// The count of the head with which it was entered.
    count: u32,
}

struct Planter<'a> {
    alphabet: &'a Alphabet,
    /// For each rule of the book, its shape.
    shapes: Vec<Shape>,
    tree: Vec<u32>,
    /// One in so many fields is odd; 0 for none.
    odd: usize,
}

impl Planter<'_> {
    fn field(&self, rng: &mut Rng, good: u32) -> u32 {
        if self.odd == 0 || !rng.chance(1, self.odd) {
            return good;
        }
        match rng.below(4) {
            0 => good.wrapping_add(1),
            1 => good.wrapping_sub(1),
            2 => rng.below(70) as u32,
            _ => rng.next() as u32,
        }
    }

    fn list(&mut self, rng: &mut Rng, k: usize, d: u32) {
        for y in rng.distinct(k, d) {
            let y = self.field(rng, y);
            self.tree.push(y);
        }
    }

    fn place(&self, rng: &mut Rng, spots: &[Spot]) -> usize {
        rng.below(spots.len())
    }

    /// Writes an address of a subtree that is written next.
    fn subtree(&mut self, rng: &mut Rng, at: usize, spots: &[Spot], room: usize) {
        let here = self.tree.len() as u32;
        self.tree[at] = self.field(rng, here);
        self.node(rng, spots, room);
    }

    /// A rule for a Leaf under a root with so many children.
    fn rule(&self, rng: &mut Rng, whole: u32) -> (usize, Shape) {
        let fits = |r: &usize| self.shapes[*r].own <= whole;
        let fitting: Vec<usize> = (0..self.shapes.len()).filter(fits).collect();
        if !self.shapes.is_empty() && rng.chance(7, 8) {
            let any = fitting.is_empty() || rng.chance(1, 6);
            let rule = if any { rng.below(self.shapes.len()) } else { *rng.pick(&fitting) };
            return (rule, self.shapes[rule].clone());
        }
        let most = if rng.chance(1, 20) { 18 } else { 4 };
        (rng.below(66), Shape { own: 0, counts: vec![0; rng.below(most)] })
    }

    fn leaf(&mut self, rng: &mut Rng, spots: &[Spot]) {
        let (rule, Shape { own, counts }) = self.rule(rng, spots[0].count);
        let (r, n) = (self.field(rng, rule as u32), self.field(rng, counts.len() as u32));
        // Where the root was not entered, as if it had as many as the rule.
        let whole = if spots[0].entered { spots[0].count } else { own };
        let aside = near_aside(rng, whole, own);
        self.tree.extend([LEAF, r, n, aside]);
        for k in counts {
            // A place with enough abstractions, if there is one.
            let wide: Vec<usize> = (0..spots.len()).filter(|&p| spots[p].d >= k).collect();
            let p = if wide.is_empty() { self.place(rng, spots) } else { *rng.pick(&wide) };
            let d = spots[p].d;
            let k = if d < k { d } else { k };
            let (place, k_field) = (self.field(rng, p as u32), self.field(rng, k));
            self.tree.extend([place, k_field]);
            self.list(rng, k as usize, d);
        }
    }

    fn switch(&mut self, rng: &mut Rng, spots: &[Spot], room: usize) {
        let unentered: Vec<usize> = (0..spots.len()).filter(|&p| !spots[p].entered).collect();
        let p = if unentered.is_empty() || (self.odd > 0 && rng.chance(1, 20)) {
            self.place(rng, spots)
        } else {
            *rng.pick(&unentered)
        };
        let cases = rng.from_to(1, 4);
        let (place, number) = (self.field(rng, p as u32), self.field(rng, cases as u32));
        self.tree.extend([SWITCH, place, number]);
        let mut heads = Vec::new();
        for _ in 0..cases {
            let w = match rng.below(8) {
                0 | 1 => LAMBDA,
                2 => variable(rng.from_to(1, 3) as u32),
                3 if self.odd > 0 => odd_word(rng),
                // More arguments than the alphabet's symbol has.
                4 => {
                    let w = self.alphabet.any(rng);
                    symbol(id(w), rng.from_to(count(w) as usize, 15) as u32)
                }
                _ => self.alphabet.any(rng),
            };
            heads.push((w, self.tree.len() + 1));
            self.tree.extend([w, 0]);
        }
        self.tree.push(0);
        let default_at = self.tree.len() - 1;
        for (w, at) in heads {
            let mut inner = spots.to_vec();
            inner[p].entered = true;
            inner[p].count = count(w);
            let d = inner[p].d + u32::from(w == LAMBDA);
            for _ in 0..count(w).min(15) {
                inner.push(Spot { d, entered: false, count: 0 });
            }
            self.subtree(rng, at, &inner, room);
        }
        self.subtree(rng, default_at, spots, room);
    }

    fn test(&mut self, rng: &mut Rng, spots: &[Spot], room: usize) {
        let p = self.place(rng, spots);
        if rng.chance(1, 2) {
            let k = rng.below(spots[p].d.min(4) as usize + 1);
            let (place, k_field) = (self.field(rng, p as u32), self.field(rng, k as u32));
            self.tree.extend([CLOSED, place, k_field]);
            self.list(rng, k, spots[p].d);
        } else {
            let q = self.place(rng, spots);
            let k = rng.below(spots[p].d.min(spots[q].d).min(4) as usize + 1);
            let (one, two) = (self.field(rng, p as u32), self.field(rng, q as u32));
            let k_field = self.field(rng, k as u32);
            self.tree.extend([SAME, one, two, k_field]);
            self.list(rng, k, spots[p].d);
            self.list(rng, k, spots[q].d);
        }
        let at = self.tree.len();
        self.tree.extend([0, 0]);
        self.subtree(rng, at, spots, room);
        self.subtree(rng, at + 1, spots, room);
    }

    fn node(&mut self, rng: &mut Rng, spots: &[Spot], room: usize) {
        if room == 0 || self.tree.len() > 2_000 {
            if rng.chance(3, 4) {
                self.leaf(rng, spots);
            } else {
                let tag = self.field(rng, FAIL);
                self.tree.push(tag);
            }
            return;
        }
        match rng.below(8) {
            0 => self.leaf(rng, spots),
            1 if room < 4 => self.tree.push(FAIL),
            2 | 3 => self.test(rng, spots, room - 1),
            _ => self.switch(rng, spots, room - 1),
        }
    }
}

/// A tree that no compiler made: any nodes, right on the whole; with `odd`
/// above 0 about one in so many fields is off.
pub fn random_tree(rng: &mut Rng, a: &Alphabet, words: &[u32], odd: usize) -> Vec<u32> {
    let mut planter = Planter { alphabet: a, shapes: shapes(words), tree: Vec::new(), odd };
    let room = rng.from_to(0, 5);
    planter.node(rng, &[Spot { d: 0, entered: false, count: 0 }], room);
    let mut tree = planter.tree;
    tree.truncate(MAX_TREE);
    tree
}

/// A place of a tree that is made to follow one term.
#[derive(Clone)]
struct Followed {
    at: usize,
    d: u32,
    entered: bool,
}

/// A list of k ids for d abstractions, at times with one id off.
fn near_list(rng: &mut Rng, k: usize, d: u32) -> Vec<u32> {
    let mut list = rng.distinct(k, d);
    // As many as asked for, even where that can't be right.
    while list.len() < k {
        list.push(rng.from_to(1, 5) as u32);
    }
    if k > 0 && rng.chance(1, 12) {
        let j = rng.below(k);
        list[j] = match rng.below(4) {
            0 => 0,
            1 => d,
            2 => d + 1,
            _ => *rng.pick(&list),
        };
    }
    list
}

/// A place and a list; if it should be sure, mostly such that the part has a
/// body.
fn followed_part(
    rng: &mut Rng,
    term: &Laid,
    spots: &[Followed],
    k: Option<usize>,
    sure: bool,
) -> (u32, Vec<u32>) {
    let mut tries = 0;
    loop {
        let newest = rng.chance(1, 3);
        let p = if newest { spots.len() - 1 } else { rng.below(spots.len()) };
        let spot = &spots[p];
        let most = if rng.chance(1, 8) { 5 } else { 4 };
        let k = k.unwrap_or(match rng.below(3) {
            0 => rng.below((spot.d as usize).min(most) + 1),
            _ => (spot.d as usize).min(most),
        });
        let list = near_list(rng, k, spot.d);
        tries += 1;
        if !sure
            || tries > 12
            || rng.chance(1, 30)
            || body_of(term, spot.at, spot.d, &list).is_some()
        {
            return (p as u32, list);
        }
    }
}

/// A tree that is made along one term.
struct Follower {
    term: Laid,
    spots: Vec<Followed>,
    tree: Vec<u32>,
}

impl Follower {
    /// A Switch on a place; it must go on where `down` is set.
    fn switch(&mut self, rng: &mut Rng, a: &Alphabet, down: bool) {
        // Mostly the newest place, so that the walk goes deep.
        let newest = down || rng.chance(2, 3);
        let p = if newest { self.spots.len() - 1 } else { rng.below(self.spots.len()) };
        if self.spots[p].entered && rng.chance(9, 10) {
            return;
        }
        let w = self.term.words[self.spots[p].at];
        let mut heads: Vec<u32> = (0..rng.below(3)).map(|_| a.any(rng)).collect();
        let place = rng.below(heads.len() + 1);
        if down || !rng.chance(1, 6) {
            heads.insert(place, w);
        }
        let next = (self.tree.len() + 4 + 2 * heads.len()) as u32;
        let taken = heads.iter().position(|&h| h == w);
        self.tree.extend([SWITCH, p as u32, heads.len() as u32]);
        for (n, &h) in heads.iter().enumerate() {
            // The addresses that aren't taken are anything.
            let to = if Some(n) == taken { next } else { rng.below(40) as u32 };
            self.tree.extend([h, to]);
        }
        self.tree.push(if taken.is_none() { next } else { rng.below(40) as u32 });
        if taken.is_some() {
            self.enter(p);
        }
    }

    fn enter(&mut self, p: usize) {
        self.spots[p].entered = true;
        let Followed { at, d, .. } = self.spots[p];
        let d = d + u32::from(self.term.words[at] == LAMBDA);
        for child in self.term.children(at) {
            self.spots.push(Followed { at: child, d, entered: false });
        }
    }

    fn body(&self, p: u32, list: &[u32]) -> Option<Vec<u32>> {
        let spot = &self.spots[p as usize];
        body_of(&self.term, spot.at, spot.d, list)
    }

    fn test(&mut self, rng: &mut Rng) {
        let sure = rng.chance(1, 2);
        let (p, list) = followed_part(rng, &self.term, &self.spots, None, sure);
        let k = list.len();
        let says;
        if rng.chance(1, 2) {
            self.tree.extend([CLOSED, p, k as u32]);
            self.tree.extend(&list);
            says = self.body(p, &list).is_some();
        } else {
            let (q, later) = followed_part(rng, &self.term, &self.spots, Some(k), sure);
            self.tree.extend([SAME, p, q, k as u32]);
            self.tree.extend(&list);
            self.tree.extend(&later);
            let first = self.body(p, &list);
            says = first.is_some() && first == self.body(q, &later);
        }
        // The address that isn't taken is anything; at times both change.
        let next = self.tree.len() as u32 + 2;
        let other = if rng.chance(1, 2) { rng.below(60) as u32 } else { next };
        let yes_goes_on = says != rng.chance(1, 20);
        self.tree.extend(if yes_goes_on { [next, other] } else { [other, next] });
    }

    fn leaf(&mut self, rng: &mut Rng, shapes: &[Shape]) {
        let whole = count(self.term.words[0]);
        let fitting: Vec<usize> = (0..shapes.len()).filter(|&r| shapes[r].own <= whole).collect();
        let rule = match rng.below(12) {
            0 => rng.from_to(62, 65),
            1 => rng.below(shapes.len()),
            _ if fitting.is_empty() => rng.below(shapes.len()),
            _ => *rng.pick(&fitting),
        };
        let n = if rng.chance(1, 12) { rng.from_to(15, 17) } else { rng.below(4) };
        let asked: Vec<Option<usize>> = match shapes.get(rule) {
            // One count off at times.
            Some(shape) if rng.chance(5, 6) => {
                shape.counts.iter().map(|&k| (!rng.chance(1, 20)).then_some(k as usize)).collect()
            }
            _ => vec![None; n],
        };
        let own = shapes.get(rule).map_or(0, |shape| shape.own);
        let aside = near_aside(rng, whole, own);
        self.tree.extend([LEAF, rule as u32, asked.len() as u32, aside]);
        for k in asked {
            let (p, list) = followed_part(rng, &self.term, &self.spots, k, true);
            self.tree.extend([p, list.len() as u32]);
            self.tree.extend(list);
        }
    }

    /// At times one word off, or cut near the end: a node that runs past the
    /// table.
    fn spoil(&mut self, rng: &mut Rng) {
        let tree = &mut self.tree;
        if rng.chance(1, 10) {
            let at = rng.below(tree.len());
            tree[at] = match rng.below(3) {
                0 => tree[at].wrapping_add(1),
                1 => self.spots.len() as u32,
                _ => rng.below(tree.len() + 2) as u32,
            };
        }
        if rng.chance(1, 15) {
            let cut = rng.from_to(1, 3);
            tree.truncate(tree.len().saturating_sub(cut));
        }
    }
}

/// How many arguments a Leaf sets aside at a root with `whole` children, for a
/// rule with `own` arguments: right mostly, wrong at times.
fn near_aside(rng: &mut Rng, whole: u32, own: u32) -> u32 {
    let right = whole.saturating_sub(own);
    match rng.below(30) {
        0 => right + 1,
        1 => right.wrapping_sub(1),
        2 => whole,
        3 => whole + 1,
        4 => rng.below(17) as u32,
        5 => rng.next() as u32,
        _ => right,
    }
}

/// A term with many abstractions, and a tree whose nodes follow it down, with
/// tests on the way and a Leaf at the end: damage is met late, if at all.
pub fn following(rng: &mut Rng, a: &Alphabet, words: &[u32]) -> (Vec<u32>, Vec<u32>) {
    let shapes = shapes(words);
    let mut words = Vec::new();
    // Half of the time a symbol at the root, the abstractions last in it.
    if rng.chance(1, 2) {
        let own = if shapes.is_empty() { 0 } else { rng.pick(&shapes).own };
        let more = if rng.chance(1, 2) { 0 } else { rng.below(16) as u32 };
        let whole = (own + more).clamp(1, 15);
        words.push(symbol(rng.from_to(2, 6) as u32, whole));
        words.extend((1..whole).map(|_| a.leaf(rng)));
    }
    let down = usize::from(!words.is_empty());
    let above = rng.below(9);
    words.extend(std::iter::repeat_n(LAMBDA, above));
    let size = rng.from_to(1, 14);
    grow(rng, a, size, 20, above as u32, &mut words);

    let root = Followed { at: 0, d: 0, entered: false };
    let mut made = Follower { term: Laid::of(&words), spots: vec![root], tree: Vec::new() };
    // Straight down through the first abstractions half of the time.
    let straight = if rng.chance(1, 2) { down + above } else { 0 };
    for n in 0..straight + rng.below(10) {
        let down = n < straight;
        if down || rng.chance(3, 4) {
            made.switch(rng, a, down);
        } else {
            made.test(rng);
        }
    }
    made.leaf(rng, &shapes);
    made.spoil(rng);
    (made.tree, words)
}

/// The addresses of the Leafs in a whole tree, each node being followed by its
/// subtrees.
pub fn leafs(tree: &[u32]) -> Vec<usize> {
    let field = |at: usize| tree.get(at).copied().unwrap_or(0) as usize;
    let mut found = Vec::new();
    let mut at = 0;
    while at < tree.len() {
        at += match tree[at] {
            FAIL => 1,
            LEAF => {
                found.push(at);
                let mut length = 4;
                for _ in 0..field(at + 2).min(16) {
                    length += 2 + field(at + length + 1).min(4);
                }
                length
            }
            SWITCH => 4 + 2 * field(at + 2).min(MAX_TREE),
            CLOSED => 5 + field(at + 2).min(4),
            SAME => 6 + 2 * field(at + 3).min(4),
            // No whole tree.
            _ => return found,
        };
    }
    found
}

/// Sets wrong numbers aside: in one Leaf, or in all of them.
pub fn wrong_aside(rng: &mut Rng, tree: &mut [u32]) {
    let leafs = leafs(tree);
    let all = rng.chance(1, 2);
    let one = rng.below(leafs.len());
    let way = rng.below(6);
    for (n, leaf) in leafs.into_iter().enumerate() {
        if (!all && n != one) || leaf + 3 >= tree.len() {
            continue;
        }
        let old = tree[leaf + 3];
        tree[leaf + 3] = match way {
            0 => old.wrapping_add(1),
            1 => old.wrapping_sub(1),
            2 => 0,
            3 => 15,
            4 => 16,
            _ => rng.below(18) as u32,
        };
    }
}

/// Changes a few words of a tree, mostly by little.
pub fn damage_tree(rng: &mut Rng, tree: &mut Vec<u32>) {
    for _ in 0..rng.from_to(1, 3) {
        let at = if rng.chance(1, 2) { rng.below(tree.len()) } else { rng.below(tree.len().min(30)) };
        match rng.below(12) {
            0 => tree.truncate(at),
            1 => tree.resize(MAX_TREE + rng.below(3), 0),
            2 if !tree.is_empty() => tree[at] = rng.next() as u32,
            3 if !tree.is_empty() => tree[at] = odd_word(rng),
            4 if !tree.is_empty() => tree[at] = tree.len() as u32 - rng.below(2) as u32,
            5 if !tree.is_empty() => tree[at] = at as u32,
            6 if !tree.is_empty() => tree[at] = u32::MAX - rng.below(4) as u32,
            7 if !tree.is_empty() => tree[at] = tree[at].wrapping_add(1),
            8 if !tree.is_empty() => tree[at] = tree[at].wrapping_sub(1),
            _ if !tree.is_empty() => tree[at] = rng.below(20) as u32,
            _ => {}
        }
    }
}

/// A tree for a book: compiled, random, damaged, or of another book.
pub fn any_tree(rng: &mut Rng, a: &Alphabet, words: &[u32]) -> Vec<u32> {
    match rng.below(13) {
        0..=3 => compiled(words),
        4 | 5 => {
            let mut tree = compiled(words);
            damage_tree(rng, &mut tree);
            tree
        }
        12 => {
            let mut tree = compiled(words);
            wrong_aside(rng, &mut tree);
            tree
        }
        6..=8 => random_tree(rng, a, words, 0),
        9 => {
            let odd = rng.from_to(5, 60);
            random_tree(rng, a, words, odd)
        }
        10 => {
            let mut tree = random_tree(rng, a, words, 0);
            damage_tree(rng, &mut tree);
            tree
        }
        _ => {
            let other = book(rng, a);
            compiled(&other)
        }
    }
}

// ---------------------------------------------------------------- texts

/// The text of any book words that have the right layout, good or not.
pub fn sources_text(rules: &[Source]) -> Vec<u8> {
    let mut text = format!("book=1\nrules={}\n", rules.len());
    for (n, rule) in rules.iter().enumerate() {
        text += &format!(
            "rule={n}\nvars={}\nleft={}\nright={}\n",
            rule.vars,
            words_text(&rule.left),
            words_text(&rule.right)
        );
    }
    text.into_bytes()
}

/// Changes a text at one place: bytes, numbers, blanks or lines.
pub fn damage_text(rng: &mut Rng, text: &mut Vec<u8>) {
    let at = rng.below(text.len());
    let near: &[u8] = b"0123456789slvm. =\n\r\t-+abcdefghijklopqrtu\0\xff";
    match rng.below(16) {
        0 if !text.is_empty() => text[at] = *rng.pick(near),
        1 => text.insert(at, *rng.pick(near)),
        2 if !text.is_empty() => {
            text.remove(at);
        }
        3 => text.truncate(at),
        4 => {
            text.pop();
        }
        5 => text.push(*rng.pick(near)),
        // A digit near a digit: leading zeros and numbers out of range.
        6 | 7 => {
            let digits: Vec<usize> = (0..text.len()).filter(|&n| text[n].is_ascii_digit()).collect();
            if !digits.is_empty() {
                let n = *rng.pick(&digits);
                match rng.below(3) {
                    0 => text.insert(n, b'0'),
                    1 => text.insert(n, b'0' + rng.below(10) as u8),
                    _ => text[n] = b'0' + rng.below(10) as u8,
                }
            }
        }
        // Blanks: doubled, at the end, at the beginning.
        8 => {
            let blanks: Vec<usize> =
                (0..text.len()).filter(|&n| b" =\n".contains(&text[n])).collect();
            if !blanks.is_empty() {
                let n = *rng.pick(&blanks);
                text.insert(n, b' ');
            }
        }
        9 => text.insert(at, b'\n'),
        // Whole lines: doubled, dropped, exchanged, cut off.
        10..=13 => {
            let mut lines: Vec<Vec<u8>> =
                text.split_inclusive(|&b| b == b'\n').map(|l| l.to_vec()).collect();
            if !lines.is_empty() {
                let n = rng.below(lines.len());
                let m = rng.below(lines.len());
                match rng.below(4) {
                    0 => lines.insert(n, lines[m].clone()),
                    1 => {
                        lines.remove(n);
                    }
                    2 => lines.swap(n, m),
                    _ => lines.truncate(n),
                }
                *text = lines.concat();
            }
        }
        14 if rng.chance(1, 4) => {
            // Around the limit of the whole text.
            let to = MAX_TEXT + rng.below(3) - 1;
            while text.len() < to {
                text.push(*rng.pick(b"\n 1"));
            }
        }
        _ => {
            let tokens: &[&[u8]] = &[
                b"s1024.0", b"s1023.15", b"s1.16", b"l1", b"v0", b"v65535", b"v65536", b"m16.0",
                b"m15.4", b"m0.5", b"m0", b"s", b"v", b"l", b"s01.0", b"s1.00", b"v01", b"S1.0",
                b"s1.1.1", b"s.1", b"s1.", b"v-1", b"v+1", b"s99999999999.0", b"v4294967297",
            ];
            let token = *rng.pick::<&[u8]>(tokens);
            let mut new = text[..at].to_vec();
            new.push(b' ');
            new.extend(token);
            new.extend(&text[at..]);
            *text = new;
        }
    }
}

/// The text of a book, whole or damaged in form or in meaning.
pub fn any_book_text(rng: &mut Rng, a: &Alphabet) -> Vec<u8> {
    let n = rule_number(rng);
    let mut made = rules(rng, a, n);
    if !made.is_empty() && rng.chance(1, 5) {
        let at = rng.below(made.len());
        match rng.below(3) {
            0 => made[at].vars = rng.below(18) as u32,
            1 => made[at].left = made[at].right.clone(),
            _ => {
                let at_word = rng.below(made[at].left.len());
                made[at].left[at_word] = variable(1);
            }
        }
    }
    let mut text = sources_text(&made);
    if rng.chance(1, 2) {
        for _ in 0..rng.from_to(1, 2) {
            damage_text(rng, &mut text);
        }
    }
    text
}

/// The text of a term, whole or damaged in form or in meaning.
pub fn any_term_text(rng: &mut Rng, a: &Alphabet) -> Vec<u8> {
    let mut term = if rng.chance(1, 15) { edge_term(rng) } else { small_term(rng, a) };
    if rng.chance(1, 5) {
        let at = rng.below(term.len());
        term[at] = if rng.chance(1, 2) { pattern(1, 1) } else { symbol(3, 2) };
    }
    let mut text = words_text(&term).into_bytes();
    text.push(b'\n');
    if rng.chance(1, 2) {
        for _ in 0..rng.from_to(1, 2) {
            damage_text(rng, &mut text);
        }
    }
    text
}

/// A term for a file: planted, or at an edge, or bad.
fn file_term(rng: &mut Rng, a: &Alphabet, words: &[u32]) -> Vec<u32> {
    let mut term = planted(rng, a, words);
    match rng.below(12) {
        0 => term = edge_term(rng),
        1 => {
            let at = rng.below(term.len());
            term[at] = pattern(1, 1);
        }
        2 => {
            term.pop();
            if term.is_empty() {
                term.push(LAMBDA);
            }
        }
        _ => {}
    }
    term
}

/// A standard input for the program, whole or damaged.
pub fn any_file(rng: &mut Rng) -> Vec<u8> {
    let a = alphabet(rng);
    let words;
    let mut text;
    let mut terms = Vec::new();
    if rng.chance(1, 12) {
        text = any_book_text(rng, &a);
        words = book(rng, &a);
    } else if rng.chance(1, 5) {
        let (made, term) = aside_rules(rng);
        words = book_words(&made);
        text = sources_text(&made);
        terms.push(term);
    } else {
        let n = rule_number(rng);
        let made = rules(rng, &a, n);
        words = book_words(&made);
        text = sources_text(&made);
    }
    for _ in 0..rng.below(6) {
        terms.push(file_term(rng, &a, &words));
    }
    for term in terms {
        text.extend(b"term=");
        text.extend(words_text(&term).into_bytes());
        text.push(b'\n');
    }
    if rng.chance(1, 3) {
        for _ in 0..rng.from_to(1, 2) {
            damage_text(rng, &mut text);
        }
    }
    text
}

// ---------------------------------------------------------------- cases

/// Any words at all that might be taken for a term.
pub fn check_term_case(rng: &mut Rng) -> Vec<u32> {
    let a = alphabet(rng);
    match rng.below(8) {
        0 => edge_term(rng),
        1 => (0..rng.below(6)).map(|_| odd_word(rng)).collect(),
        2 => {
            let mut out = edge_term(rng);
            damage_words(rng, &mut out);
            out
        }
        3..=5 => {
            let mut out = small_term(rng, &a);
            damage_words(rng, &mut out);
            out
        }
        _ => small_term(rng, &a),
    }
}

/// Any words at all that might be taken for a book.
pub fn any_book(rng: &mut Rng, a: &Alphabet) -> Vec<u32> {
    match rng.below(16) {
        0 => edge_book(rng),
        1 => damaged_book(rng, a),
        2 if rng.chance(1, 4) => large_book(rng, a),
        3 if rng.chance(1, 10) => Vec::new(),
        _ => book(rng, a),
    }
}

pub fn check_book_case(rng: &mut Rng) -> Vec<u32> {
    let a = alphabet(rng);
    match rng.below(8) {
        0 => edge_book(rng),
        1 => (0..rng.below(8)).map(|_| rng.below(5) as u32).collect(),
        2 => large_book(rng, &a),
        3 => book(rng, &a),
        _ => damaged_book(rng, &a),
    }
}

/// A length for an output that needs `need`: exact, one short, or any.
pub fn output_length(rng: &mut Rng, need: usize) -> usize {
    match rng.below(6) {
        0 => need,
        1 => need.saturating_sub(1),
        2 => rng.below(need + 2),
        3 => need + 1,
        _ => need + rng.below(40),
    }
}

/// A rule number, mostly one that is there.
pub fn rule_asked(rng: &mut Rng, words: &[u32]) -> u32 {
    let rules = words.first().copied().unwrap_or(0).min(64);
    match rng.below(20) {
        0 => rng.next() as u32,
        1 => rules,
        2 => rng.below(70) as u32,
        _ => rng.below(rules as usize) as u32,
    }
}

pub struct MatchRuleCase {
    pub book: Vec<u32>,
    pub number: u32,
    pub term: Vec<u32>,
    pub bodies_length: usize,
}

pub fn match_rule_case(rng: &mut Rng) -> MatchRuleCase {
    if rng.chance(1, 6) {
        let RewriteCase { book, term, .. } = aside_case(rng);
        let number = rule_asked(rng, &book);
        let bodies_length = output_length(rng, term.len());
        return MatchRuleCase { book, number, term, bodies_length };
    }
    let a = alphabet(rng);
    let book = any_book(rng, &a);
    let number = rule_asked(rng, &book);
    let mut term = any_term(rng, &a, &book);
    // The rule asked for should fit often, not only some rule.
    if rng.chance(1, 2) {
        if let Ok(read) = book::read(&book) {
            if let Some(rule) = read.rules.get(number as usize) {
                let (list, lengths) = bodies(rng, &a, rule);
                let mut out = vec![0; MAX_WORDS];
                if build_left(&book, number, &list, &lengths, &mut out) == Answer::DONE {
                    let end = Laid::of(&out).end[0];
                    out.truncate(end);
                    term = out;
                    if rng.chance(2, 5) {
                        lengthen(rng, &a, &mut term);
                    }
                    if rng.chance(1, 4) {
                        nudge(rng, &mut term);
                    }
                }
            }
        }
    }
    let bodies_length = output_length(rng, term.len());
    MatchRuleCase { book, number, term, bodies_length }
}

pub struct BuildLeftCase {
    pub book: Vec<u32>,
    pub number: u32,
    pub bodies: Vec<u32>,
    pub lengths: [u32; 16],
    pub out_length: usize,
}

pub fn build_left_case(rng: &mut Rng) -> BuildLeftCase {
    let a = alphabet(rng);
    let book = any_book(rng, &a);
    let number = rule_asked(rng, &book);
    let mut list = Vec::new();
    let mut lengths = [0; 16];
    if let Ok(read) = book::read(&book) {
        if let Some(rule) = read.rules.get(number as usize) {
            (list, lengths) = if rng.chance(1, 5) && rule.vars > 0 {
                edge_bodies(rng, rule)
            } else {
                bodies(rng, &a, rule)
            };
        }
    }
    if rng.chance(1, 4) {
        damage_bodies(rng, &mut list, &mut lengths);
    }
    let mut out = vec![0; MAX_WORDS];
    let need = if build_left(&book, number, &list, &lengths, &mut out) == Answer::DONE {
        Laid::of(&out).end[0]
    } else {
        10
    };
    let out_length = output_length(rng, need);
    BuildLeftCase { book, number, bodies: list, lengths, out_length }
}

pub struct CompileCase {
    pub book: Vec<u32>,
    pub out_length: usize,
}

pub fn compile_case(rng: &mut Rng) -> CompileCase {
    let a = alphabet(rng);
    let book = match rng.below(11) {
        0 => damaged_book(rng, &a),
        1 => edge_book(rng),
        2 => large_book(rng, &a),
        4 => book_words(&aside_rules(rng).0),
        3 => {
            let n = rng.from_to(8, 40);
            book_words(&rules(rng, &a, n))
        }
        _ => book(rng, &a),
    };
    let out_length = if rng.chance(3, 4) {
        MAX_TREE + rng.below(2)
    } else {
        let need = compiled(&book).len();
        output_length(rng, need)
    };
    CompileCase { book, out_length }
}

/// A tree with a term to walk over.
pub fn tree_and_term(rng: &mut Rng, a: &Alphabet, book: &[u32]) -> (Vec<u32>, Vec<u32>) {
    if rng.chance(1, 3) {
        return following(rng, a, book);
    }
    let tree = any_tree(rng, a, book);
    let term = any_term(rng, a, book);
    (tree, term)
}

pub struct MatchTreeCase {
    pub tree: Vec<u32>,
    pub term: Vec<u32>,
    pub bodies_length: usize,
}

pub fn match_tree_case(rng: &mut Rng) -> MatchTreeCase {
    if rng.chance(1, 6) {
        let RewriteCase { tree, term, .. } = aside_case(rng);
        let bodies_length = output_length(rng, term.len());
        return MatchTreeCase { tree, term, bodies_length };
    }
    let a = alphabet(rng);
    let book = book(rng, &a);
    let (tree, term) = tree_and_term(rng, &a, &book);
    // Parts of a random Leaf may overlap: more words than the term has.
    let more = 40 * rng.below(2);
    let bodies_length = output_length(rng, term.len() + more);
    MatchTreeCase { tree, term, bodies_length }
}

pub struct RewriteCase {
    pub book: Vec<u32>,
    pub tree: Vec<u32>,
    pub term: Vec<u32>,
    pub budget: u16,
    pub out_length: usize,
}

/// For rewriting at the root and for simplifying.
pub fn rewrite_case(rng: &mut Rng) -> RewriteCase {
    if rng.chance(1, 5) {
        return aside_case(rng);
    }
    let a = alphabet(rng);
    let good = book(rng, &a);
    let (tree, term) = tree_and_term(rng, &a, &good);
    let book = match rng.below(30) {
        0 => damaged_book(rng, &a),
        1 => book(rng, &a),
        _ => good,
    };
    let budget = match rng.below(8) {
        0 => 0,
        1 => rng.from_to(1, 3) as u16,
        2 => 1_000,
        _ => rng.from_to(1, 60) as u16,
    };
    let out_length = match rng.below(4) {
        0 => output_length(rng, term.len()),
        1 => rng.below(20),
        _ => MAX_WORDS + rng.below(2),
    };
    RewriteCase { book, tree, term, budget, out_length }
}

/// A symbol whose count with `aside` more is 15 or 16 often.
fn taking_head(rng: &mut Rng, aside: usize) -> u32 {
    let c = match rng.below(5) {
        0 | 1 => 15 - aside,
        2 => (16 - aside).min(15),
        3 => 0,
        _ => rng.below(16),
    };
    symbol(rng.from_to(8, 9) as u32, c as u32)
}

/// A body for a variable of count k by what stands at its root: a symbol, an
/// abstraction, a variable outside, a parameter. At times a long or deep one.
fn rooted_body(rng: &mut Rng, k: u32, aside: usize) -> Vec<u32> {
    let mut out = match rng.below(5) {
        0 | 1 => vec![taking_head(rng, aside)],
        2 => vec![LAMBDA],
        3 if k > 0 => return vec![variable(rng.from_to(1, k as usize) as u32)],
        _ => return vec![variable(k + rng.from_to(1, 3) as u32)],
    };
    let large = if rng.chance(1, 10) { rng.below(count(out[0]) as usize) as u32 } else { 15 };
    for n in 0..count(out[0]) {
        let leaf = [symbol(7, 0), variable(1), variable(2)];
        if n != large {
            out.push(*rng.pick(&leaf));
        } else if rng.chance(1, 2) {
            let n = rng.from_to(1_300, 2_100);
            out.extend(wide(rng, n));
        } else {
            let n = rng.from_to(50, 62);
            out.extend(chain(rng, n));
        }
    }
    out
}

/// A left side with b arguments for the symbol 3 and its variables' counts.
fn aside_left(rng: &mut Rng, b: usize) -> (Vec<u32>, Vec<u32>) {
    let mut left = vec![symbol(3, b as u32)];
    let mut counts = Vec::new();
    for _ in 0..b {
        let x = counts.len() as u32;
        match rng.below(6) {
            0 => left.push(symbol(7, 0)),
            1..=3 => {
                left.push(pattern(x, 0));
                counts.push(0);
            }
            4 => {
                left.extend([LAMBDA, pattern(x, 1), variable(1)]);
                counts.push(1);
            }
            _ => {
                left.extend([LAMBDA, LAMBDA, pattern(x, 2), variable(1), variable(2)]);
                counts.push(2);
            }
        }
    }
    if side_is_whole(&left) {
        (left, counts)
    } else {
        aside_left(rng, b)
    }
}

/// Adds a right-side part by what stands at its root: a symbol, an abstraction
/// or a pattern variable, whose children are again such parts.
fn aside_right(rng: &mut Rng, counts: &[u32], aside: usize, room: usize, out: &mut Vec<u32>) {
    let x = rng.below(counts.len());
    match rng.below(5) {
        0 if counts.get(x) == Some(&0) => {
            out.extend([LAMBDA, symbol(2, 2), pattern(x as u32, 0), pattern(x as u32, 0)]);
        }
        0 => out.extend([LAMBDA, variable(1)]),
        1 | 2 if room > 0 && !counts.is_empty() => {
            out.push(pattern(x as u32, counts[x]));
            for _ in 0..counts[x] {
                aside_right(rng, counts, aside, room - 1, out);
            }
        }
        _ => {
            let w = taking_head(rng, aside);
            out.push(w);
            for _ in 0..count(w) {
                // Variables without parameters, so that the side stays short.
                let plain = counts.get(x) == Some(&0) && rng.chance(1, 2);
                out.push(if plain { pattern(x as u32, 0) } else { symbol(7, 0) });
            }
        }
    }
}

fn aside_rule(rng: &mut Rng, b: usize, aside: usize) -> Source {
    let (left, counts) = aside_left(rng, b);
    loop {
        let mut right = Vec::new();
        aside_right(rng, &counts, aside, 3, &mut right);
        if side_is_whole(&right) {
            return Source { vars: counts.len() as u32, left, right };
        }
    }
}

/// The bodies for a rule's variables by what stands at their roots.
fn aside_bodies(rng: &mut Rng, book: &[u32], aside: usize) -> (Vec<u32>, [u32; 16]) {
    let mut list = Vec::new();
    let mut lengths = [0; 16];
    if let Ok(read) = book::read(book) {
        for (x, &k) in read.rules[0].counts.iter().enumerate() {
            let one = rooted_body(rng, k, aside);
            lengths[x] = one.len() as u32;
            list.extend(one);
        }
    }
    (list, lengths)
}

/// A rule whose written side is around the limits, and a term for it with
/// arguments set aside: 15 and 18 alone, and both at once.
fn aside_large(rng: &mut Rng) -> (Vec<Source>, Vec<u32>) {
    let (x, s2, s4) = (pattern(0, 0), symbol(2, 2), symbol(4, 1));
    let rights: [&[u32]; 4] = [&[s2, x, x], &[LAMBDA, s2, x, x], &[s4, LAMBDA, x], &[LAMBDA, x]];
    let right = rng.pick(&rights).to_vec();
    let rules = vec![Source { vars: 1, left: vec![symbol(3, 1), x], right }];
    let more = if rng.chance(1, 2) { rng.from_to(1, 2) } else { rng.from_to(1, 14) };
    let mut term = vec![symbol(3, 1 + more as u32)];
    match rng.below(3) {
        0 => {
            let n = rng.from_to(2_038, 2_050);
            term.extend(wide(rng, n));
        }
        1 => {
            let n = rng.from_to(61, 63);
            term.extend(chain(rng, n));
        }
        _ => term.push(variable(65_534 + rng.below(2) as u32)),
    }
    term.extend(std::iter::repeat_n(symbol(7, 0), more));
    (rules, term)
}

/// Rules for the front of a term's arguments, one or two, and the term.
pub fn aside_rules(rng: &mut Rng) -> (Vec<Source>, Vec<u32>) {
    if rng.chance(1, 15) {
        return aside_large(rng);
    }
    let b = if rng.chance(1, 2) { rng.from_to(0, 3) } else { rng.from_to(0, 15) };
    let whole = match rng.below(4) {
        0 => 15,
        1 => b,
        _ => rng.from_to(b, 15),
    };
    let aside = whole - b;
    let mut rules = vec![aside_rule(rng, b, aside)];
    let book = book_words(&rules);
    let (list, lengths) = aside_bodies(rng, &book, aside);
    let mut term = vec![0; MAX_WORDS];
    if build_left(&book, 0, &list, &lengths, &mut term) != Answer::DONE {
        return aside_rules(rng);
    }
    term.truncate(Laid::of(&term).end[0]);
    term[0] = symbol(3, whole as u32);
    for _ in 0..aside {
        let leaf = [symbol(7, 0), symbol(8, 0), variable(1), variable(2), variable(65_535)];
        term.push(*rng.pick(&leaf));
    }
    if rng.chance(1, 3) {
        // Another rule for the symbol, before or after, with its own count.
        let other = rng.from_to(0, 15);
        let rule = aside_rule(rng, other, 15 - other);
        rules.insert(rng.below(2), rule);
    }
    for _ in 0..rng.below(5) / 2 {
        term.insert(0, *rng.pick(&[LAMBDA, symbol(4, 1)]));
    }
    (rules, term)
}

/// Rewriting with arguments set aside: 18 often, at times where 15 would be
/// due as well, and numbers set aside that are wrong.
pub fn aside_case(rng: &mut Rng) -> RewriteCase {
    let (rules, mut term) = aside_rules(rng);
    let book = book_words(&rules);
    let mut tree = compiled(&book);
    if rng.chance(1, 8) {
        wrong_aside(rng, &mut tree);
    }
    if rng.chance(1, 10) {
        nudge(rng, &mut term);
    }
    let budget = if rng.chance(1, 3) { rng.below(2) as u16 } else { rng.below(30) as u16 };
    let out_length = if rng.chance(1, 4) { output_length(rng, term.len()) } else { MAX_WORDS };
    RewriteCase { book, tree, term, budget, out_length }
}

/// Terms near the limits whose rewriting may pass them: 15 often.
pub fn growth_case(rng: &mut Rng) -> RewriteCase {
    let a = Alphabet { symbols: vec![symbol(7, 0), symbol(4, 1), symbol(2, 2), symbol(3, 1)] };
    let x = |c: u32| pattern(0, c);
    let (l, s2, s3, s4, v1) = (LAMBDA, symbol(2, 2), symbol(3, 1), symbol(4, 1), variable(1));
    // Doubling, deepening and shifting outwards.
    let all = [
        Source { vars: 1, left: vec![s3, x(0)], right: vec![s2, x(0), x(0)] },
        Source { vars: 1, left: vec![s3, x(0)], right: vec![s4, s4, s4, x(0)] },
        Source { vars: 1, left: vec![s3, x(0)], right: vec![l, l, x(0)] },
        Source { vars: 1, left: vec![s3, l, x(1), v1], right: vec![x(1), x(1), x(1), symbol(7, 0)] },
        Source { vars: 1, left: vec![s3, l, x(1), v1], right: vec![l, s2, x(1), v1, x(1), l, variable(2)] },
        Source { vars: 1, left: vec![s3, l, x(1), v1], right: vec![s3, l, x(1), x(1), v1] },
    ];
    let rule = rng.pick(&all).clone();
    let book = book_words(&[rule]);
    let inner = match rng.below(4) {
        0 => {
            let n = rng.from_to(50, 62);
            chain(rng, n)
        }
        1 => {
            let n = rng.from_to(2_000, 2_060);
            wide(rng, n)
        }
        2 => vec![variable(65_530 + rng.below(6) as u32)],
        _ => {
            let size = rng.from_to(1, 40);
            body(rng, &a, 1, size)
        }
    };
    let mut term = vec![s3];
    if rng.chance(1, 2) {
        term.push(l);
    }
    term.extend(inner);
    for _ in 0..rng.below(3) {
        term.insert(0, *rng.pick(&[s3, s4, l]));
    }
    let tree = compiled(&book);
    let budget = rng.from_to(0, 40) as u16;
    let out_length = if rng.chance(1, 4) { output_length(rng, term.len()) } else { MAX_WORDS };
    RewriteCase { book, tree, term, budget, out_length }
}
