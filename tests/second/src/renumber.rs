//! Renumbering between bodies and the parts of terms.

use crate::term::Laid;
use crate::words::{id, kind, variable, MAX_ID, VARIABLE};

/// The body of the part of `term` at `at`, for a pattern variable with this
/// list under d abstractions; None if the part isn't closed for the list.
pub fn body_of(term: &Laid, at: usize, d: u32, list: &[u32]) -> Option<Vec<u32>> {
    let k = list.len() as u32;
    let mut body = Vec::with_capacity(term.end[at] - at);
    for here in at..term.end[at] {
        let w = term.words[here];
        if kind(w) != VARIABLE {
            body.push(w);
            continue;
        }
        let i = id(w);
        // Only the abstractions inside the part are its own.
        let e = term.above[here] - term.above[at];
        let new = if i <= e {
            i
        } else if i <= e + d {
            let j = list.iter().position(|&y| y == i - e)?;
            e + 1 + j as u32
        } else {
            i - d + k
        };
        body.push(variable(new));
    }
    Some(body)
}

/// The part that a body becomes; None if an id grows past 65,535.
pub fn part_of(body: &Laid, d: u32, list: &[u32]) -> Option<Vec<u32>> {
    let k = list.len() as u32;
    let mut part = Vec::with_capacity(body.len());
    for here in 0..body.len() {
        let w = body.words[here];
        if kind(w) != VARIABLE {
            part.push(w);
            continue;
        }
        let i = id(w);
        let e = body.above[here];
        let new = if i <= e {
            i
        } else if i <= e + k {
            e + list[(i - e - 1) as usize]
        } else {
            i - k + d
        };
        if new > MAX_ID {
            return None;
        }
        part.push(variable(new));
    }
    Some(part)
}

/// Whether a list is of distinct ids within 1..d.
pub fn list_is_good(list: &[u32], d: u32) -> bool {
    list.iter()
        .enumerate()
        .all(|(j, &y)| y >= 1 && y <= d && !list[..j].contains(&y))
}
