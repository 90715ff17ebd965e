//! Matching one rule, and building a left side from bodies.

use crate::answer::{give, of, Answer, BAD_TERM, NO_RULE_FITS, NO_SUCH_RULE, TOO_LARGE};
use crate::book::{self, Book, Rule, MAX_VARS};
use crate::renumber::{body_of, part_of};
use crate::term::{check_term, Laid, MAX_WORDS};
use crate::words::{kind, PATTERN};

/// The bodies that turn the rule's left side into the front of the term, if
/// there are any, and how many of the root's last arguments are set aside.
/// Renumbering loses nothing, so each part has at most one body.
pub fn fit(rule: &Rule, term: &Laid) -> Option<(Vec<Vec<u32>>, u32)> {
    let aside = rule.aside(term.words[0])?;
    let mut bodies: Vec<Option<Vec<u32>>> = vec![None; rule.vars];
    // Behind the roots; what is set aside follows the left side's last word.
    let (mut l, mut t) = (1, 1);
    while l < rule.left.len() {
        let w = rule.left.words[l];
        if kind(w) == PATTERN {
            let o = &rule.occurrences[rule.occurrence_at(l)?];
            let body = body_of(term, t, o.d, &o.list)?;
            match &bodies[o.variable] {
                None => bodies[o.variable] = Some(body),
                Some(first) if *first != body => return None,
                Some(_) => {}
            }
            l = rule.left.end[l];
            t = term.end[t];
        } else {
            // Equal words have equal counts, so both sides stay in step.
            if term.words[t] != w {
                return None;
            }
            l += 1;
            t += 1;
        }
    }
    let bodies = bodies.into_iter().collect::<Option<Vec<_>>>()?;
    Some((bodies, aside))
}

/// The left side made of bodies; None if it is too large to be a term.
pub fn build(rule: &Rule, bodies: &[Laid]) -> Option<Vec<u32>> {
    let mut out = Vec::new();
    let mut l = 0;
    while l < rule.left.len() {
        let w = rule.left.words[l];
        if kind(w) == PATTERN {
            let o = &rule.occurrences[rule.occurrence_at(l)?];
            out.extend(part_of(&bodies[o.variable], o.d, &o.list)?);
            l = rule.left.end[l];
        } else {
            out.push(w);
            l += 1;
        }
        if out.len() > MAX_WORDS {
            return None;
        }
    }
    // What is left to judge is the nesting.
    (check_term(&out) == Answer::DONE).then_some(out)
}

/// The rule asked for: 16 if the book has none of that number.
fn rule_of(book: &Book, number: u32) -> Result<&Rule, Answer> {
    book.rules
        .get(number as usize)
        .ok_or(Answer::new(NO_SUCH_RULE, number))
}

/// Writes bodies as one list with their lengths beside it.
pub fn give_bodies(
    found: &[Vec<u32>],
    bodies: &mut [u32],
    lengths: &mut [u32; 16],
) -> Result<(), Answer> {
    give(&found.concat(), bodies)?;
    for (length, body) in lengths.iter_mut().zip(found) {
        *length = body.len() as u32;
    }
    Ok(())
}

/// Beside the answer, how many arguments are set aside: 0 unless it is 0.
pub fn match_rule(
    book: &[u32],
    number: u32,
    term: &[u32],
    bodies: &mut [u32],
    lengths: &mut [u32; 16],
) -> (Answer, u32) {
    bodies.fill(0);
    lengths.fill(0);
    let mut set_aside = 0;
    let answer = of((|| {
        let book = book::read(book)?;
        let rule = rule_of(&book, number)?;
        let term = checked(term)?;
        let (found, aside) = fit(rule, &term).ok_or(Answer::new(NO_RULE_FITS, 0))?;
        give_bodies(&found, bodies, lengths)?;
        set_aside = aside;
        Ok(())
    })());
    (answer, set_aside)
}

pub fn build_left(
    book: &[u32],
    number: u32,
    bodies: &[u32],
    lengths: &[u32; 16],
    out: &mut [u32],
) -> Answer {
    out.fill(0);
    of((|| {
        let book = book::read(book)?;
        let rule = rule_of(&book, number)?;
        let bodies = split_bodies(rule.vars, bodies, lengths)?;
        let term = build(rule, &bodies).ok_or(Answer::new(TOO_LARGE, 0))?;
        give(&term, out)
    })())
}

/// A checked and laid out term, or 11.
pub fn checked(term: &[u32]) -> Result<Laid, Answer> {
    let answer = check_term(term);
    if answer == Answer::DONE {
        Ok(Laid::of(term))
    } else {
        Err(answer)
    }
}

fn split_bodies(vars: usize, bodies: &[u32], lengths: &[u32; 16]) -> Result<Vec<Laid>, Answer> {
    let sum: u64 = lengths.iter().map(|&n| u64::from(n)).sum();
    let unused = lengths[vars..].iter().any(|&n| n != 0);
    if sum != bodies.len() as u64 || unused {
        return Err(Answer::new(BAD_TERM, MAX_VARS as u32));
    }
    let mut rest = bodies;
    let mut split = Vec::new();
    for (variable, &length) in lengths[..vars].iter().enumerate() {
        let (body, after) = rest.split_at(length as usize);
        if check_term(body) != Answer::DONE {
            return Err(Answer::new(BAD_TERM, variable as u32));
        }
        split.push(Laid::of(body));
        rest = after;
    }
    Ok(split)
}
