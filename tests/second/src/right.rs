//! Writing a right side.

use crate::book::Rule;
use crate::term::{Laid, MAX_NESTING, MAX_WORDS};
use crate::words::{count, id, kind, variable, ABSTRACTION, MAX_ID, PATTERN, VARIABLE};

/// What is written would be no term.
pub struct TooLarge;

/// Where a part is written.
#[derive(Clone)]
struct Spot {
    /// Abstractions written above this spot, from the part's root on.
    depth: u32,
    /// Nesting of the next word in the whole term.
    nesting: usize,
    /// For each right-side abstraction in sight, outermost first, how many
    /// abstractions were written above it.
    own: Vec<u32>,
}

struct Writer<'a> {
    right: &'a Laid,
    bodies: &'a [Laid],
    out: Vec<u32>,
}

/// The word at the root of what is written, but for a variable's id: known
/// without writing, so also where writing goes over a limit.
pub fn written_root(rule: &Rule, bodies: &[Vec<u32>]) -> u32 {
    let mut at = 0;
    // Each turn goes down to a child of the right side.
    loop {
        let w = rule.right.words[at];
        if kind(w) != PATTERN {
            return w;
        }
        let root = bodies[id(w) as usize][0];
        let parameter = kind(root) == VARIABLE && id(root) <= count(w);
        if !parameter {
            return root;
        }
        at = rule.right.children(at)[id(root) as usize - 1];
    }
}

/// Writes the rule's right side with these bodies, its root nesting as given.
pub fn write_right(
    rule: &Rule,
    bodies: &[Vec<u32>],
    nesting: usize,
) -> Result<Vec<u32>, TooLarge> {
    let bodies: Vec<Laid> = bodies.iter().map(|body| Laid::of(body)).collect();
    let mut writer = Writer { right: &rule.right, bodies: &bodies, out: Vec::new() };
    writer.part(0, &Spot { depth: 0, nesting, own: Vec::new() })?;
    Ok(writer.out)
}

impl Writer<'_> {
    fn put(&mut self, w: u32, nesting: usize) -> Result<(), TooLarge> {
        // Stopping here bounds the work: bodies in bodies can grow fast.
        if nesting > MAX_NESTING || self.out.len() >= MAX_WORDS {
            return Err(TooLarge);
        }
        self.out.push(w);
        Ok(())
    }

    fn put_variable(&mut self, i: u32, nesting: usize) -> Result<(), TooLarge> {
        if i > MAX_ID {
            return Err(TooLarge);
        }
        self.put(variable(i), nesting)
    }

    /// Writes the right-side part at `at`. Right sides nest at most 16.
    fn part(&mut self, at: usize, spot: &Spot) -> Result<(), TooLarge> {
        let right = self.right;
        let w = right.words[at];
        match kind(w) {
            PATTERN => self.body(id(w) as usize, &right.children(at), spot),
            VARIABLE => {
                // The abstraction it names may have moved further out.
                let named = spot.own[spot.own.len() - id(w) as usize];
                self.put_variable(spot.depth - named, spot.nesting)
            }
            other => {
                self.put(w, spot.nesting)?;
                let mut inner = spot.clone();
                inner.nesting += 1;
                if other == ABSTRACTION {
                    inner.own.push(spot.depth);
                    inner.depth += 1;
                }
                for child in right.children(at) {
                    self.part(child, &inner)?;
                }
                Ok(())
            }
        }
    }

    /// Writes the body of a variable, its children at the parameters.
    fn body(&mut self, number: usize, children: &[usize], spot: &Spot) -> Result<(), TooLarge> {
        let bodies = self.bodies;
        let body = &bodies[number];
        let k = children.len() as u32;
        for here in 0..body.len() {
            let w = body.words[here];
            let nesting = spot.nesting + body.nesting[here] - 1;
            let e = body.above[here];
            if kind(w) != VARIABLE || id(w) <= e {
                self.put(w, nesting)?;
            } else if id(w) <= e + k {
                let child = children[(id(w) - e - 1) as usize];
                let inner = Spot { depth: spot.depth + e, nesting, own: spot.own.clone() };
                self.part(child, &inner)?;
            } else {
                self.put_variable(id(w) - k + spot.depth, nesting)?;
            }
        }
        Ok(())
    }
}
