//! The edges, each by name: a case and what document 01 or 02 gives for it, worked out by hand.

mod books;
mod building;
mod comparing;
mod compiling;
mod damage;
mod deep_damage;
mod front;
mod listed;
mod matching;
mod renumbering;
pub mod repairing;
mod rewriting;
mod simplifying;
mod taking;
mod terms;
pub mod visits;
mod walking;
mod words;

use std::collections::BTreeSet;

use crate::case::{Case, OPERATIONS};
use crate::outcome::Outcome;

/// What the documents give for a case. Where a result is not given, the second program alone says it.
pub struct Told {
    number: u32,
    at: u64,
    further: Option<u32>,
    aside: u32,
    visits: Option<u64>,
    words: Option<Vec<u32>>,
    lengths: Option<Vec<u32>>,
    bytes: Option<Vec<u8>>,
}

pub struct Edge {
    pub name: String,
    pub case: Case,
    pub told: Told,
}

/// A number and a place, and nothing of the results.
fn answer(number: u32, at: u64) -> Told {
    Told { number, at, further: None, aside: 0, visits: None, words: None, lengths: None, bytes: None }
}

/// Done, with this result and zeros after it.
fn done(words: Vec<u32>) -> Told {
    Told { words: Some(words), ..answer(rosenduch::DONE, 0) }
}

/// Done, with these bytes and zeros after them.
fn text(bytes: &str) -> Told {
    Told { bytes: Some(bytes.into()), ..answer(rosenduch::DONE, 0) }
}

/// A number with which all that is lent is zero afterwards, and the further result too.
fn clear(number: u32, at: u64) -> Told {
    let none = || Some(Vec::new());
    Told { further: Some(0), words: none(), lengths: none(), bytes: Some(Vec::new()), ..answer(number, at) }
}

/// Done, with bodies in variable order and their lengths.
fn fits(bodies: &[Vec<u32>]) -> Told {
    let lengths = bodies.iter().map(|body| body.len() as u32).collect();
    Told { lengths: Some(lengths), ..done(bodies.concat()) }
}

/// Document 01's book A, as a text.
pub const BOOK_A: &str = "book=1\nrules=3\n\
    rule=0\nvars=1\nleft=s2.2 m0.0 m0.0\nright=m0.0\n\
    rule=1\nvars=1\nleft=s3.1 l m0.0\nright=m0.0\n\
    rule=2\nvars=1\nleft=s3.1 l s4.1 m0.1 v1\nright=s4.1 s3.1 l m0.1 v1\n";

const NONE_FITS: u32 = rosenduch::NO_FIT;
const NOT_IN_FORM: u32 = 10;
const BAD_TERM: u32 = 11;
const BAD_BOOK: u32 = 12;
const NO_ROOM: u32 = 13;
const DAMAGED: u32 = 14;
const OVER: u32 = 15;
const NO_RULE: u32 = 16;
const CANNOT_TAKE: u32 = rosenduch::CANNOT_TAKE;

fn edge(name: impl Into<String>, case: Case, told: Told) -> Edge {
    Edge { name: name.into(), case, told }
}

/// Groups of edges in one list.
fn flat<const N: usize>(groups: [Vec<Edge>; N]) -> Vec<Edge> {
    groups.into_iter().flatten().collect()
}

/// Whether a lent output holds a result and zeros after it.
fn holds<T: PartialEq + Default>(lent: &[T], result: &Option<Vec<T>>) -> bool {
    let Some(result) = result else { return true };
    let zero = T::default();
    lent.starts_with(result) && lent[result.len()..].iter().all(|value| *value == zero)
}

impl Told {
    fn further(self, further: u32) -> Told {
        Told { further: Some(further), ..self }
    }

    /// So many arguments are set aside.
    fn aside(self, aside: u32) -> Told {
        Told { aside, ..self }
    }

    /// So many nodes are visited.
    fn visits(self, visits: u64) -> Told {
        Told { visits: Some(visits), ..self }
    }

    fn is(&self, outcome: &Outcome) -> bool {
        (self.number, self.at) == (outcome.number, outcome.at)
            && self.further.is_none_or(|further| further == outcome.further)
            && self.aside == outcome.aside
            && self.visits.is_none_or(|visits| visits == outcome.visits)
            && holds(&outcome.words, &self.words)
            && holds(&outcome.lengths, &self.lengths)
            && holds(&outcome.bytes, &self.bytes)
    }
}

impl Edge {
    /// The operation and the name: no two edges have the same.
    pub fn full_name(&self) -> String {
        format!("{}, {}", OPERATIONS[self.case.operation()].name, self.name)
    }

    /// Whether the outcome is the one that is given.
    pub fn judge(&self, outcome: &Outcome) -> Result<(), String> {
        if self.told.is(outcome) {
            return Ok(());
        }
        let Told { number, at, further, aside, visits, words, lengths, bytes } = &self.told;
        let counts = format!("further {further:?}, aside {aside}, visits {visits:?}");
        let given = format!("{number} at {at}, {counts}, words {words:?}, lengths {lengths:?}, bytes {bytes:?}");
        Err(format!("given: {given}\ncame:  {outcome}"))
    }
}

/// All edges, or a name that two of them have.
pub fn all() -> Result<Vec<Edge>, String> {
    let edges = flat([
        listed::edges(),
        terms::edges(),
        books::edges(),
        matching::edges(),
        building::edges(),
        renumbering::edges(),
        comparing::edges(),
        compiling::edges(),
        walking::edges(),
        damage::edges(),
        deep_damage::edges(),
        front::edges(),
        rewriting::edges(),
        simplifying::edges(),
        taking::edges(),
        visits::edges(),
        repairing::edges(),
    ]);
    let mut names = BTreeSet::new();
    match edges.iter().map(Edge::full_name).find(|name| !names.insert(name.clone())) {
        Some(name) => Err(format!("two edges are called {name}")),
        None => Ok(edges),
    }
}
