//! Walking a tree, which may be damaged.

use crate::answer::{of, Answer, DAMAGED_TREE, NO_RULE_FITS};
use crate::book::{Book, MAX_RULES, MAX_VARS};
use crate::compile::{CLOSED, FAIL, LEAF, MAX_TREE, SAME, SWITCH};
use crate::fit::{checked, give_bodies};
use crate::renumber::{body_of, list_is_good};
use crate::term::Laid;
use crate::words::{count, kind, ABSTRACTION};

/// A subterm uncovered on the way.
#[derive(Clone, Copy)]
struct Place {
    /// Its offset in the whole term.
    at: usize,
    /// Abstractions passed on the way to it.
    d: u32,
    entered: bool,
}

/// What a Leaf says: a rule, how many of the root's last arguments are set
/// aside, and the bodies.
pub struct Found {
    pub rule: usize,
    pub aside: u32,
    pub bodies: Vec<Vec<u32>>,
}

/// A node is damaged; which one is known where it is walked.
struct Damaged;

/// What a node makes of the walk.
enum Next {
    Go(usize),
    Stop(Option<Found>),
}

struct Walk<'a> {
    tree: &'a [u32],
    term: &'a Laid,
    book: Option<&'a Book>,
    places: Vec<Place>,
}

/// Refuses a tree of a length that no tree has.
pub fn check_length(tree: &[u32]) -> Result<(), Answer> {
    if tree.len() > MAX_TREE {
        return Err(Answer::new(DAMAGED_TREE, MAX_TREE as u32));
    }
    Ok(())
}

/// Walks the tree over the part of the term that begins at `start`. The tree's
/// length was judged before. No rule: None. Each node visited, the last one or
/// the damaged one included, is added to `visits`.
pub fn walk(
    tree: &[u32],
    term: &Laid,
    start: usize,
    book: Option<&Book>,
    visits: &mut u64,
) -> Result<Option<Found>, Answer> {
    let root = Place { at: start, d: 0, entered: false };
    let mut walk = Walk { tree, term, book, places: vec![root] };
    let mut node = 0;
    // Addresses only grow, so this ends.
    loop {
        *visits += 1;
        match walk.step(node) {
            Ok(Next::Go(to)) => node = to,
            Ok(Next::Stop(found)) => return Ok(found),
            Err(Damaged) => return Err(Answer::new(DAMAGED_TREE, node as u32)),
        }
    }
}

impl Walk<'_> {
    fn step(&mut self, node: usize) -> Result<Next, Damaged> {
        match self.field(node)? {
            FAIL => Ok(Next::Stop(None)),
            LEAF => self.leaf(node).map(|found| Next::Stop(Some(found))),
            SWITCH => self.switch(node),
            CLOSED => self.closed(node),
            SAME => self.same(node),
            _ => Err(Damaged),
        }
    }

    /// A word of the table.
    fn field(&self, at: usize) -> Result<u32, Damaged> {
        self.tree.get(at).copied().ok_or(Damaged)
    }

    fn place(&self, number: u32) -> Result<Place, Damaged> {
        self.places.get(number as usize).copied().ok_or(Damaged)
    }

    /// A count k, which stands at `at`.
    fn k(&self, at: usize) -> Result<usize, Damaged> {
        match self.field(at)? {
            k if k <= 4 => Ok(k as usize),
            _ => Err(Damaged),
        }
    }

    /// A list of k ids, good under d abstractions.
    fn list(&self, at: usize, k: usize, d: u32) -> Result<&[u32], Damaged> {
        let list = self.tree.get(at..at + k).ok_or(Damaged)?;
        if list_is_good(list, d) {
            Ok(list)
        } else {
            Err(Damaged)
        }
    }

    /// The taken address: later than the node and inside the table.
    fn taken(&self, node: usize, address: u32) -> Result<usize, Damaged> {
        let to = address as usize;
        if to > node && to < self.tree.len() {
            Ok(to)
        } else {
            Err(Damaged)
        }
    }

    fn body(&self, place: Place, list: &[u32]) -> Option<Vec<u32>> {
        body_of(self.term, place.at, place.d, list)
    }

    fn leaf(&self, node: usize) -> Result<Found, Damaged> {
        let rule = self.field(node + 1)? as usize;
        let n = self.field(node + 2)? as usize;
        let aside = self.field(node + 3)?;
        if rule >= MAX_RULES || n > MAX_VARS || aside > self.root_count() {
            return Err(Damaged);
        }
        let mut counts = Vec::new();
        let mut bodies = Vec::new();
        let mut at = node + 4;
        for _ in 0..n {
            let place = self.place(self.field(at)?)?;
            let k = self.k(at + 1)?;
            let list = self.list(at + 2, k, place.d)?;
            bodies.push(self.body(place, list).ok_or(Damaged)?);
            counts.push(k as u32);
            at += 2 + k;
        }
        if let Some(book) = self.book {
            let rule = book.rules.get(rule).ok_or(Damaged)?;
            let own = count(rule.left.words[0]);
            // As many counts as variables, and the same ones.
            if rule.counts != counts || own + aside != self.root_count() {
                return Err(Damaged);
            }
        }
        Ok(Found { rule, aside, bodies })
    }

    /// The count of the root's word, whatever its kind.
    fn root_count(&self) -> u32 {
        count(self.term.words[self.places[0].at])
    }

    fn switch(&mut self, node: usize) -> Result<Next, Damaged> {
        let number = self.field(node + 1)?;
        let place = self.place(number)?;
        let cases = self.field(node + 2)? as usize;
        // More cases than words would run past the table in any event.
        if cases > self.tree.len() {
            return Err(Damaged);
        }
        let default_at = node + 3 + 2 * cases;
        let default = self.field(default_at)?;

        let w = self.term.words[place.at];
        let taken = self.tree[node + 3..default_at]
            .chunks_exact(2)
            .find(|case| case[0] == w)
            .map(|case| case[1]);
        let Some(address) = taken else {
            return self.taken(node, default).map(Next::Go);
        };
        let to = self.taken(node, address)?;
        if place.entered {
            return Err(Damaged);
        }
        self.enter(number as usize);
        Ok(Next::Go(to))
    }

    /// Uncovers the children of the node at a place.
    fn enter(&mut self, number: usize) {
        self.places[number].entered = true;
        let Place { at, d, .. } = self.places[number];
        let d = d + u32::from(kind(self.term.words[at]) == ABSTRACTION);
        for child in self.term.children(at) {
            self.places.push(Place { at: child, d, entered: false });
        }
    }

    fn closed(&self, node: usize) -> Result<Next, Damaged> {
        let place = self.place(self.field(node + 1)?)?;
        let k = self.k(node + 2)?;
        let list = self.list(node + 3, k, place.d)?;
        let says = self.body(place, list).is_some();
        self.answer(node, node + 3 + k, says)
    }

    fn same(&self, node: usize) -> Result<Next, Damaged> {
        let one = self.place(self.field(node + 1)?)?;
        let two = self.place(self.field(node + 2)?)?;
        let k = self.k(node + 3)?;
        let first = self.list(node + 4, k, one.d)?;
        let later = self.list(node + 4 + k, k, two.d)?;
        let says = match (self.body(one, first), self.body(two, later)) {
            (Some(a), Some(b)) => a == b,
            _ => false,
        };
        self.answer(node, node + 4 + 2 * k, says)
    }

    /// Goes on at the yes or the no that stand at `at`.
    fn answer(&self, node: usize, at: usize, says: bool) -> Result<Next, Damaged> {
        let (yes, no) = (self.field(at)?, self.field(at + 1)?);
        self.taken(node, if says { yes } else { no }).map(Next::Go)
    }
}

/// The answer is 11, 14, 1, 13 or 0; the rule and the number of arguments set
/// aside are 0 unless it is 0. Last come the nodes visited.
pub fn match_tree(
    tree: &[u32],
    term: &[u32],
    bodies: &mut [u32],
    lengths: &mut [u32; 16],
) -> (Answer, u32, u32, u64) {
    bodies.fill(0);
    lengths.fill(0);
    let (mut rule, mut aside, mut visits) = (0, 0, 0);
    let answer = of((|| {
        let term = checked(term)?;
        check_length(tree)?;
        let found = walk(tree, &term, 0, None, &mut visits)?;
        let found = found.ok_or(Answer::new(NO_RULE_FITS, 0))?;
        give_bodies(&found.bodies, bodies, lengths)?;
        (rule, aside) = (found.rule as u32, found.aside);
        Ok(())
    })());
    (answer, rule, aside, visits)
}
