//! Runs cases on two threads, each with a stack that is enough for every call.

use std::panic::{catch_unwind, AssertUnwindSafe};
use std::sync::atomic::{AtomicBool, AtomicU64, Ordering};
use std::sync::Arc;
use std::thread::{Builder, JoinHandle};
use std::time::{Duration, Instant};

use crate::case::{Case, OPERATIONS};
use crate::edges;
use crate::make::made;
use crate::outcome::{compare, library, second, Outcome};
use crate::tally::Tally;

const THREADS: usize = 2;
const STACK: usize = 16 << 20;

/// How many seeds a thread takes at once, and after how many an endless run says how far it is.
const BLOCK: u64 = 100;
const SAID: u64 = 100_000;

/// Seeds to run: as many as `cases`, or fewer where the time is over.
#[derive(Clone, Copy)]
pub struct Span {
    pub from: u64,
    pub cases: u64,
    pub time: Option<Duration>,
}

/// What the threads share.
struct Shared {
    span: Span,
    start: Instant,
    next: AtomicU64,
    stop: AtomicBool,
}

impl Shared {
    fn is_over(&self) -> bool {
        let late = self.span.time.is_some_and(|time| self.start.elapsed() >= time);
        late || self.stop.load(Ordering::Relaxed)
    }

    /// The numbers of the next block of cases, if any are left.
    fn block(&self) -> Option<std::ops::Range<u64>> {
        let first = self.next.fetch_add(BLOCK, Ordering::Relaxed);
        if first >= self.span.cases || self.is_over() {
            return None;
        }
        if self.span.cases == u64::MAX && first > 0 && first.is_multiple_of(SAID) {
            println!("{first} cases, no difference");
        }
        Some(first..self.span.cases.min(first + BLOCK))
    }
}

/// Runs a thread with room for the deepest calls.
fn spawn<T: Send + 'static>(work: impl FnOnce() -> Result<T, String> + Send + 'static) -> Result<JoinHandle<Result<T, String>>, String> {
    Builder::new().stack_size(STACK).spawn(work).map_err(|why| why.to_string())
}

fn joined<T>(thread: JoinHandle<Result<T, String>>) -> Result<T, String> {
    thread.join().map_err(|_| "a thread ended early".to_string())?
}

/// The case of one seed, in both.
fn one(seed: u64, tally: &mut Tally) -> Result<(), String> {
    let run = catch_unwind(AssertUnwindSafe(|| {
        let made = made(seed);
        let told = compare(&made.case);
        (made, told)
    }));
    let (made, told) = run.map_err(|_| format!("seed {seed}: a panic"))?;
    let name = OPERATIONS[made.case.operation()].name;
    match told {
        Ok(outcome) => {
            tally.add(&made.case, &made.labels, &outcome);
            Ok(())
        }
        Err(why) => Err(format!("DIFFERENCE in {name}, seed {seed}\n{:?}\n{why}", made.case)),
    }
}

fn blocks(shared: &Shared) -> Result<Tally, String> {
    let mut tally = Tally::default();
    while let Some(block) = shared.block() {
        for number in block {
            if let Err(why) = one(shared.span.from.wrapping_add(number), &mut tally) {
                shared.stop.store(true, Ordering::Relaxed);
                return Err(why);
            }
        }
    }
    Ok(tally)
}

/// The cases of a span of seeds.
pub fn seeds(span: Span) -> Result<Tally, String> {
    let shared = Arc::new(Shared { span, start: Instant::now(), next: AtomicU64::new(0), stop: AtomicBool::new(false) });
    let mut threads = Vec::new();
    for _ in 0..THREADS {
        let shared = Arc::clone(&shared);
        threads.push(spawn(move || blocks(&shared))?);
    }
    let mut tally = Tally::default();
    let told: Vec<_> = threads.into_iter().map(joined).collect();
    for part in told {
        tally.merge(part?);
    }
    Ok(tally)
}

/// What the library makes of each edge, held to what is given for it, and to the second program where that is asked too; each is printed by its
/// name. How many there are.
fn judged(outcome: impl Fn(&Case) -> Result<Outcome, String>) -> Result<usize, String> {
    let edges = edges::all()?;
    let mut bad = 0;
    for edge in &edges {
        match outcome(&edge.case).and_then(|outcome| edge.judge(&outcome)) {
            Ok(()) => println!("edge {}: ok", edge.full_name()),
            Err(why) => {
                println!("edge {}: FAILED\n{why}", edge.full_name());
                bad += 1;
            }
        }
    }
    if bad > 0 {
        return Err(format!("{bad} of {} edges failed", edges.len()));
    }
    Ok(edges.len())
}

/// The edges, in both.
pub fn edges() -> Result<usize, String> {
    joined(spawn(|| judged(compare))?)
}

/// The edge with the largest sum: the library on one thread and the second program on another, as it takes long.
pub fn largest_sum() -> Result<(), String> {
    let ours = spawn(|| {
        let edge = edges::visits::largest();
        edge.judge(&library(&edge.case))?;
        Ok(edge.full_name())
    })?;
    let theirs = spawn(|| {
        let edge = edges::visits::largest();
        edge.judge(&second(&edge.case))
    })?;
    joined(theirs)?;
    println!("edge {}: ok", joined(ours)?);
    Ok(())
}

/// The edges in the library alone, on this thread and within its stack.
pub fn stack() -> Result<usize, String> {
    judged(|case| Ok(library(case)))
}

/// Prints one case and what both make of it.
pub fn show(seed: u64) -> Result<(), String> {
    joined(spawn(move || {
        let made = made(seed);
        println!("{:?}\n{:?}", made.labels, made.case);
        let told = compare(&made.case)?;
        println!("both: {told}");
        Ok(())
    })?)
}
