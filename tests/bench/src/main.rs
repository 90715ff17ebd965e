//! How long the library takes, as a ratio to the second program, in one run on fixed workloads.
//!
//! `bench [ROUNDS]`: each round times both on each workload, one right after the other, so that what else the machine does weighs on both.

mod workload;

use std::thread::Builder;
use std::time::{Duration, Instant};

use workload::{growing, workloads};

const ROUNDS: usize = 11;

/// Enough for every call.
const STACK: usize = 16 << 20;

/// A side of a round runs at least this long, so that the clock's grain does not count.
const LEAST: Duration = Duration::from_millis(20);

fn timed(repeats: u32, work: &dyn Fn()) -> Duration {
    let start = Instant::now();
    (0..repeats).for_each(|_| work());
    start.elapsed()
}

/// How often a workload is repeated so that it takes long enough.
fn repeats(work: &dyn Fn()) -> u32 {
    let mut repeats = 1;
    while timed(repeats, work) < LEAST {
        repeats *= 2;
    }
    repeats
}

fn micros(time: Duration, repeats: u32) -> f64 {
    time.as_secs_f64() * 1e6 / f64::from(repeats)
}

fn median(sorted: &[f64]) -> f64 {
    sorted[sorted.len() / 2]
}

fn sorted(mut values: Vec<f64>) -> Vec<f64> {
    values.sort_by(f64::total_cmp);
    values
}

/// Prints, for two works, the median ratio of their times, its spread, and the median times.
fn measure(name: &str, ours: &dyn Fn(), theirs: &dyn Fn(), rounds: usize) {
    let (often, often_theirs) = (repeats(ours), repeats(theirs));
    let (mut ratios, mut own, mut other) = (Vec::new(), Vec::new(), Vec::new());
    for _ in 0..rounds {
        let a = micros(timed(often, ours), often);
        let b = micros(timed(often_theirs, theirs), often_theirs);
        ratios.push(a / b);
        own.push(a);
        other.push(b);
    }
    let (ratios, own, other) = (sorted(ratios), sorted(own), sorted(other));
    println!(
        "{:<44} {:>7.3} {:>7.3} to {:>6.3} {:>12.1} {:>12.1}",
        name,
        median(&ratios),
        ratios[0],
        ratios[ratios.len() - 1],
        median(&own),
        median(&other),
    );
}

/// The columns of what is measured.
fn title(what: &str, ours: &str, theirs: &str) {
    println!("{what:<44} {:>7} {:>17} {ours:>12} {theirs:>12}", "ratio", "spread");
}

fn run(rounds: usize) {
    title("library / second, in the median of the rounds", "library us", "second us");
    for workload in workloads() {
        let facts = workload.facts();
        measure(workload.name, &|| workload.library(), &|| workload.second(), rounds);
        println!("    {facts}");
    }
    let (all, half) = growing();
    title("the library alone, all / half", "all us", "half us");
    measure("repair: 2,259 rules / 1,129 rules", &|| all.library(), &|| half.library(), rounds);
    println!("    {} / {}", all.facts(), half.facts());
}

fn main() {
    let rounds = std::env::args().nth(1).and_then(|word| word.parse().ok()).unwrap_or(ROUNDS);
    let thread = Builder::new().stack_size(STACK).spawn(move || run(rounds.max(1)));
    let ended = thread.map(|thread| thread.join().is_ok()).unwrap_or(false);
    std::process::exit(i32::from(!ended));
}
