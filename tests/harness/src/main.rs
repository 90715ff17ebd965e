//! Compares the library with the second program.
//!
//! - `harness compare --cases N --seed S`: the edges, each printed by its name, then the cases of N seeds from S on.
//! - `harness edges`: the edges alone.
//! - `harness sum`: the edge with more nodes visited than 32 bits hold, which takes long.
//! - `harness stack`: the edges in the library alone, within the stack that the process was given.
//! - `harness soak SECONDS`: the largest sum, then cases of fresh seeds until the time is over; 0 is for ever.
//! - `harness show SEED`: the case of one seed, and what both make of it.
//! - `harness program NAME PATH`: the program of that name, `simplify` or `repair`, at that path, on files.

mod case;
mod edges;
mod front;
mod lent;
mod make;
mod outcome;
mod program;
mod run;
mod tally;
mod visits;

use std::process::ExitCode;
use std::time::{Duration, SystemTime, UNIX_EPOCH};

use run::Span;

/// The value after a word of the command line.
fn value(words: &[String], key: &str) -> Option<u64> {
    let at = words.iter().position(|word| word == key)?;
    words.get(at + 1)?.parse().ok()
}

/// The outcome of a command as an exit code: what went wrong is told.
fn ended(result: Result<(), String>) -> ExitCode {
    match result {
        Ok(()) => ExitCode::SUCCESS,
        Err(why) => {
            eprintln!("{why}");
            ExitCode::FAILURE
        }
    }
}

/// A first seed that no run before had, in all likelihood.
fn fresh_seed() -> u64 {
    let now = SystemTime::now().duration_since(UNIX_EPOCH).unwrap_or_default();
    second::Rng::new(now.as_nanos() as u64).next()
}

fn soak(seconds: u64) -> Result<(), String> {
    run::largest_sum()?;
    let from = fresh_seed();
    println!("seeds from {from} on");
    let time = (seconds > 0).then(|| Duration::from_secs(seconds));
    let tally = run::seeds(Span { from, cases: u64::MAX, time })?;
    tally.print();
    println!("{} cases: no difference", tally.cases);
    Ok(())
}

fn compare(cases: u64, from: u64) -> Result<(), String> {
    let edges = run::edges()?;
    let tally = run::seeds(Span { from, cases, time: None })?;
    tally.print();
    println!("{edges} edges and {} cases: no difference", tally.cases);
    let faults = tally.faults();
    if faults.is_empty() {
        Ok(())
    } else {
        Err(faults.join("\n"))
    }
}

fn counted(edges: Result<usize, String>) -> Result<(), String> {
    println!("{} edges: no difference", edges?);
    Ok(())
}

fn main() -> ExitCode {
    let words: Vec<String> = std::env::args().skip(1).collect();
    let number = |at: usize| words.get(at).and_then(|word| word.parse::<u64>().ok());
    match words.first().map(String::as_str) {
        Some("compare") => {
            let cases = value(&words, "--cases").unwrap_or(200_000);
            ended(compare(cases, value(&words, "--seed").unwrap_or(1)))
        }
        Some("edges") => ended(counted(run::edges())),
        Some("sum") => ended(run::largest_sum()),
        Some("stack") => ended(counted(run::stack())),
        Some("soak") => ended(soak(number(1).unwrap_or(0))),
        Some("show") => ended(run::show(number(1).unwrap_or(0))),
        Some("program") if words.len() > 2 => ended(program::run(&words[1], &words[2])),
        _ => ended(Err("harness: compare, edges, sum, stack, soak, show or program".to_string())),
    }
}
