//! The programs `simplify` and `repair`, run on files: what each prints is what the second program says for the same standard input.

mod repair;
mod simplify;

use std::io::{Read, Write};
use std::process::{Child, Command, Stdio};
use std::thread;
use std::time::{Duration, Instant};

/// How many seeded files are run.
const FILES: u64 = 300;

/// A program that does not end by then hangs.
const PATIENCE: Duration = Duration::from_secs(20);

/// What a program is tried on.
struct Trial {
    /// What the second program prints for a file.
    second: fn(&[u8]) -> Vec<u8>,
    /// A file, and what the documents say is printed for it.
    example: Vec<u8>,
    printed: Vec<u8>,
    edges: Vec<(String, Vec<u8>)>,
    /// Files to hand over in pieces.
    pieces: Vec<Vec<u8>>,
    /// A file for which more is printed than a pipe holds.
    long: Vec<u8>,
    seeded: fn(u64) -> Vec<u8>,
}

/// How a file is handed to the program.
#[derive(Clone, Copy)]
enum Feed {
    Whole,
    /// In pieces of this many bytes, so that reads come back short.
    Pieces(usize),
}

fn start(path: &str) -> Result<Child, String> {
    Command::new(path).stdin(Stdio::piped()).stdout(Stdio::piped()).spawn().map_err(|why| format!("{path}: {why}"))
}

/// Feeds a file on a thread of its own; a program may close its input early.
fn feed(child: &mut Child, file: Vec<u8>, how: Feed) -> Result<thread::JoinHandle<()>, String> {
    let mut stdin = child.stdin.take().ok_or("no input")?;
    Ok(thread::spawn(move || {
        let size = match how {
            Feed::Whole => file.len().max(1),
            Feed::Pieces(size) => size,
        };
        for piece in file.chunks(size) {
            if stdin.write_all(piece).and_then(|()| stdin.flush()).is_err() {
                return;
            }
            if let Feed::Pieces(_) = how {
                thread::yield_now();
            }
        }
    }))
}

/// Waits for the program's end.
fn ended(child: &mut Child) -> Result<(), String> {
    let start = Instant::now();
    while start.elapsed() < PATIENCE {
        match child.try_wait() {
            Ok(Some(_)) => return Ok(()),
            Ok(None) => thread::sleep(Duration::from_millis(1)),
            Err(why) => return Err(why.to_string()),
        }
    }
    child.kill().map_err(|why| why.to_string())?;
    Err("the program does not end".to_string())
}

/// What the program prints for a file.
fn printed(path: &str, file: &[u8], how: Feed) -> Result<Vec<u8>, String> {
    let mut child = start(path)?;
    let feeder = feed(&mut child, file.to_vec(), how)?;
    let mut out = Vec::new();
    let mut stdout = child.stdout.take().ok_or("no output")?;
    stdout.read_to_end(&mut out).map_err(|why| why.to_string())?;
    ended(&mut child)?;
    feeder.join().map_err(|_| "feeding failed".to_string())?;
    Ok(out)
}

fn same(path: &str, second: fn(&[u8]) -> Vec<u8>, name: &str, file: &[u8], how: Feed) -> Result<(), String> {
    let ours = printed(path, file, how)?;
    let theirs = second(file);
    if ours == theirs {
        return Ok(());
    }
    let text = String::from_utf8_lossy;
    Err(format!("{name}\nfile:\n{}\nprogram:\n{}\nsecond:\n{}", text(file), text(&ours), text(&theirs)))
}

/// A reader that takes a few bytes and closes: the program ends all the same.
fn closed_output(path: &str, file: Vec<u8>) -> Result<(), String> {
    let mut child = start(path)?;
    let feeder = feed(&mut child, file, Feed::Whole)?;
    let mut few = [0; 4];
    let mut stdout = child.stdout.take().ok_or("no output")?;
    stdout.read_exact(&mut few).map_err(|why| why.to_string())?;
    drop(stdout);
    ended(&mut child)?;
    feeder.join().map_err(|_| "feeding failed".to_string())
}

/// The seeded files; how many of them are refused.
fn seeded(path: &str, trial: &Trial) -> Result<u64, String> {
    let mut refused = 0;
    for seed in 0..FILES {
        let file = (trial.seeded)(seed);
        refused += u64::from((trial.second)(&file).starts_with(b"answer="));
        same(path, trial.second, &format!("the file of seed {seed}"), &file, Feed::Whole)?;
    }
    Ok(refused)
}

/// Runs the program of this name at a path on the edges, on pieces, on a closed output and on seeded files.
pub fn run(name: &str, path: &str) -> Result<(), String> {
    let trial = match name {
        "simplify" => simplify::trial(),
        "repair" => repair::trial(),
        _ => return Err(format!("no program is called {name}")),
    };
    if printed(path, &trial.example, Feed::Whole)? != trial.printed {
        return Err("the example is printed otherwise".to_string());
    }
    for (name, file) in &trial.edges {
        same(path, trial.second, name, file, Feed::Whole)?;
    }
    for size in [1, 7, 1_000] {
        for file in &trial.pieces {
            same(path, trial.second, "in pieces", file, Feed::Pieces(size))?;
        }
    }
    closed_output(path, trial.long.clone())?;
    let refused = seeded(path, &trial)?;
    println!("{name}: {} edges, {FILES} files, {refused} of them refused: no difference", trial.edges.len());
    Ok(())
}
