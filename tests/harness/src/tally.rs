//! What a run met: numbers for each operation, what was done to the inputs, what fitted, and how often arguments were set aside.

use std::collections::BTreeMap;

use second::gen_repair::{Flaw, Kind};

use crate::case::{Case, OPERATIONS};
use crate::front;
use crate::make::{Label, FRONT, MAIL};
use crate::outcome::Outcome;
use crate::visits::{self, KINDS as VISITS, WALKS};

/// The documents' numbers.
const NUMBERS: [u32; 11] = [0, 1, 2, 10, 11, 12, 13, 14, 15, 16, 18];

/// The kinds of a text that came by mail, beside those with one flaw.
const KINDS: [Kind; 20] = [
    Kind::Sound,
    Kind::NoRule,
    Kind::Mixed,
    Kind::NoneSound,
    Kind::WrongRules,
    Kind::WrongRule,
    Kind::AnyNumbers,
    Kind::Over64,
    Kind::Many,
    Kind::NearSize,
    Kind::OverSize,
    Kind::Limits,
    Kind::ByteChanged,
    Kind::ByteInserted,
    Kind::ByteRemoved,
    Kind::Cut,
    Kind::LinesExchanged,
    Kind::LinesRepeated,
    Kind::LinesRemoved,
    Kind::Damaged,
];

/// The operations that say how many arguments are set aside, by their place in `OPERATIONS`.
const MATCHES: [usize; 2] = [2, 5];

/// All kinds of a text that came by mail, by their names.
fn mail_kinds() -> impl Iterator<Item = &'static str> {
    KINDS.into_iter().chain(Flaw::ALL.map(Kind::Bad)).map(Kind::name)
}

#[derive(Default)]
pub struct Tally {
    pub cases: u64,
    /// By operation and number.
    numbers: BTreeMap<(usize, u32), u64>,
    labels: BTreeMap<Label, u64>,
    /// By the kind of a text that came by mail or of a rule for a front part, and number.
    kinds: BTreeMap<(Label, u32), u64>,
    /// Matches with arguments set aside, by operation.
    aside: BTreeMap<usize, u64>,
    /// Cases of simplifying with at least one step, and all of their steps.
    stepped: u64,
    steps: u64,
    /// How often a kind of nodes visited was met, by operation, and the most of each operation.
    visits: BTreeMap<(&'static str, usize), u64>,
    most: BTreeMap<usize, u64>,
}

impl Tally {
    pub fn add(&mut self, case: &Case, labels: &[Label], outcome: &Outcome) {
        self.cases += 1;
        *self.numbers.entry((case.operation(), outcome.number)).or_default() += 1;
        for &label in labels {
            match label {
                (MAIL | FRONT, _) => *self.kinds.entry((label, outcome.number)).or_default() += 1,
                _ => *self.labels.entry(label).or_default() += 1,
            }
        }
        *self.aside.entry(case.operation()).or_default() += u64::from(outcome.aside > 0);
        if let Some(kind) = visits::kind(case, outcome) {
            *self.visits.entry((kind, case.operation())).or_default() += 1;
            let most = self.most.entry(case.operation()).or_default();
            *most = outcome.visits.max(*most);
        }
        if let Case::Simplify { .. } = case {
            self.stepped += u64::from(outcome.further > 0);
            self.steps += u64::from(outcome.further);
        }
    }

    pub fn merge(&mut self, other: Tally) {
        self.cases += other.cases;
        self.stepped += other.stepped;
        self.steps += other.steps;
        for (key, times) in other.numbers {
            *self.numbers.entry(key).or_default() += times;
        }
        for (key, times) in other.labels {
            *self.labels.entry(key).or_default() += times;
        }
        for (key, times) in other.kinds {
            *self.kinds.entry(key).or_default() += times;
        }
        for (key, times) in other.aside {
            *self.aside.entry(key).or_default() += times;
        }
        for (key, times) in other.visits {
            *self.visits.entry(key).or_default() += times;
        }
        for (key, visits) in other.most {
            let most = self.most.entry(key).or_default();
            *most = visits.max(*most);
        }
    }

    fn times(&self, operation: usize, number: u32) -> u64 {
        self.numbers.get(&(operation, number)).copied().unwrap_or(0)
    }

    fn set_aside(&self, operation: usize) -> u64 {
        self.aside.get(&operation).copied().unwrap_or(0)
    }

    /// Answers that an operation cannot give, and those it can that were not met; and kinds and matches that were not.
    pub fn faults(&self) -> Vec<String> {
        let mut faults = Vec::new();
        for &(operation, number) in self.numbers.keys() {
            if !OPERATIONS[operation].numbers.contains(&number) {
                faults.push(format!("{} answered {number}", OPERATIONS[operation].name));
            }
        }
        for (operation, known) in OPERATIONS.iter().enumerate() {
            for &number in known.numbers {
                if self.times(operation, number) == 0 {
                    faults.push(format!("{} never answered {number}", known.name));
                }
            }
        }
        let met = |input, kind| self.kinds.keys().any(|(label, _)| *label == (input, kind));
        let missed = mail_kinds().filter(|&kind| !met(MAIL, kind));
        faults.extend(missed.map(|kind| format!("no text to repair was of the kind {kind:?}")));
        let missed = front::all().filter(|&kind| !met(FRONT, kind));
        faults.extend(missed.map(|kind| format!("no rule for a front part was of the kind {kind:?}")));
        let missed = MATCHES.into_iter().filter(|&operation| self.set_aside(operation) == 0);
        faults.extend(missed.map(|operation| format!("{} set nothing aside", OPERATIONS[operation].name)));
        let all = VISITS.into_iter().flat_map(|(kind, of)| of.iter().map(move |&operation| (kind, operation)));
        let missed = all.filter(|key| !self.visits.contains_key(key));
        faults.extend(missed.map(|(kind, operation)| format!("{} had no nodes visited of the kind {kind:?}", OPERATIONS[operation].name)));
        faults
    }

    pub fn print(&self) {
        println!("answers by number, a comparison each:");
        print!("{:>14}", "");
        NUMBERS.iter().for_each(|number| print!("{number:>9}"));
        println!();
        for (operation, known) in OPERATIONS.iter().enumerate() {
            print!("{:>14}", known.name);
            for number in NUMBERS {
                match self.times(operation, number) {
                    0 => print!("{:>9}", "-"),
                    times => print!("{times:>9}"),
                }
            }
            println!();
        }
        self.print_fitted();
        self.print_labels();
        self.print_kinds("texts to repair", MAIL, mail_kinds(), &[0, 10, 13]);
        self.print_visits();
        self.print_kinds("rules for a front part", FRONT, front::all(), &[0, 1, 2, 11, 13, 14, 15, 18]);
    }

    fn print_fitted(&self) {
        println!("rules fitted:");
        for operation in MATCHES {
            let (name, times) = (OPERATIONS[operation].name, self.times(operation, 0));
            println!("{name:>14} {times:>8}, with arguments set aside {}", self.set_aside(operation));
        }
        println!("{:>14} {:>8}", "rewrite_root", self.times(6, 0));
        println!("{:>14} {:>8} with a step or more, {} steps", "simplify", self.stepped, self.steps);
    }

    fn print_labels(&self) {
        println!("inputs:");
        for ((input, how), times) in &self.labels {
            println!("{input:>14} {times:>8} {how}");
        }
    }

    fn print_visits(&self) {
        print!("nodes visited, by kind and operation:\n{:>36}", "");
        WALKS.iter().for_each(|&operation| print!("{:>14}", OPERATIONS[operation].name));
        println!();
        for (kind, of) in VISITS {
            print!("{kind:>36}");
            for operation in WALKS {
                match self.visits.get(&(kind, operation)) {
                    None if of.contains(&operation) => print!("{:>14}", 0),
                    None => print!("{:>14}", "-"),
                    Some(times) => print!("{times:>14}"),
                }
            }
            println!();
        }
        print!("{:>36}", "the most");
        WALKS.iter().for_each(|operation| print!("{:>14}", self.most.get(operation).unwrap_or(&0)));
        println!();
    }

    fn print_kinds(&self, title: &str, input: &'static str, kinds: impl Iterator<Item = &'static str>, numbers: &[u32]) {
        print!("{title}, by kind and number:\n{:>34}", "");
        numbers.iter().for_each(|number| print!("{number:>9}"));
        println!();
        for kind in kinds {
            print!("{kind:>34}");
            for &number in numbers {
                match self.kinds.get(&((input, kind), number)) {
                    None => print!("{:>9}", "-"),
                    Some(times) => print!("{times:>9}"),
                }
            }
            println!();
        }
    }
}
