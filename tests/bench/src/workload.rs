//! The fixed workloads. Every one is made from a fixed seed or by hand, so that runs can be compared.

use std::hint::black_box;

use second::gen::{self, Source};
use second::words::{pattern, symbol, variable, LAMBDA};
use second::Rng;

/// What is done: a book is compiled, terms are simplified with its tree, or a text of a book that came by mail is repaired.
enum Work {
    Compile { book: Vec<u32> },
    Simplify { book: Vec<u32>, tree: Vec<u32>, terms: Vec<Vec<u32>> },
    Repair { text: Vec<u8> },
}

pub struct Workload {
    pub name: &'static str,
    work: Work,
}

const BUDGET: u16 = 1_000;

impl Workload {
    fn simplify(name: &'static str, rules: &[Source], terms: Vec<Vec<u32>>) -> Workload {
        let book = gen::book_words(rules);
        let tree = gen::compiled(&book);
        Workload { name, work: Work::Simplify { book, tree, terms } }
    }

    fn compile(name: &'static str, book: Vec<u32>) -> Workload {
        Workload { name, work: Work::Compile { book } }
    }

    fn repair(name: &'static str, text: Vec<u8>) -> Workload {
        Workload { name, work: Work::Repair { text } }
    }

    pub fn library(&self) {
        match &self.work {
            Work::Compile { book } => {
                let mut out = vec![0; rosenduch::MOST_TREE];
                black_box(rosenduch::raw::compile(book, &mut out));
            }
            Work::Simplify { book, tree, terms } => {
                let mut out = vec![0; rosenduch::MOST_TERM];
                for term in terms {
                    black_box(rosenduch::raw::simplify(book, tree, term, BUDGET, &mut out));
                }
            }
            Work::Repair { text } => {
                let mut out = vec![0; rosenduch::MOST_REPAIRED];
                black_box(rosenduch::raw::repair_book(text, &mut out));
            }
        }
    }

    pub fn second(&self) {
        match &self.work {
            Work::Compile { book } => {
                let mut out = vec![0; rosenduch::MOST_TREE];
                black_box(second::compile(book, &mut out));
            }
            Work::Simplify { book, tree, terms } => {
                let mut out = vec![0; rosenduch::MOST_TERM];
                for term in terms {
                    black_box(second::simplify(book, tree, term, BUDGET, &mut out));
                }
            }
            Work::Repair { text } => {
                let mut out = vec![0; rosenduch::MOST_REPAIRED];
                black_box(second::repair_book(text, &mut out));
            }
        }
    }

    /// What the work is, in numbers. Both do the same, and no input is refused.
    pub fn facts(&self) -> String {
        match &self.work {
            Work::Compile { book } => compiled(book),
            Work::Simplify { book, tree, terms } => simplified(book, tree, terms),
            Work::Repair { text } => repaired(text),
        }
    }
}

fn compiled(book: &[u32]) -> String {
    let (mut ours, mut theirs) = (vec![0; rosenduch::MOST_TREE], vec![0; rosenduch::MOST_TREE]);
    let (answer, words) = rosenduch::raw::compile(book, &mut ours);
    assert_eq!((answer.number, second::compile(book, &mut theirs).number), (0, 0));
    assert_eq!(ours, theirs);
    format!("{words} words of tree")
}

fn simplified(book: &[u32], tree: &[u32], terms: &[Vec<u32>]) -> String {
    let mut steps = 0;
    for term in terms {
        let (mut ours, mut theirs) = (vec![0; rosenduch::MOST_TERM], vec![0; rosenduch::MOST_TERM]);
        let told = rosenduch::raw::simplify(book, tree, term, BUDGET, &mut ours);
        let other = second::simplify(book, tree, term, BUDGET, &mut theirs);
        assert!(told.0.number == other.0.number && told.0.number < 10);
        assert_eq!((u32::from(told.1), ours), (other.1, theirs));
        steps += u32::from(told.1);
    }
    let words: usize = terms.iter().map(Vec::len).sum();
    format!("{} terms, {words} words, {steps} steps", terms.len())
}

fn repaired(text: &[u8]) -> String {
    let (mut ours, mut theirs) = (vec![0; rosenduch::MOST_REPAIRED], vec![0; rosenduch::MOST_REPAIRED]);
    let answer = rosenduch::raw::repair_book(text, &mut ours);
    assert_eq!((answer.number, second::repair_book(text, &mut theirs).number), (0, 0));
    assert_eq!(ours, theirs);
    let written = ours.iter().position(|&byte| byte == 0).unwrap_or(ours.len());
    format!("{} bytes of text, {written} bytes written", text.len())
}

fn rule(vars: u32, left: &[u32], right: &[u32]) -> Source {
    Source { vars, left: left.to_vec(), right: right.to_vec() }
}

const X: u32 = pattern(0, 0);
const X1: u32 = pattern(0, 1);
const S3: u32 = symbol(3, 1);
const S4: u32 = symbol(4, 1);
const S7: u32 = symbol(7, 0);
const V1: u32 = variable(1);

/// Document 01's book A.
fn book_a() -> Vec<Source> {
    vec![
        rule(1, &[symbol(2, 2), X, X], &[X]),
        rule(1, &[S3, LAMBDA, X], &[X]),
        rule(1, &[S3, LAMBDA, S4, X1, V1], &[S4, S3, LAMBDA, X1, V1]),
    ]
}

/// Parts joined by a symbol of two children, as flat as it goes.
fn joined(mut parts: Vec<Vec<u32>>) -> Vec<u32> {
    while parts.len() > 1 {
        let mut pairs = Vec::new();
        for pair in parts.chunks(2) {
            let head = if pair.len() == 2 { vec![symbol(5, 2)] } else { Vec::new() };
            pairs.push([head, pair.concat()].concat());
        }
        parts = pairs;
    }
    parts.concat()
}

/// Small terms with parts planted in them that the book's rules fit, and that both simplify without a refusal.
fn small_terms(number: usize) -> Workload {
    let mut rng = Rng::new(7);
    let alphabet = gen::alphabet(&mut rng);
    let rules = gen::rules(&mut rng, &alphabet, 8);
    let book = gen::book_words(&rules);
    let tree = gen::compiled(&book);
    let mut terms = Vec::new();
    while terms.len() < number {
        let term = gen::planted(&mut rng, &alphabet, &book);
        let (answer, steps, _) = second::simplify(&book, &tree, &term, BUDGET, &mut [0; 4_096]);
        if term.len() <= 60 && answer.number == 0 && steps > 0 {
            terms.push(term);
        }
    }
    Workload::simplify("many small terms", &rules, terms)
}

/// 1,000 parts that a rule fits, in one term: a step for each.
fn wide_term() -> Workload {
    let term = joined(vec![vec![S3, LAMBDA, S7]; 1_000]);
    Workload::simplify("one wide term with 1,000 steps", &book_a(), vec![term])
}

/// Chains of nesting 64, in which one symbol sinks through another.
fn deep_terms() -> Workload {
    let rules = [rule(1, &[S3, S4, X], &[S4, S3, X])];
    let chain = |n: usize| [vec![S3; n], vec![S4; 63 - n], vec![S7]].concat();
    Workload::simplify("deep terms", &rules, (1..=16).map(chain).collect())
}

/// Loops whose bodies are large, with rules that ask whether a part mentions the loop's stop, and whether two parts are the same.
fn binders() -> Workload {
    let mut rules = book_a();
    let left = [symbol(6, 2), LAMBDA, X1, V1, LAMBDA, LAMBDA, X1, variable(2)];
    rules.push(rule(1, &left, &[S4, LAMBDA, X1, V1]));
    let mut rng = Rng::new(11);
    let alphabet = gen::Alphabet { symbols: vec![S7, symbol(8, 2), symbol(9, 3)] };
    let book = gen::book_words(&rules);
    let mut terms = Vec::new();
    for n in 0..40 {
        // The last rule's left side from one body, and loops around it.
        let body = gen::body(&mut rng, &alphabet, 1, 150);
        let mut lengths = [0; 16];
        lengths[0] = body.len() as u32;
        let mut out = vec![0; 4_096];
        if second::build_left(&book, 3, &body, &lengths, &mut out).number == 0 {
            let end = second::term::Laid::of(&out).end[0];
            let same = [vec![symbol(2, 2)], body.clone(), body].concat();
            let around = if n % 2 == 0 { vec![S3, LAMBDA] } else { vec![S3, LAMBDA, S4] };
            terms.push([around, vec![symbol(5, 2)], out[..end].to_vec(), same].concat());
        }
    }
    terms.retain(|term| second::check_term(term).number == 0);
    Workload::simplify("binders, closedness and repeats", &rules, terms)
}

/// A term of 4,095 words with the book's symbols in it, in which nothing fits.
fn nothing_fits() -> Workload {
    let part = [symbol(2, 2), S7, symbol(8, 0)].to_vec();
    Workload::simplify("a large term where nothing fits", &book_a(), vec![joined(vec![part; 1_024])])
}

/// 800 parts that a rule for one argument fits, with two set aside each: a step for each.
fn set_aside() -> Workload {
    let rules = [rule(1, &[symbol(6, 1), X], &[symbol(9, 1), X])];
    let part = [symbol(6, 3), S7, V1, symbol(8, 0)].to_vec();
    Workload::simplify("800 steps, two arguments set aside in each", &rules, vec![joined(vec![part; 800])])
}

/// The first seeded book of 64 rules whose tree has at least so many words.
fn large_book(least: usize) -> Workload {
    let mut seed = 0;
    loop {
        let mut rng = Rng::new(seed);
        let alphabet = gen::alphabet(&mut rng);
        let book = gen::book_words(&gen::rules(&mut rng, &alphabet, 64));
        if gen::compiled(&book).len() >= least {
            return Workload::compile("compiling a book of 64 rules", book);
        }
        seed += 1;
    }
}

/// As many symbols as there can be rules, without arguments: a root case for each of them and each count.
fn root_cases() -> Workload {
    let rules: Vec<_> = (0..64).map(|id| rule(0, &[symbol(id, 0)], &[S7])).collect();
    Workload::compile("compiling 64 rules, 1,024 root cases", gen::book_words(&rules))
}

/// So many of the shortest rules, of which none is sound.
fn short_rules(name: &'static str, rules: usize) -> Workload {
    let rule = "rule=0\nvars=0\nleft=l\nright=l\n";
    Workload::repair(name, format!("book=1\nrules=0\n{}", rule.repeat(rules)).into_bytes())
}

/// A seeded book of 64 rules, as it is written.
fn sound_book() -> Workload {
    let mut rng = Rng::new(5);
    let alphabet = gen::alphabet(&mut rng);
    let rules = gen::rules(&mut rng, &alphabet, 64);
    Workload::repair("repair: a sound book of 64 rules", gen::sources_text(&rules))
}

/// As many rules as a text holds, and half of them: how the time grows with the bytes.
pub fn growing() -> (Workload, Workload) {
    (short_rules("repair: 2,259 rules", 2_259), short_rules("repair: 1,129 rules", 1_129))
}

pub fn workloads() -> Vec<Workload> {
    let (most_rules, _) = growing();
    vec![
        small_terms(500),
        wide_term(),
        deep_terms(),
        binders(),
        set_aside(),
        nothing_fits(),
        large_book(4_000),
        root_cases(),
        most_rules,
        sound_book(),
    ]
}
