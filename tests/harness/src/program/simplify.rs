//! The program `simplify`: document 01's example, and files at its limits.

use second::gen::{self, Source};
use second::text::words_text;
use second::words::symbol;
use second::Rng;

use super::Trial;
use crate::edges::BOOK_A;

/// The most bytes of a file.
const LIMIT: usize = 65_536;

const TERMS: &str = "term=s2.2 s3.1 l s7.0 s7.0\nterm=s3.1 l s4.1 s4.1 v1\n";
const PRINTED: &str = "book=1\nrules=3\ntree=725\n\
    term=0\nanswer=0\nsteps=2\nresult=s7.0\n\
    term=1\nanswer=0\nsteps=2\nresult=s4.1 s4.1 s3.1 l v1\n";

fn book_a_with(lines: &[String]) -> Vec<u8> {
    (BOOK_A.to_string() + &lines.concat()).into_bytes()
}

fn term_line(term: &[u32]) -> String {
    format!("term={}\n", words_text(term))
}

/// Document 01's example with `term=` lines of one token after it, filled up to a length by its last line.
fn file_of(length: usize) -> Vec<u8> {
    let mut file = book_a_with(&[]);
    let line = b"term=s7.0\n";
    while file.len() + 2 * line.len() <= length {
        file.extend(line);
    }
    // The last line takes what is left, between 10 and 19 bytes: an id and a count of more digits.
    let fillers: [&[u8]; 10] = [
        b"term=s7.0\n",
        b"term=s77.0\n",
        b"term=s777.0\n",
        b"term=s1000.0\n",
        b"term=s1000.10\n",
        b"term=s7.0 s7.0\n",
        b"term=s77.0 s7.0\n",
        b"term=s77.0 s77.0\n",
        b"term=s777.0 s77.0\n",
        b"term=s777.0 s777.0\n",
    ];
    let left = length - file.len();
    file.extend(fillers[left - line.len()]);
    file
}

fn of_rules(number: u32) -> Vec<u8> {
    let rule = |n| Source { vars: 0, left: vec![symbol(n, 0)], right: vec![symbol(1_000, 0)] };
    let mut file = gen::sources_text(&(0..number).map(rule).collect::<Vec<_>>());
    file.extend(b"term=s63.0\n");
    file
}

/// A rule that writes its variable, and terms of which what is written takes the arguments set aside, or cannot.
const FRONT: &str = "book=1\nrules=1\nrule=0\nvars=1\nleft=s3.1 m0.0\nright=m0.0\n\
    term=s3.2 s4.1 s7.0 s8.0\n\
    term=s5.2 s3.1 s7.0 s3.3 l v1 s7.0 s7.0\n\
    term=s3.15 s4.1 s7.0 v1 v1 v1 v1 v1 v1 v1 v1 v1 v1 v1 v1 v1 v1\n\
    term=s3.15 s4.2 s7.0 s7.0 v1 v1 v1 v1 v1 v1 v1 v1 v1 v1 v1 v1 v1 v1\n";

fn edges() -> Vec<(String, Vec<u8>)> {
    let mut rng = Rng::new(1);
    let of = |term: Vec<u32>| book_a_with(&[term_line(&term)]);
    let edges = [
        ("64 rules", of_rules(64)),
        ("65 rules", of_rules(65)),
        ("a line of 4,096 tokens", of(gen::wide(&mut rng, 4_096))),
        ("a line of 4,097 tokens", of(gen::wide(&mut rng, 4_097))),
        ("nesting 64", of(gen::chain(&mut rng, 64))),
        ("nesting 65", of(gen::chain(&mut rng, 65))),
        ("a file of 65,536 bytes", file_of(LIMIT)),
        ("a file of 65,537 bytes", file_of(LIMIT + 1)),
        ("a file of 1,000,000 bytes", file_of(1_000_000)),
        ("arguments set aside", FRONT.into()),
        ("an empty file", Vec::new()),
        ("no term line", book_a_with(&[])),
        ("no line's end", BOOK_A.trim_end().as_bytes().to_vec()),
    ];
    edges.into_iter().map(|(name, file)| (name.to_string(), file)).collect()
}

pub fn trial() -> Trial {
    let example = (BOOK_A.to_string() + TERMS).into_bytes();
    Trial {
        second: second::run_file,
        example: example.clone(),
        printed: PRINTED.into(),
        edges: edges(),
        pieces: vec![example, file_of(20_000)],
        long: file_of(LIMIT),
        seeded: |seed| gen::any_file(&mut Rng::new(seed)),
    }
}
