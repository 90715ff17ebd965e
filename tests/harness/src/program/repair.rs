//! The program `repair`: the named edges of repairing as files, and files over their limit.

use second::gen_repair::repair_text;

use super::Trial;
use crate::edges::{repairing, BOOK_A};

/// The example of the README: a rule whose list names a loop that is not there, and numbers that are wrong.
const MAIL: &str = "book=1\nrules=5\n\
    rule=1\nvars=1\nleft=s2.2 m0.0 m0.0\nright=m0.0\n\
    rule=2\nvars=1\nleft=s3.1 m0.1 v1\nright=s7.0\n\
    rule=3\nvars=1\nleft=s3.1 l m0.0\nright=m0.0\n";
const PRINTED: &str = "book=1\nrules=2\n\
    rule=0\nvars=1\nleft=s2.2 m0.0 m0.0\nright=m0.0\n\
    rule=1\nvars=1\nleft=s3.1 l m0.0\nright=m0.0\n\
    kept=0 0\ndropped=1\nkept=2 1\nrules-was=5\n";

fn edges() -> Vec<(String, Vec<u8>)> {
    let mut edges = repairing::texts();
    edges.push(("a file of 1,000,000 bytes".to_string(), BOOK_A.bytes().cycle().take(1_000_000).collect()));
    edges
}

pub fn trial() -> Trial {
    Trial {
        second: second::repair_file,
        example: MAIL.into(),
        printed: PRINTED.into(),
        edges: edges(),
        pieces: vec![MAIL.into(), repairing::text_of_size()],
        long: repairing::text_of_size(),
        seeded: |seed| repair_text(seed).text,
    }
}
