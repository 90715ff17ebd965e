//! The program `simplify`.

use crate::answer::{Answer, TOO_SHORT};
use crate::book;
use crate::compile::tree_of;
use crate::fit::checked;
use crate::simplify::{simplify_checked, Done};
use crate::text::{take_book, take_term_line, words_text, Lines};

pub const BUDGET: u16 = 1_000;

/// What the program prints for this standard input.
pub fn run_file(input: &[u8]) -> Vec<u8> {
    match report(input) {
        Ok(text) => text.into_bytes(),
        Err(answer) => refusal(answer).into_bytes(),
    }
}

/// What is printed for a refused file.
pub(crate) fn refusal(answer: Answer) -> String {
    format!("answer={}\nat={}\n", answer.number, answer.at)
}

fn report(input: &[u8]) -> Result<String, Answer> {
    // The form of the whole file is judged before anything else.
    let mut lines = Lines::of(input)?;
    let words = take_book(&mut lines)?;
    let mut terms = Vec::new();
    while !lines.at_end() {
        terms.push(take_term_line(&mut lines)?);
    }
    let book = book::read(&words)?;
    let tree = tree_of(&book).ok_or(Answer::new(TOO_SHORT, 0))?;

    let mut text = format!("book=1\nrules={}\ntree={}\n", book.rules.len(), tree.len());
    for (n, term) in terms.iter().enumerate() {
        let mut done = Done::default();
        let result =
            checked(term).and_then(|term| simplify_checked(&book, &tree, term, BUDGET, &mut done));
        let steps = done.steps;
        let (answer, result) = match result {
            Ok((answer, result)) => (answer, words_text(&result)),
            Err(answer) => (answer.number, "-".to_string()),
        };
        text += &format!("term={n}\nanswer={answer}\nsteps={steps}\nresult={result}\n");
    }
    Ok(text)
}
