//! The archive's functions, and a safe function over each. All `unsafe` of the crate is here.
//!
//! Each call is sound for one reason: a slice is passed as its pointer and its length, both taken from a Rust reference that lives over the
//! call; a result is written through a reference to a local; the functions are proved to touch nothing else and to end.

use crate::Answer;

extern "C" {
    fn rosenduch_check_term(term: *const u32, term_len: usize, at: *mut usize) -> u32;
    fn rosenduch_check_book(book: *const u32, book_len: usize, at: *mut usize) -> u32;
    fn rosenduch_match_rule(
        book: *const u32,
        book_len: usize,
        rule: u32,
        term: *const u32,
        term_len: usize,
        bodies: *mut u32,
        bodies_len: usize,
        lengths: *mut [u32; 16],
        aside: *mut u32,
        at: *mut usize,
    ) -> u32;
    fn rosenduch_build_left(
        book: *const u32,
        book_len: usize,
        rule: u32,
        bodies: *const u32,
        bodies_len: usize,
        lengths: *const [u32; 16],
        out: *mut u32,
        out_len: usize,
        at: *mut usize,
    ) -> u32;
    fn rosenduch_compile(book: *const u32, book_len: usize, out: *mut u32, out_len: usize, words: *mut u32, at: *mut usize) -> u32;
    fn rosenduch_match_tree(
        tree: *const u32,
        tree_len: usize,
        term: *const u32,
        term_len: usize,
        bodies: *mut u32,
        bodies_len: usize,
        lengths: *mut [u32; 16],
        rule: *mut u32,
        aside: *mut u32,
        visits: *mut u64,
        at: *mut usize,
    ) -> u32;
    fn rosenduch_rewrite_root(
        book: *const u32,
        book_len: usize,
        tree: *const u32,
        tree_len: usize,
        term: *const u32,
        term_len: usize,
        out: *mut u32,
        out_len: usize,
        visits: *mut u64,
        at: *mut usize,
    ) -> u32;
    fn rosenduch_simplify(
        book: *const u32,
        book_len: usize,
        tree: *const u32,
        tree_len: usize,
        term: *const u32,
        term_len: usize,
        budget: u16,
        out: *mut u32,
        out_len: usize,
        steps: *mut u16,
        visits: *mut u64,
        at: *mut usize,
    ) -> u32;
    fn rosenduch_read_book(text: *const u8, text_len: usize, out: *mut u32, out_len: usize, at: *mut usize) -> u32;
    fn rosenduch_write_book(book: *const u32, book_len: usize, out: *mut u8, out_len: usize, at: *mut usize) -> u32;
    fn rosenduch_repair_book(text: *const u8, text_len: usize, out: *mut u8, out_len: usize, at: *mut usize) -> u32;
    fn rosenduch_read_term(text: *const u8, text_len: usize, out: *mut u32, out_len: usize, at: *mut usize) -> u32;
    fn rosenduch_write_term(term: *const u32, term_len: usize, out: *mut u8, out_len: usize, at: *mut usize) -> u32;
}

/// The answer of a call that writes its place through the pointer it is given.
fn answer(call: impl FnOnce(&mut usize) -> u32) -> Answer {
    let mut at = 0;
    let number = call(&mut at);
    Answer { number, at }
}

/// Whether the words are one term: 0 or 11.
pub fn check_term(term: &[u32]) -> Answer {
    answer(|at| unsafe { rosenduch_check_term(term.as_ptr(), term.len(), at) })
}

/// Whether the words are a book: 0 or 12.
pub fn check_book(book: &[u32]) -> Answer {
    answer(|at| unsafe { rosenduch_check_book(book.as_ptr(), book.len(), at) })
}

/// Matches one rule of a book, with the number of arguments set aside: 0, 1, 11, 12, 13 or 16.
pub fn match_rule(book: &[u32], rule: u32, term: &[u32], bodies: &mut [u32], lengths: &mut [u32; 16]) -> (Answer, u32) {
    let mut aside = 0;
    let answer = answer(|at| unsafe {
        rosenduch_match_rule(
            book.as_ptr(),
            book.len(),
            rule,
            term.as_ptr(),
            term.len(),
            bodies.as_mut_ptr(),
            bodies.len(),
            lengths,
            &mut aside,
            at,
        )
    });
    (answer, aside)
}

/// Builds a rule's left side from bodies: 0, 11, 12, 13, 15 or 16.
pub fn build_left(book: &[u32], rule: u32, bodies: &[u32], lengths: &[u32; 16], out: &mut [u32]) -> Answer {
    answer(|at| unsafe {
        rosenduch_build_left(book.as_ptr(), book.len(), rule, bodies.as_ptr(), bodies.len(), lengths, out.as_mut_ptr(), out.len(), at)
    })
}

/// Compiles a book, with the words of its tree: 0, 12 or 13.
pub fn compile(book: &[u32], out: &mut [u32]) -> (Answer, u32) {
    let mut words = 0;
    let answer = answer(|at| unsafe { rosenduch_compile(book.as_ptr(), book.len(), out.as_mut_ptr(), out.len(), &mut words, at) });
    (answer, words)
}

/// Matches by a tree, with the rule that it names, the number of arguments set aside and the nodes visited: 0, 1, 11, 13 or 14.
pub fn match_tree(tree: &[u32], term: &[u32], bodies: &mut [u32], lengths: &mut [u32; 16]) -> (Answer, u32, u32, u64) {
    let (mut rule, mut aside, mut visits) = (0, 0, 0);
    let answer = answer(|at| unsafe {
        rosenduch_match_tree(
            tree.as_ptr(),
            tree.len(),
            term.as_ptr(),
            term.len(),
            bodies.as_mut_ptr(),
            bodies.len(),
            lengths,
            &mut rule,
            &mut aside,
            &mut visits,
            at,
        )
    });
    (answer, rule, aside, visits)
}

/// Rewrites a term at its root, with the nodes visited: 0, 1, 11, 12, 13, 14, 15 or 18.
pub fn rewrite_root(book: &[u32], tree: &[u32], term: &[u32], out: &mut [u32]) -> (Answer, u64) {
    let mut visits = 0;
    let answer = answer(|at| unsafe {
        rosenduch_rewrite_root(
            book.as_ptr(),
            book.len(),
            tree.as_ptr(),
            tree.len(),
            term.as_ptr(),
            term.len(),
            out.as_mut_ptr(),
            out.len(),
            &mut visits,
            at,
        )
    });
    (answer, visits)
}

/// Simplifies a term, with the steps made and the nodes visited by all walks: 0, 2, 11, 12, 13, 14, 15 or 18.
pub fn simplify(book: &[u32], tree: &[u32], term: &[u32], budget: u16, out: &mut [u32]) -> (Answer, u16, u64) {
    let (mut steps, mut visits) = (0, 0);
    let answer = answer(|at| unsafe {
        rosenduch_simplify(
            book.as_ptr(),
            book.len(),
            tree.as_ptr(),
            tree.len(),
            term.as_ptr(),
            term.len(),
            budget,
            out.as_mut_ptr(),
            out.len(),
            &mut steps,
            &mut visits,
            at,
        )
    });
    (answer, steps, visits)
}

/// Reads the text of a book: 0, 10, 12 or 13.
pub fn read_book(text: &[u8], out: &mut [u32]) -> Answer {
    answer(|at| unsafe { rosenduch_read_book(text.as_ptr(), text.len(), out.as_mut_ptr(), out.len(), at) })
}

/// Writes the text of a book: 0, 12 or 13.
pub fn write_book(book: &[u32], out: &mut [u8]) -> Answer {
    answer(|at| unsafe { rosenduch_write_book(book.as_ptr(), book.len(), out.as_mut_ptr(), out.len(), at) })
}

/// Repairs the text of a book that came by mail: 0, 10 or 13.
pub fn repair_book(text: &[u8], out: &mut [u8]) -> Answer {
    answer(|at| unsafe { rosenduch_repair_book(text.as_ptr(), text.len(), out.as_mut_ptr(), out.len(), at) })
}

/// Reads the text of a term: 0, 10, 11 or 13.
pub fn read_term(text: &[u8], out: &mut [u32]) -> Answer {
    answer(|at| unsafe { rosenduch_read_term(text.as_ptr(), text.len(), out.as_mut_ptr(), out.len(), at) })
}

/// Writes the text of a term: 0, 11 or 13.
pub fn write_term(term: &[u32], out: &mut [u8]) -> Answer {
    answer(|at| unsafe { rosenduch_write_term(term.as_ptr(), term.len(), out.as_mut_ptr(), out.len(), at) })
}
