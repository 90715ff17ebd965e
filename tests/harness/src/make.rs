//! Seeded cases, whole and damaged, with what was done to each input. The second program's generators make whole inputs; the damage is done
//! here, one kind at a time, so that each kind can be counted.

use second::gen::{self, Alphabet};
use second::gen_repair::{repair_case, RepairCase};
use second::{book, Rng};

use crate::case::Case;
use crate::front;
use crate::outcome;

/// An input and what was done to it.
pub type Label = (&'static str, &'static str);

pub struct Made {
    pub case: Case,
    pub labels: Vec<Label>,
}

/// How often each operation comes up: its place in `OPERATIONS`, once or twice.
const TURNS: [usize; 19] = [0, 1, 2, 2, 3, 3, 4, 5, 5, 6, 6, 7, 7, 8, 9, 10, 11, 12, 12];

/// The input of repairing, by which its labels are found.
pub const MAIL: &str = "mail";

/// Rewriting by a rule for a front part of the arguments, by which its labels are found.
pub const FRONT: &str = "front";

/// The one case of a seed.
pub fn made(seed: u64) -> Made {
    let mut rng = Rng::new(seed);
    let alphabet = gen::alphabet(&mut rng);
    let mut maker = Maker { rng, alphabet, labels: Vec::new() };
    let mut case = match TURNS[(seed % TURNS.len() as u64) as usize] {
        0 => maker.check_term(),
        1 => maker.check_book(),
        2 => maker.match_rule(),
        3 => maker.build_left(),
        4 => maker.compile(),
        5 => maker.match_tree(),
        6 => maker.rewrite_root(),
        7 => maker.simplify(),
        8 => maker.read_book(),
        9 => maker.write_book(),
        10 => maker.read_term(),
        11 => maker.write_term(),
        _ => maker.repair_book(),
    };
    maker.set_room(&mut case);
    Made { case, labels: maker.labels }
}

struct Maker {
    rng: Rng,
    alphabet: Alphabet,
    labels: Vec<Label>,
}

impl Maker {
    fn label(&mut self, input: &'static str, how: &'static str) {
        self.labels.push((input, how));
    }

    /// True in one of `whole` cases.
    fn once_in(&mut self, whole: usize) -> bool {
        self.rng.chance(1, whole)
    }

    // ------------------------------------------------------------ words

    /// A word in place of another: near it, or one that often breaks something.
    fn other_word(&mut self, word: u32) -> u32 {
        match self.rng.below(4) {
            0 => word.wrapping_add(1),
            1 => word.wrapping_sub(1),
            2 => self.rng.below(20) as u32,
            _ => gen::odd_word(&mut self.rng),
        }
    }

    fn change(&mut self, words: &mut [u32]) {
        for _ in 0..self.rng.from_to(1, 3) {
            // Early words are met by every walk.
            let near = if self.once_in(2) { words.len() } else { words.len().min(30) };
            let at = self.rng.below(near);
            if at < words.len() {
                words[at] = self.other_word(words[at]);
            }
        }
    }

    fn lengthen(&mut self, words: &mut Vec<u32>) {
        for _ in 0..self.rng.from_to(1, 2) {
            let at = if self.once_in(2) { words.len() } else { self.rng.below(words.len() + 1) };
            let word = gen::odd_word(&mut self.rng);
            words.insert(at, word);
        }
    }

    /// One kind of damage to a list of words.
    fn damaged(&mut self, input: &'static str, mut words: Vec<u32>) -> Vec<u32> {
        match self.rng.below(7) {
            0 => {
                self.label(input, "cut");
                let length = self.rng.below(words.len() + 1);
                words.truncate(length);
            }
            1 => {
                self.label(input, "lengthened");
                self.lengthen(&mut words);
            }
            2 => {
                self.label(input, "random");
                words = (0..self.rng.below(30)).map(|_| gen::odd_word(&mut self.rng)).collect();
            }
            _ => {
                self.label(input, "changed");
                self.change(&mut words);
            }
        }
        words
    }

    fn whole_term(&mut self, book: &[u32]) -> Vec<u32> {
        let (rng, alphabet) = (&mut self.rng, &self.alphabet);
        match rng.below(20) {
            0 => {
                let planted = gen::planted(rng, alphabet, book);
                let most = rng.from_to(1, rosenduch::MOST_TERM);
                gen::repeated(&planted, most)
            }
            1..=4 => gen::small_term(rng, alphabet),
            5..=10 => gen::instance(rng, alphabet, book),
            _ => gen::planted(rng, alphabet, book),
        }
    }

    /// A term for a book; one in so many is damaged.
    fn term(&mut self, book: &[u32], damaged: usize) -> Vec<u32> {
        if self.once_in(40) {
            self.label("term", "at an edge");
            return gen::edge_term(&mut self.rng);
        }
        let whole = self.whole_term(book);
        if self.once_in(damaged) {
            return self.damaged("term", whole);
        }
        self.label("term", "whole");
        whole
    }

    /// A book; one in so many is damaged.
    fn book(&mut self, damaged: usize) -> Vec<u32> {
        if self.once_in(60) {
            self.label("book", "at an edge");
            return gen::edge_book(&mut self.rng);
        }
        if self.once_in(200) {
            self.label("book", "large");
            return gen::large_book(&mut self.rng, &self.alphabet);
        }
        if !self.once_in(damaged) {
            self.label("book", "whole");
            return gen::book(&mut self.rng, &self.alphabet);
        }
        if self.once_in(2) {
            self.label("book", "changed in a rule");
            return gen::damaged_book(&mut self.rng, &self.alphabet);
        }
        let whole = gen::book(&mut self.rng, &self.alphabet);
        self.damaged("book", whole)
    }

    /// A tree and a term to walk it over.
    fn tree_and_term(&mut self, book: &[u32]) -> (Vec<u32>, Vec<u32>) {
        if self.once_in(4) {
            self.label("tree", "made for the term");
            self.label("term", "whole");
            return gen::following(&mut self.rng, &self.alphabet, book);
        }
        (self.tree(book), self.term(book, 12))
    }

    fn tree(&mut self, book: &[u32]) -> Vec<u32> {
        match self.rng.below(13) {
            0..=5 => {
                self.label("tree", "compiled");
                gen::compiled(book)
            }
            6 => {
                self.label("tree", "of another book");
                gen::compiled(&gen::book(&mut self.rng, &self.alphabet))
            }
            7 => {
                self.label("tree", "made at random");
                let odd = if self.once_in(2) { 0 } else { self.rng.from_to(5, 60) };
                gen::random_tree(&mut self.rng, &self.alphabet, book, odd)
            }
            8 => {
                self.label("tree", "a wrong number set aside");
                let mut tree = gen::compiled(book);
                gen::wrong_aside(&mut self.rng, &mut tree);
                tree
            }
            9 if self.once_in(4) => {
                self.label("tree", "lengthened to its limit");
                let mut tree = gen::compiled(book);
                tree.resize(rosenduch::MOST_TREE + self.rng.below(3), 0);
                tree
            }
            _ => self.damaged("tree", gen::compiled(book)),
        }
    }

    // ------------------------------------------------------------ bodies and numbers

    /// A rule to ask for: mostly one that is there.
    fn rule(&mut self, book: &[u32]) -> u32 {
        gen::rule_asked(&mut self.rng, book)
    }

    /// Bodies for a rule, with their lengths; none where there is no such rule.
    fn bodies(&mut self, book: &[u32], number: u32) -> (Vec<u32>, [u32; 16]) {
        let read = book::read(book);
        let Some(rule) = read.as_ref().ok().and_then(|book| book.rules.get(number as usize)) else {
            return (Vec::new(), [0; 16]);
        };
        if rule.vars > 0 && self.once_in(5) {
            self.label("bodies", "at an edge");
            return gen::edge_bodies(&mut self.rng, rule);
        }
        let (mut list, mut lengths) = gen::bodies(&mut self.rng, &self.alphabet, rule);
        if !self.once_in(4) {
            self.label("bodies", "whole");
        } else if self.once_in(2) {
            self.label("bodies", "changed");
            gen::damage_bodies(&mut self.rng, &mut list, &mut lengths);
        } else {
            list = self.damaged("bodies", list);
        }
        (list, lengths)
    }

    fn budget(&mut self) -> u16 {
        let (how, budget) = match self.rng.below(64) {
            0..=7 => ("0", 0),
            8..=15 => ("1", 1),
            16..=22 => ("1,000", 1_000),
            23 if self.once_in(4) => ("65,535", u16::MAX),
            _ => ("2 to 60", self.rng.from_to(2, 60) as u16),
        };
        self.label("budget", how);
        budget
    }

    // ------------------------------------------------------------ texts

    /// One kind of damage to a text.
    fn damaged_text(&mut self, mut text: Vec<u8>) -> Vec<u8> {
        let at = self.rng.below(text.len());
        match self.rng.below(6) {
            0 => {
                self.label("text", "cut");
                text.truncate(at);
            }
            1 => {
                self.label("text", "lengthened");
                let byte = *self.rng.pick(b"0123456789slvm. =\n\r\t\0\xff");
                text.insert(if self.once_in(2) { text.len() } else { at }, byte);
            }
            2 => {
                self.label("text", "random");
                text = (0..self.rng.below(60)).map(|_| self.rng.next() as u8).collect();
            }
            3 => {
                self.label("text", "a byte changed");
                text[at] = self.rng.next() as u8;
            }
            _ => {
                self.label("text", "changed in form");
                gen::damage_text(&mut self.rng, &mut text);
            }
        }
        text
    }

    /// A text as it is or damaged; it is not empty.
    fn text(&mut self, whole: Vec<u8>) -> Vec<u8> {
        if self.once_in(2) {
            return self.damaged_text(whole);
        }
        self.label("text", "whole");
        whole
    }

    // ------------------------------------------------------------ outputs

    /// Gives the output its room: long or as it came with the input, exact, one short, or any.
    fn set_room(&mut self, case: &mut Case) {
        let most = case.most_room();
        let Some(room) = case.room() else { return };
        let came = std::mem::replace(room, most);
        let how = self.rng.below(6);
        if how < 3 {
            let (how, length) = if came > 0 { ("as it came", came) } else { ("long", most + self.rng.below(4)) };
            *room = length;
            return self.label("output", how);
        }
        let need = match outcome::second(case) {
            told if told.number < 10 && told.number != rosenduch::NO_FIT => told.need(case),
            _ => self.rng.below(20),
        };
        let (how, room) = match how {
            3 => ("exact", need),
            4 => ("one short", need.saturating_sub(1)),
            _ => ("any", self.rng.below(need + 3)),
        };
        self.label("output", how);
        *case.room().unwrap_or(&mut 0) = room;
    }

    // ------------------------------------------------------------ operations

    fn check_term(&mut self) -> Case {
        let book = gen::book(&mut self.rng, &self.alphabet);
        Case::CheckTerm { term: self.term(&book, 2) }
    }

    fn check_book(&mut self) -> Case {
        Case::CheckBook { book: self.book(2) }
    }

    fn match_rule(&mut self) -> Case {
        if self.once_in(6) {
            let gen::RewriteCase { book, term, .. } = self.front();
            let rule = self.rule(&book);
            return Case::MatchRule { book, rule, term, room: 0 };
        }
        let book = self.book(20);
        let rule = self.rule(&book);
        let term = if self.once_in(2) { self.built(&book, rule) } else { self.term(&book, 12) };
        Case::MatchRule { book, rule, term, room: 0 }
    }

    /// A term that the rule fits, at times nudged so that it just does not.
    fn built(&mut self, book: &[u32], rule: u32) -> Vec<u32> {
        let (bodies, lengths) = self.bodies(book, rule);
        let case = Case::BuildLeft { book: book.to_vec(), rule, bodies, lengths, room: rosenduch::MOST_TERM };
        let told = outcome::second(&case);
        if told.number != rosenduch::DONE {
            return self.term(book, 12);
        }
        let mut term = told.words[..told.need(&case)].to_vec();
        if self.once_in(3) {
            gen::lengthen(&mut self.rng, &self.alphabet, &mut term);
        }
        if self.once_in(4) {
            gen::nudge(&mut self.rng, &mut term);
        }
        self.label("term", "whole");
        term
    }

    fn build_left(&mut self) -> Case {
        let book = self.book(20);
        let rule = self.rule(&book);
        let (bodies, lengths) = self.bodies(&book, rule);
        Case::BuildLeft { book, rule, bodies, lengths, room: 0 }
    }

    fn compile(&mut self) -> Case {
        if self.once_in(10) {
            return Case::Compile { book: self.front().book, room: 0 };
        }
        if self.once_in(8) {
            self.label("book", "whole");
            let rules = self.rng.from_to(8, 40);
            let rules = gen::rules(&mut self.rng, &self.alphabet, rules);
            return Case::Compile { book: gen::book_words(&rules), room: 0 };
        }
        Case::Compile { book: self.book(10), room: 0 }
    }

    fn match_tree(&mut self) -> Case {
        if self.once_in(6) {
            let gen::RewriteCase { tree, term, .. } = self.front();
            return Case::MatchTree { tree, term, room: 0 };
        }
        let book = gen::book(&mut self.rng, &self.alphabet);
        let (tree, term) = self.tree_and_term(&book);
        Case::MatchTree { tree, term, room: 0 }
    }

    /// A book, a tree and a term with more arguments than the book's rules have.
    fn front(&mut self) -> gen::RewriteCase {
        self.label("term", "for a front part");
        gen::aside_case(&mut self.rng)
    }

    /// A book, a tree and a term, at times with arguments set aside, or so near a limit that a step passes it. `offsets` of the term are looked at.
    fn rewriting(&mut self, offsets: usize) -> (Vec<u32>, Vec<u32>, Vec<u32>) {
        if self.once_in(5) {
            let gen::RewriteCase { book, tree, term, .. } = self.front();
            self.labels.extend(front::kinds(&book, &tree, &term, offsets).into_iter().map(|kind| (FRONT, kind)));
            return (book, tree, term);
        }
        if self.once_in(5) {
            let gen::RewriteCase { book, tree, term, .. } = gen::growth_case(&mut self.rng);
            self.label("term", "near a limit");
            return (book, tree, term);
        }
        let book = self.book(25);
        let (tree, term) = self.tree_and_term(&book);
        (book, tree, term)
    }

    fn rewrite_root(&mut self) -> Case {
        let (book, tree, term) = self.rewriting(1);
        Case::RewriteRoot { book, tree, term, room: 0 }
    }

    fn simplify(&mut self) -> Case {
        let (book, tree, term) = self.rewriting(rosenduch::MOST_TERM);
        let budget = self.budget();
        Case::Simplify { book, tree, term, budget, room: 0 }
    }

    fn read_book(&mut self) -> Case {
        let rules = gen::rule_number(&mut self.rng);
        let mut rules = gen::rules(&mut self.rng, &self.alphabet, rules);
        if !rules.is_empty() && self.once_in(5) {
            // In form and no book: its number is 12.
            let at = self.rng.below(rules.len());
            rules[at].left = rules[at].right.clone();
        }
        Case::ReadBook { text: self.text(gen::sources_text(&rules)), room: 0 }
    }

    fn write_book(&mut self) -> Case {
        Case::WriteBook { book: self.book(4), room: 0 }
    }

    fn read_term(&mut self) -> Case {
        let book = gen::book(&mut self.rng, &self.alphabet);
        let edge = self.once_in(20);
        let mut term = if edge { gen::edge_term(&mut self.rng) } else { self.whole_term(&book) };
        if self.once_in(5) {
            // In form and no term: its number is 11.
            let at = self.rng.below(term.len());
            term[at] = second::words::pattern(1, 1);
        }
        let text = second::text::words_text(&term) + "\n";
        Case::ReadTerm { text: self.text(text.into_bytes()), room: 0 }
    }

    fn write_term(&mut self) -> Case {
        let book = gen::book(&mut self.rng, &self.alphabet);
        Case::WriteTerm { term: self.term(&book, 3), room: 0 }
    }

    /// A text of a book that came by mail, with the room that was made for it.
    fn repair_book(&mut self) -> Case {
        let RepairCase { kind, text, out_length } = repair_case(&mut self.rng);
        self.label(MAIL, kind.name());
        Case::RepairBook { text, room: out_length }
    }
}
