//! The examples of document 01.

mod without;

use second::*;
use without::{match_tree, rewrite_root};

const BOOK_A: &str = "book=1\nrules=3\nrule=0\nvars=1\nleft=s2.2 m0.0 m0.0\nright=m0.0\n\
rule=1\nvars=1\nleft=s3.1 l m0.0\nright=m0.0\n\
rule=2\nvars=1\nleft=s3.1 l s4.1 m0.1 v1\nright=s4.1 s3.1 l m0.1 v1\n";

const BOOK_B: &str =
    "book=1\nrules=1\nrule=0\nvars=1\nleft=s6.2 l m0.1 v1 l l m0.1 v2\nright=s6.0\n";

/// Book A with rules 1 and 2 exchanged.
const BOOK_A_EXCHANGED: &str = "book=1\nrules=3\nrule=0\nvars=1\nleft=s2.2 m0.0 m0.0\nright=m0.0\n\
rule=1\nvars=1\nleft=s3.1 l s4.1 m0.1 v1\nright=s4.1 s3.1 l m0.1 v1\n\
rule=2\nvars=1\nleft=s3.1 l m0.0\nright=m0.0\n";

fn book(text: &str) -> Vec<u32> {
    let mut words = vec![0; 9_000];
    assert_eq!(read_book(text.as_bytes(), &mut words), Answer { number: 0, at: 0 });
    let length = (1..).find(|&n| check_book(&words[..n]).number == 0).unwrap();
    words.truncate(length);
    words
}

fn term(text: &str) -> Vec<u32> {
    let tokens = text.split(' ').count();
    let mut words = vec![0; tokens];
    assert_eq!(read_term(format!("{text}\n").as_bytes(), &mut words).number, 0);
    words
}

fn tree(book: &[u32]) -> Vec<u32> {
    let length = (1..=16_384)
        .find(|&n| compile(book, &mut vec![0; n]).number == 0)
        .unwrap();
    let mut tree = vec![0; length];
    compile(book, &mut tree);
    tree
}

#[test]
fn book_a_prints() {
    let input = format!("{BOOK_A}term=s2.2 s3.1 l s7.0 s7.0\nterm=s3.1 l s4.1 s4.1 v1\n");
    let printed = "book=1\nrules=3\ntree=725\nterm=0\nanswer=0\nsteps=2\nresult=s7.0\n\
term=1\nanswer=0\nsteps=2\nresult=s4.1 s4.1 s3.1 l v1\n";
    assert_eq!(String::from_utf8(run_file(input.as_bytes())).unwrap(), printed);
}

#[test]
fn book_a_tree() {
    let tree = tree(&book(BOOK_A));
    // By hand: a root of 3 + 2 x 29 + 1 words; 14 cases for s2.2 to s2.15 of
    // 6 + 6 + 1; 15 for s3.1 to s3.15 of 6 + 5 + 6 + 6 + 7 + 1 + 1; a Fail.
    let mut fails = 0;
    let mut expected = vec![2, 0, 29];
    for c in 2..=15 {
        expected.extend([65_536 * c + 2, 62 + 13 * (c - 2)]);
    }
    for c in 1..=15 {
        expected.extend([65_536 * c + 3, 244 + 32 * (c - 1)]);
    }
    expected.push(724);
    assert_eq!(expected.len(), 62);
    for aside in 0..=13 {
        let at = expected.len() as u32;
        expected.extend([4, 1, 2, 0, at + 6, at + 12]);
        expected.extend([1, 0, 1, aside, 1, 0]);
        expected.push(0);
        fails += 1;
    }
    // Behind the root's children, so the abstraction's child is 1 + c.
    for c in 1..=15 {
        let at = expected.len() as u32;
        expected.extend([2, 1, 1, 16_842_752, at + 6, at + 31]);
        expected.extend([3, c + 1, 0, at + 11, at + 17]);
        expected.extend([1, 1, 1, c - 1, c + 1, 0]);
        expected.extend([2, c + 1, 1, 65_540, at + 23, at + 30]);
        expected.extend([1, 2, 1, c - 1, c + 2, 1, 1]);
        expected.extend([0, 0]);
        fails += 2;
    }
    expected.push(0);
    assert_eq!(expected.len(), 725);
    assert_eq!(fails + 1, 45);
    assert_eq!(tree, expected);
}

#[test]
fn p1_to_p10() {
    let a = book(BOOK_A);
    let b = book(BOOK_B);
    let x = book(BOOK_A_EXCHANGED);
    // Book, term, and the rule with its body, if there is one.
    type Row<'a> = (&'a [u32], &'a str, Option<(u32, &'a str)>);
    let table: &[Row] = &[
        (&a, "s2.2 s7.0 s7.0", Some((0, "s7.0"))),
        (&a, "s2.2 s7.0 s8.0", None),
        (&a, "s3.1 l v2", Some((1, "v1"))),
        (&a, "s3.1 l v1", None),
        (&a, "s3.1 l s4.1 v1", Some((2, "v1"))),
        (&a, "s3.1 l s4.1 s7.0", Some((1, "s4.1 s7.0"))),
        (&b, "s6.2 l v1 l l v2", Some((0, "v1"))),
        (&b, "s6.2 l v1 l l v1", None),
        (&b, "s6.2 l v2 l l v3", Some((0, "v2"))),
        (&b, "s6.2 l v2 l l v2", None),
        (&x, "s3.1 l s4.1 s7.0", Some((1, "s7.0"))),
        (&x, "s3.1 l v2", Some((2, "v1"))),
    ];
    for (n, (book, text, expected)) in table.iter().enumerate() {
        let t = term(text);
        let (mut bodies, mut lengths) = ([9; 20], [9; 16]);
        let (answer, rule, aside) = match_tree(&tree(book), &t, &mut bodies, &mut lengths);
        assert_eq!(aside, 0);
        let Some((number, body)) = expected else {
            assert_eq!((answer.number, rule), (1, 0), "P{}", n + 1);
            assert_eq!((bodies, lengths), ([0; 20], [0; 16]));
            for number in 0..book[0] {
                assert_eq!(match_rule(book, number, &t, &mut bodies, &mut lengths).0.number, 1);
            }
            continue;
        };
        let body = term(body);
        let mut expected_bodies = [0; 20];
        expected_bodies[..body.len()].copy_from_slice(&body);
        let mut expected_lengths = [0; 16];
        expected_lengths[0] = body.len() as u32;
        assert_eq!((answer.number, answer.at, rule), (0, 0, *number), "P{}", n + 1);
        assert_eq!((bodies, lengths), (expected_bodies, expected_lengths));
        for lower in 0..*number {
            assert_eq!(match_rule(book, lower, &t, &mut bodies, &mut lengths).0.number, 1);
        }
        let answer = match_rule(book, *number, &t, &mut bodies, &mut lengths);
        assert_eq!(answer, (Answer { number: 0, at: 0 }, 0));
        assert_eq!((bodies, lengths), (expected_bodies, expected_lengths));
    }
}

#[test]
fn rewriting_at_the_root() {
    let a = book(BOOK_A);
    let tree = tree(&a);
    let mut out = [7; 6];
    let t = term("s3.1 l s4.1 s4.1 v1");
    assert_eq!(rewrite_root(&a, &tree, &t, &mut out).number, 0);
    assert_eq!(out.to_vec(), [term("s4.1 s3.1 l s4.1 v1"), vec![0]].concat());
    assert_eq!(rewrite_root(&a, &tree, &t, &mut out[..4]).number, 13);
    assert_eq!(out[..4], [0; 4]);
    // Only inside, not at the root.
    let t = term("s4.1 s2.2 s7.0 s7.0");
    assert_eq!(rewrite_root(&a, &tree, &t, &mut out).number, 1);
    assert_eq!(out, [0; 6]);
}

#[test]
fn file_refusals() {
    let run = |text: &str| String::from_utf8(run_file(text.as_bytes())).unwrap();
    assert_eq!(run(""), "answer=10\nat=1\n");
    assert_eq!(run("book=1\n"), "answer=10\nat=2\n");
    assert_eq!(run("book=1\nrules=0"), "answer=10\nat=2\n");
    assert_eq!(run("book=1\nrules=0\n"), "book=1\nrules=0\ntree=1\n");
    assert_eq!(run("book=1\nrules=65\n"), "answer=10\nat=2\n");
    assert_eq!(run("book=1\nrules=00\n"), "answer=10\nat=2\n");
    assert_eq!(run("book=1\nrules=0\n\n"), "answer=10\nat=3\n");
    assert_eq!(run("book=1\nrules=0\nterm=\n"), "answer=10\nat=3\n");
    assert_eq!(run("book=1\nrules=0\nterm=s1.0 \n"), "answer=10\nat=3\n");
    // Form over the whole file before the book.
    let bad = "book=1\nrules=1\nrule=0\nvars=0\nleft=l s1.0\nright=s1.0\n";
    assert_eq!(run(bad), "answer=12\nat=0\n");
    assert_eq!(run(&format!("{bad}term=s1.0\nterm=x\n")), "answer=10\nat=8\n");
    assert_eq!(run(&format!("{bad}term=s1.0\nterm=s1.1\n")), "answer=12\nat=0\n");
    // A bad term refuses itself only.
    let printed = run("book=1\nrules=0\nterm=s1.1\nterm=m0.0\nterm=v9\n");
    assert_eq!(
        printed,
        "book=1\nrules=0\ntree=1\nterm=0\nanswer=11\nsteps=0\nresult=-\n\
term=1\nanswer=11\nsteps=0\nresult=-\nterm=2\nanswer=0\nsteps=0\nresult=v9\n"
    );
    assert_eq!(run(&"x".repeat(65_537)), "answer=10\nat=0\n");
    assert_eq!(run(&"x".repeat(65_536)), "answer=10\nat=1\n");
}

#[test]
fn steps_and_answers_of_the_program() {
    // One rule that grows for ever, another that loops for ever.
    let text = "book=1\nrules=2\nrule=0\nvars=1\nleft=s1.1 m0.0\nright=s1.1 s2.2 m0.0 m0.0\n\
rule=1\nvars=0\nleft=s3.0\nright=s3.0\nterm=s1.1 s7.0\nterm=s4.1 s3.0\n";
    let printed = String::from_utf8(run_file(text.as_bytes())).unwrap();
    // After n steps 1 + (2^(n+1) - 1) words: 2,048 after 10, 4,096 after 11.
    // A root of 3 + 2 x (15 + 16) + 1, Leafs of 6 and of 4 words, a Fail.
    let expected = "book=1\nrules=2\ntree=221\nterm=0\nanswer=15\nsteps=11\nresult=-\n\
term=1\nanswer=2\nsteps=1000\nresult=s4.1 s3.0\n";
    assert_eq!(printed, expected);
}
