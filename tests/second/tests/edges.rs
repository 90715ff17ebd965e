//! Edges: sizes, nesting, outputs, budgets, damage.

mod without;

use second::gen;
use second::words::*;
use second::*;
use without::{match_tree, rewrite_root, simplify};

fn a(number: u32, at: u32) -> Answer {
    Answer { number, at }
}

fn rule(vars: u32, left: &[u32], right: &[u32]) -> gen::Source {
    gen::Source { vars, left: left.to_vec(), right: right.to_vec() }
}

fn one(vars: u32, left: &[u32], right: &[u32]) -> Vec<u32> {
    gen::book_words(&[rule(vars, left, right)])
}

const S7: u32 = symbol(7, 0);
const X: u32 = pattern(0, 0);

#[test]
fn terms() {
    let mut rng = Rng::new(1);
    assert_eq!(check_term(&[]), a(11, 0));
    assert_eq!(check_term(&gen::wide(&mut rng, 4_096)), a(0, 0));
    assert_eq!(check_term(&gen::wide(&mut rng, 4_097)), a(11, 4_096));
    assert_eq!(check_term(&gen::wide(&mut rng, 4_097)[..4_096]), a(11, 4_096));
    assert_eq!(check_term(&gen::chain(&mut rng, 64)), a(0, 0));
    assert_eq!(check_term(&gen::chain(&mut rng, 65)), a(11, 64));
    // A node that needs a child too deep: the list ends first.
    assert_eq!(check_term(&gen::chain(&mut rng, 65)[..64]), a(11, 64));
    assert_eq!(check_term(&[S7, S7]), a(11, 1));
    assert_eq!(check_term(&[symbol(2, 2), S7]), a(11, 2));
    assert_eq!(check_term(&[symbol(2, 2), X, S7]), a(11, 1));
    assert_eq!(check_term(&[variable(0)]), a(11, 0));
    assert_eq!(check_term(&[variable(65_535)]), a(0, 0));
    assert_eq!(check_term(&[symbol(1_023, 0)]), a(0, 0));
    assert_eq!(check_term(&[symbol(1_024, 0)]), a(11, 0));
    assert_eq!(check_term(&[symbol(1, 16)]), a(11, 0));
    assert_eq!(check_term(&[word(4, 0, 0)]), a(11, 0));
    assert_eq!(check_term(&[u32::MAX]), a(11, 0));
    assert_eq!(check_term(&[word(1, 0, 0)]), a(11, 0));
    assert_eq!(check_term(&[word(1, 1, 1), S7]), a(11, 0));
}

#[test]
fn books() {
    let leaf = |n: u32| rule(0, &[symbol(n, 0)], &[S7]);
    let of = |n: u32| gen::book_words(&(0..n).map(leaf).collect::<Vec<_>>());
    assert_eq!(check_book(&[]), a(12, 0));
    assert_eq!(check_book(&[0]), a(0, 0));
    assert_eq!(check_book(&of(64)), a(0, 0));
    assert_eq!(check_book(&of(65)), a(12, 64));
    assert_eq!(check_book(&[u32::MAX]), a(12, 64));
    assert_eq!(check_book(&[of(3), vec![0]].concat()), a(12, 3));
    let whole = of(3);
    for n in 1..whole.len() {
        // Each rule here has five words.
        assert_eq!(check_book(&whole[..n]), a(12, (n as u32 - 1) / 5));
    }
    let v = variable;
    let x = |k| pattern(0, k);
    let s = symbol(3, 1);
    let good: &[Vec<u32>] = &[
        one(1, &[s, LAMBDA, x(1), v(1)], &[x(1), S7]),
        one(1, &[s, LAMBDA, x(1), v(1)], &[LAMBDA, x(1), v(1)]),
        one(1, &[s, LAMBDA, LAMBDA, x(2), v(2), v(1)], &[S7]),
        one(0, &[S7], &[LAMBDA, LAMBDA, v(2)]),
        one(1, &[symbol(2, 2), X, X], &[X]),
    ];
    for book in good {
        assert_eq!(check_book(book), a(0, 0));
    }
    let bad: &[Vec<u32>] = &[
        one(1, &[s, LAMBDA, x(1), v(2)], &[S7]),
        one(1, &[s, LAMBDA, LAMBDA, x(2), v(2), v(2)], &[S7]),
        one(1, &[s, LAMBDA, x(1), S7], &[S7]),
        one(1, &[symbol(3, 2), LAMBDA, X, v(1)], &[S7]),
        one(1, &[symbol(3, 2), LAMBDA, x(1), v(1), X], &[S7]),
        one(0, &[s, X], &[S7]),
        one(2, &[s, X], &[S7]),
        one(17, &[s, X], &[S7]),
        one(1, &[s, pattern(1, 0)], &[S7]),
        one(1, &[LAMBDA, X], &[S7]),
        one(1, &[X], &[S7]),
        one(1, &[s, X], &[pattern(1, 0)]),
        one(1, &[s, X], &[x(1), S7]),
        one(1, &[s, X], &[v(1)]),
        one(1, &[s, X], &[LAMBDA, v(2)]),
        one(1, &[s, X], &[]),
        one(1, &[s, X], &[S7, S7]),
        one(1, &[s, X, S7], &[S7]),
        one(1, &[s], &[S7]),
        one(1, &[], &[S7]),
        one(0, &[v(1)], &[S7]),
    ];
    for book in bad {
        assert_eq!(check_book(book), a(12, 0), "{book:?}");
    }
    // Nesting 16 and 17 on each side, lists counted.
    let chain = |n: usize| [vec![s; n - 1], vec![S7]].concat();
    assert_eq!(check_book(&one(0, &chain(16), &chain(16))), a(0, 0));
    assert_eq!(check_book(&one(0, &chain(17), &chain(16))), a(12, 0));
    assert_eq!(check_book(&one(0, &chain(16), &chain(17))), a(12, 0));
    let listed = |n: usize| [vec![s], vec![LAMBDA; n - 3], vec![x(1), v(1)]].concat();
    assert_eq!(check_book(&one(1, &listed(16), &[S7])), a(0, 0));
    assert_eq!(check_book(&one(1, &listed(17), &[S7])), a(12, 0));
    // 64 and 65 words.
    let wide = |n: usize| {
        let mut w = vec![symbol(1, 15), symbol(1, 15), symbol(1, 15), symbol(1, 15)];
        w.push(symbol(1, (n - 61) as u32));
        w.resize(n, S7);
        w
    };
    assert_eq!(check_book(&one(0, &wide(64), &wide(64))), a(0, 0));
    assert_eq!(check_book(&one(0, &wide(65), &wide(64))), a(12, 0));
    assert_eq!(check_book(&one(0, &wide(64), &wide(65))), a(12, 0));
}

#[test]
fn order_of_refusals() {
    let good = one(1, &[symbol(3, 1), X], &[X]);
    let (mut b, mut l) = ([0; 4], [0; 16]);
    assert_eq!(match_rule(&[], 9, &[], &mut b, &mut l), (a(12, 0), 0));
    assert_eq!(match_rule(&good, 9, &[], &mut b, &mut l), (a(16, 9), 0));
    assert_eq!(match_rule(&good, u32::MAX, &[], &mut b, &mut l), (a(16, u32::MAX), 0));
    assert_eq!(match_rule(&good, 0, &[], &mut b, &mut l), (a(11, 0), 0));
    let long = vec![0; 16_385];
    assert_eq!(match_tree(&long, &[], &mut b, &mut l), (a(11, 0), 0, 0));
    assert_eq!(match_tree(&long, &[S7], &mut b, &mut l), (a(14, 16_384), 0, 0));
    assert_eq!(match_tree(&long[1..], &[S7], &mut b, &mut l), (a(1, 0), 0, 0));
    assert_eq!(match_tree(&[], &[S7], &mut b, &mut l), (a(14, 0), 0, 0));
    assert_eq!(rewrite_root(&[], &long, &[], &mut b), a(12, 0));
    assert_eq!(rewrite_root(&good, &long, &[], &mut b), a(11, 0));
    assert_eq!(rewrite_root(&good, &long, &[S7], &mut b), a(14, 16_384));
    assert_eq!(simplify(&[], &long, &[], 5, &mut b), (a(12, 0), 0));
    assert_eq!(simplify(&good, &long, &[], 5, &mut b), (a(11, 0), 0));
    assert_eq!(simplify(&good, &long, &[S7], 5, &mut b), (a(14, 16_384), 0));
}

#[test]
fn bodies() {
    let book = one(2, &[symbol(2, 2), X, pattern(1, 0)], &[X]);
    let mut out = [9; 5];
    let lengths = |n: &[u32]| {
        let mut l = [0; 16];
        l[..n.len()].copy_from_slice(n);
        l
    };
    let t = [S7, variable(3)];
    assert_eq!(build_left(&book, 0, &t, &lengths(&[1, 1]), &mut out), a(0, 0));
    assert_eq!(out, [symbol(2, 2), S7, variable(3), 0, 0]);
    assert_eq!(build_left(&book, 0, &t, &lengths(&[1, 1]), &mut out[..3]), a(0, 0));
    assert_eq!(build_left(&book, 0, &t, &lengths(&[1, 1]), &mut out[..2]), a(13, 0));
    assert_eq!(build_left(&book, 0, &t, &lengths(&[2, 0]), &mut out), a(11, 0));
    assert_eq!(build_left(&book, 0, &t[..1], &lengths(&[1, 0]), &mut out), a(11, 1));
    assert_eq!(build_left(&book, 0, &t, &lengths(&[1, 0, 1]), &mut out), a(11, 16));
    assert_eq!(build_left(&book, 0, &t, &lengths(&[1]), &mut out), a(11, 16));
    assert_eq!(build_left(&book, 0, &t, &lengths(&[u32::MAX, 3]), &mut out), a(11, 16));
    assert_eq!(build_left(&book, 0, &[X, X], &lengths(&[1, 1]), &mut out), a(11, 0));
    assert_eq!(build_left(&book, 1, &t, &lengths(&[1, 1]), &mut out), a(16, 1));
    assert_eq!(out, [0; 5]);

    // Over the limits: words, nesting, id. A whole body may have 4,096 words.
    let mut rng = Rng::new(3);
    let mut out = vec![0; 4_096];
    let book = one(1, &[symbol(3, 1), X], &[X]);
    for (n, number) in [(4_095, 0), (4_096, 15)] {
        let body = gen::wide(&mut rng, n);
        assert_eq!(build_left(&book, 0, &body, &lengths(&[n as u32]), &mut out), a(number, 0));
    }
    for (n, number) in [(63, 0), (64, 15)] {
        let body = gen::chain(&mut rng, n);
        assert_eq!(build_left(&book, 0, &body, &lengths(&[n as u32]), &mut out), a(number, 0));
    }
    let book = one(1, &[symbol(3, 1), LAMBDA, X], &[X]);
    for (i, number) in [(65_534, 0), (65_535, 15)] {
        assert_eq!(build_left(&book, 0, &[variable(i)], &lengths(&[1]), &mut out), a(number, 0));
    }
    // 15 before 13.
    assert_eq!(build_left(&book, 0, &[variable(65_535)], &lengths(&[1]), &mut []), a(15, 0));
}

#[test]
fn outputs_exact_and_one_short() {
    let book = one(2, &[symbol(2, 2), X, pattern(1, 0)], &[X]);
    let term = [symbol(2, 2), symbol(4, 1), S7, S7];
    let mut lengths = [5; 16];
    let mut bodies = [5; 4];
    assert_eq!(match_rule(&book, 0, &term, &mut bodies, &mut lengths), (a(0, 0), 0));
    assert_eq!((bodies, lengths[..3].to_vec()), ([symbol(4, 1), S7, S7, 0], vec![2, 1, 0]));
    assert_eq!(match_rule(&book, 0, &term, &mut bodies[..3], &mut lengths), (a(0, 0), 0));
    assert_eq!(match_rule(&book, 0, &term, &mut bodies[..2], &mut lengths), (a(13, 0), 0));
    assert_eq!((bodies[..2].to_vec(), lengths), (vec![0, 0], [0; 16]));

    let tree = gen::compiled(&book);
    assert_eq!(match_tree(&tree, &term, &mut bodies[..3], &mut lengths), (a(0, 0), 0, 0));
    assert_eq!(match_tree(&tree, &term, &mut bodies[..2], &mut lengths), (a(13, 0), 0, 0));
    assert_eq!((bodies[..2].to_vec(), lengths), (vec![0, 0], [0; 16]));

    let mut out = vec![1; tree.len() + 1];
    assert_eq!(compile(&book, &mut out), a(0, 0));
    assert_eq!(out[tree.len()], 0);
    assert_eq!(compile(&book, &mut out[..tree.len()]), a(0, 0));
    assert_eq!(compile(&book, &mut out[..tree.len() - 1]), a(13, 0));
    assert!(out[..tree.len() - 1].iter().all(|&w| w == 0));

    let mut text = vec![1; 100];
    assert_eq!(write_term(&term, &mut text), a(0, 0));
    assert_eq!(&text[..20], b"s2.2 s4.1 s7.0 s7.0\n");
    assert!(text[20..].iter().all(|&b| b == 0));
    assert_eq!(write_term(&term, &mut text[..20]), a(0, 0));
    assert_eq!(write_term(&term, &mut text[..19]), a(13, 0));
    assert_eq!(write_term(&[X], &mut text), a(11, 0));
    assert_eq!(text, vec![0; 100]);

    let mut out = [3; 5];
    assert_eq!(read_term(b"s2.2 s4.1 s7.0 s7.0\n", &mut out), a(0, 0));
    assert_eq!(out, [term[0], term[1], term[2], term[3], 0]);
    assert_eq!(read_term(b"s2.2 s4.1 s7.0 s7.0\n", &mut out[..3]), a(13, 0));
    assert_eq!(out[..3], [0; 3]);
    assert_eq!(read_term(b"s2.2 s4.1 s7.0 s7.0", &mut out), a(10, 1));
    assert_eq!(read_term(b"s2.2 s4.1 s7.0\n", &mut out), a(11, 3));
    assert_eq!(read_term(b"s7.0\n\n", &mut out), a(10, 2));
    assert_eq!(read_term(b"", &mut out), a(10, 1));
    assert_eq!(read_term(b"\n", &mut out), a(10, 1));
    assert_eq!(read_term(b"m0.0\n", &mut out), a(11, 0));
    assert_eq!(read_term(&[b' '; 65_537], &mut out), a(10, 0));
    let many = |n: usize| ["s7.0"; 5_000][..n].join(" ") + "\n";
    assert_eq!(read_term(many(4_096).as_bytes(), &mut out), a(11, 1));
    assert_eq!(read_term(many(4_097).as_bytes(), &mut out), a(10, 1));
}

#[test]
fn book_text_over_its_size() {
    // Two sides of 64 words, all of long tokens.
    let side = |n: usize| {
        let mut w = vec![symbol(1_000, 15); 4];
        w.push(symbol(1_000, (n - 61) as u32));
        w.resize(n, symbol(1_000, 0));
        w
    };
    let mut out = vec![0u8; 70_000];
    let of = |n: usize| gen::book_words(&vec![rule(0, &side(64), &side(64)); n]);
    assert_eq!(check_book(&of(64)), a(0, 0));
    assert_eq!(write_book(&of(64), &mut out), a(13, 0));
    assert!(out.iter().all(|&b| b == 0));
    assert_eq!(write_book(&of(50), &mut out), a(0, 0));
    let length = out.iter().position(|&b| b == 0).unwrap();
    assert!(length < 65_536);
    assert_eq!(write_book(&of(50), &mut out[..length]), a(0, 0));
    let mut words = vec![0; 9_000];
    assert_eq!(read_book(&out[..length], &mut words), a(0, 0));
    assert_eq!(words[..of(50).len()], of(50));
    assert_eq!(read_book(&out[..length], &mut words[..of(50).len() - 1]), a(13, 0));
    assert_eq!(write_book(&of(50), &mut out[..length - 1]), a(13, 0));
    assert!(out[..length - 1].iter().all(|&b| b == 0));
}

#[test]
fn budgets() {
    let book = one(1, &[symbol(3, 1), X], &[X]);
    let tree = gen::compiled(&book);
    let s = symbol(3, 1);
    let mut out = [9; 4];
    assert_eq!(simplify(&book, &tree, &[s, s, S7], 0, &mut out), (a(2, 0), 0));
    assert_eq!(out, [s, s, S7, 0]);
    assert_eq!(simplify(&book, &tree, &[s, s, S7], 1, &mut out), (a(2, 0), 1));
    assert_eq!(out, [s, S7, 0, 0]);
    assert_eq!(simplify(&book, &tree, &[s, s, S7], 2, &mut out), (a(0, 0), 2));
    assert_eq!(out, [S7, 0, 0, 0]);
    assert_eq!(simplify(&book, &tree, &[S7], 0, &mut out), (a(0, 0), 0));
    assert_eq!(simplify(&book, &tree, &[s, s, S7], 1, &mut out[..1]), (a(13, 0), 1));
    assert_eq!(out[0], 0);
    assert_eq!(simplify(&book, &tree, &[s, s, S7], 2, &mut out[..1]), (a(0, 0), 2));
    // 15 stands before 13, and the steps completed stay.
    let book = one(1, &[s, X], &[s, symbol(4, 1), X]);
    let tree = gen::compiled(&book);
    assert_eq!(simplify(&book, &tree, &[s, S7], 1_000, &mut []), (a(15, 0), 62));
    assert_eq!(simplify(&book, &tree, &[s, S7], 62, &mut []), (a(13, 0), 62));
    assert_eq!(simplify(&book, &tree, &[s, S7], 62, &mut [0; 64]), (a(2, 0), 62));
}

#[test]
fn right_sides() {
    let v = variable;
    let s3 = symbol(3, 1);
    let rewrite = |vars, left: &[u32], right: &[u32], term: &[u32]| {
        let book = one(vars, left, right);
        let mut out = vec![0; 4_096];
        let answer = rewrite_root(&book, &gen::compiled(&book), term, &mut out);
        let mut length = 4_096;
        while length > 0 && out[length - 1] == 0 {
            length -= 1;
        }
        out.truncate(length);
        (answer.number, out)
    };
    let x = |k| pattern(0, k);
    // Beta: the argument goes under the body's abstractions.
    let beta = [symbol(5, 2), LAMBDA, pattern(0, 1), v(1), pattern(1, 0)];
    let result = [pattern(0, 1), pattern(1, 0)];
    let term = [symbol(5, 2), LAMBDA, LAMBDA, symbol(2, 2), v(2), v(3), v(1)];
    // Under the inner abstraction v2 is the parameter, v3 is outside 1.
    assert_eq!(
        rewrite(2, &beta, &result, &term),
        (0, vec![LAMBDA, symbol(2, 2), v(2), v(2)])
    );
    // Outside ids shift by the right side's own abstractions.
    assert_eq!(rewrite(1, &[s3, X], &[LAMBDA, LAMBDA, X], &[s3, v(3)]), (0, vec![LAMBDA, LAMBDA, v(5)]));
    assert_eq!(rewrite(1, &[s3, LAMBDA, X], &[X], &[s3, LAMBDA, v(3)]), (0, vec![v(2)]));
    // A right-side variable that stands at a parameter under the body's own.
    let left = [s3, LAMBDA, x(1), v(1)];
    let right = [LAMBDA, x(1), symbol(2, 2), v(1), x(1), v(1)];
    // The body: l s2.2 v2 v3, that is, its parameter and outside 1.
    let term = [s3, LAMBDA, LAMBDA, symbol(2, 2), v(2), v(3)];
    let s2 = symbol(2, 2);
    let expected = vec![
        LAMBDA, // the right side's
        LAMBDA, s2, // the outer body
        s2, v(2), // the child at its parameter: v1 moved under one
        LAMBDA, s2, v(3), v(4), // the inner body, with v1 and outside 1
        v(3), // outside 1 of the outer body
    ];
    assert_eq!(rewrite(1, &left, &right, &term), (0, expected));
    // Ids and sizes at their limits; an unused child is not written.
    assert_eq!(rewrite(1, &[s3, X], &[LAMBDA, X], &[s3, v(65_535)]).0, 15);
    assert_eq!(rewrite(1, &[s3, X], &[LAMBDA, X], &[s3, v(65_534)]).0, 0);
    let both = [symbol(2, 2), LAMBDA, pattern(0, 1), v(1), pattern(1, 0)];
    let drop = [LAMBDA, pattern(0, 1), pattern(1, 0)];
    let term = [symbol(2, 2), LAMBDA, S7, v(65_535)];
    assert_eq!(rewrite(2, &both, &drop, &term), (0, vec![LAMBDA, S7]));
}

#[test]
fn damage() {
    let (mut b, mut l) = ([0; 64], [0; 16]);
    let s = symbol(3, 1);
    let term = [s, LAMBDA, variable(1)];
    let mut walk = |tree: &[u32]| match_tree(tree, &term, &mut b, &mut l);
    let none = |at| (a(14, at), 0, 0);
    assert_eq!(walk(&[5]), none(0));
    assert_eq!(walk(&[1]), none(0));
    assert_eq!(walk(&[1, 0]), none(0));
    assert_eq!(walk(&[1, 0, 0]), none(0));
    assert_eq!(walk(&[1, 63, 0, 0]), (a(0, 0), 63, 0));
    assert_eq!(walk(&[1, 64, 0, 0]), none(0));
    assert_eq!(walk(&[1, 0, 1, 0, 0]), none(0));
    assert_eq!(walk(&[1, 0, 1, 0, 0, 0]), (a(0, 0), 0, 0));
    assert_eq!(walk(&[1, 0, 1, 0, 1, 0]), none(0));
    assert_eq!(walk(&[1, 0, 1, 0, 0, 1, 1]), none(0));
    let all = |n: usize| [vec![1, 0, n as u32, 0], [0, 0].repeat(n)].concat();
    assert_eq!(walk(&all(16)), (a(0, 0), 0, 0));
    assert_eq!(walk(&all(17)), none(0));
    // The root has one child.
    assert_eq!(walk(&[1, 5, 0, 1]), (a(0, 0), 5, 1));
    assert_eq!(walk(&[1, 5, 0, 2]), none(0));
    assert_eq!(walk(&[1, 5, 0, u32::MAX]), none(0));
    // Switch: the default and the taken case are judged, others aren't.
    assert_eq!(walk(&[2, 0, 0, 4, 0]), (a(1, 0), 0, 0));
    assert_eq!(walk(&[2, 0, 0, 0, 0]), none(0));
    assert_eq!(walk(&[2, 0, 0, 5, 0]), none(0));
    assert_eq!(walk(&[2, 1, 0, 4, 0]), none(0));
    assert_eq!(walk(&[2, 0, u32::MAX, 4, 0]), none(0));
    assert_eq!(walk(&[2, 0, 1, 9, 99, 6, 0]), (a(1, 0), 0, 0));
    assert_eq!(walk(&[2, 0, 1, s, 99, 6, 0]), none(0));
    assert_eq!(walk(&[2, 0, 1, s, 6, 99, 0]), (a(1, 0), 0, 0));
    // The first of two cases with one head.
    assert_eq!(walk(&[2, 0, 2, s, 8, s, 9, 9, 0, 5]), (a(1, 0), 0, 0));
    // A case at a place already entered; the default there is right.
    assert_eq!(walk(&[2, 0, 1, s, 6, 6, 2, 0, 1, s, 12, 12, 0]), none(6));
    assert_eq!(walk(&[2, 0, 1, s, 6, 6, 2, 0, 1, 9, 12, 12, 0]), (a(1, 0), 0, 0));
    // Down to the variable under the abstraction, and into it.
    let down = |rest: &[u32]| {
        let mut tree = vec![2, 0, 1, s, 6, 6, 2, 1, 1, LAMBDA, 12, 12];
        tree.extend(rest);
        tree
    };
    assert_eq!(walk(&down(&[2, 2, 1, variable(1), 18, 18, 0])), (a(1, 0), 0, 0));
    assert_eq!(walk(&down(&[3, 2, 0, 17, 18, 0, 5])), none(18));
    assert_eq!(walk(&down(&[3, 2, 0, 17, 18, 5, 0])), (a(1, 0), 0, 0));
    assert_eq!(walk(&down(&[3, 2, 1, 1, 18, 19, 0, 5])), (a(1, 0), 0, 0));
    assert_eq!(walk(&down(&[3, 2, 1, 2, 18, 19, 0, 5])), none(12));
    assert_eq!(walk(&down(&[3, 2, 2, 1, 1, 19, 19, 0])), none(12));
    assert_eq!(walk(&down(&[3, 2, 5, 1, 1, 1, 1, 1, 22, 22, 0])), none(12));
    assert_eq!(walk(&down(&[3, 2, 1, 1, 18])), none(12));
    assert_eq!(walk(&down(&[4, 2, 2, 1, 1, 1, 20, 21, 0, 5])), (a(1, 0), 0, 0));
    assert_eq!(walk(&down(&[4, 2, 2, 0, 18, 19, 5, 0])), (a(1, 0), 0, 0));
    assert_eq!(walk(&down(&[4, 2, 3, 0, 18, 19, 5, 0])), none(12));
    // A Leaf's part without a body; damage before 13.
    assert_eq!(walk(&down(&[1, 0, 1, 0, 2, 0])), none(12));
    assert_eq!(walk(&down(&[1, 0, 1, 0, 2, 1, 1])), (a(0, 0), 0, 0));
    assert_eq!(match_tree(&down(&[1, 0, 2, 0, 1, 0, 2, 0]), &term, &mut [], &mut l), none(12));
    assert_eq!(match_tree(&down(&[1, 0, 1, 0, 1, 0]), &term, &mut [], &mut l), (a(13, 0), 0, 0));

    // With a book: rule, n, counts and what is set aside must fit it.
    let book = one(1, &[s, X], &[X]);
    let mut out = [0; 9];
    assert_eq!(rewrite_root(&book, &[1, 0, 1, 0, 0, 0], &term, &mut out), a(0, 0));
    assert_eq!(out[..4], [s, LAMBDA, variable(1), 0]);
    assert_eq!(rewrite_root(&book, &[1, 1, 1, 0, 0, 0], &term, &mut out), a(14, 0));
    assert_eq!(rewrite_root(&book, &[1, 0, 0, 0], &term, &mut out), a(14, 0));
    assert_eq!(rewrite_root(&book, &[1, 0, 2, 0, 0, 0, 0, 0], &term, &mut out), a(14, 0));
    assert_eq!(rewrite_root(&book, &[1, 0, 1, 1, 0, 0], &term, &mut out), a(14, 0));
    assert_eq!(rewrite_root(&book, &down(&[1, 0, 1, 0, 2, 1, 1]), &term, &mut out), a(14, 12));
    assert_eq!(out, [0; 9]);
}

#[test]
fn speed() {
    // 1,000 steps on a term of about 4,000 words.
    let s = symbol(3, 1);
    let book = one(1, &[s, X], &[symbol(4, 1), X]);
    let tree = gen::compiled(&book);
    let term = gen::repeated(&[vec![s; 14], vec![S7]].concat(), 4_096);
    assert_eq!(term.len(), 4_095);
    let began = std::time::Instant::now();
    let (answer, steps) = simplify(&book, &tree, &term, 1_000, &mut vec![0; 4_096]);
    assert_eq!((answer.number, steps), (2, 1_000));
    println!("{} words: {:?}", term.len(), began.elapsed());
    // Large books.
    let mut rng = Rng::new(5);
    let began = std::time::Instant::now();
    let mut over = 0;
    for _ in 0..20 {
        let alphabet = gen::alphabet(&mut rng);
        let book = gen::large_book(&mut rng, &alphabet);
        over += u32::from(compile(&book, &mut vec![0; 16_384]).number == 13);
    }
    println!("20 large books, {over} over: {:?}", began.elapsed());
}
