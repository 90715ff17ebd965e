//! E2: rules for a front part of the arguments. Worked out by hand from
//! document 02.

mod without;

use second::gen;
use second::right::{write_right, written_root};
use second::term::Laid;
use second::words::*;
use second::*;
use without::{match_tree, rewrite_root, simplify};

fn a(number: u32, at: u32) -> Answer {
    Answer { number, at }
}

fn rule(vars: u32, left: &[u32], right: &[u32]) -> gen::Source {
    gen::Source { vars, left: left.to_vec(), right: right.to_vec() }
}

fn one(vars: u32, left: &[u32], right: &[u32]) -> Vec<u32> {
    gen::book_words(&[rule(vars, left, right)])
}

fn tree(book: &[u32]) -> Vec<u32> {
    let mut tree = vec![0; 16_384];
    assert_eq!(compile(book, &mut tree), a(0, 0));
    tree
}

const S7: u32 = symbol(7, 0);
const S8: u32 = symbol(8, 0);
const S9: u32 = symbol(9, 0);
const X: u32 = pattern(0, 0);
const Y: u32 = pattern(1, 0);

/// A symbol with as many leaves.
fn full(id: u32, c: u32) -> Vec<u32> {
    let mut words = vec![symbol(id, c)];
    words.resize(c as usize + 1, S7);
    words
}

/// Rule, aside and body of the rule asked for and of the tree, which must say
/// the same; None for none.
fn matched(book: &[u32], term: &[u32]) -> Option<(u32, u32, Vec<u32>)> {
    let (mut bodies, mut lengths) = (vec![9; 64], [9; 16]);
    let by_tree = match_tree(&tree(book), term, &mut bodies, &mut lengths);
    let (mut bodies_2, mut lengths_2) = (vec![9; 64], [9; 16]);
    for n in 0..book[0] {
        let (answer, aside) = match_rule(book, n, term, &mut bodies_2, &mut lengths_2);
        if answer == a(0, 0) {
            assert_eq!(by_tree, (a(0, 0), n, aside));
            assert_eq!((&bodies, lengths), (&bodies_2, lengths_2));
            return Some((n, aside, bodies[..lengths.iter().sum::<u32>() as usize].to_vec()));
        }
        assert_eq!((answer, aside), (a(1, 0), 0));
    }
    assert_eq!(by_tree, (a(1, 0), 0, 0));
    assert_eq!((bodies, lengths), (vec![0; 64], [0; 16]));
    None
}

#[test]
fn the_front_fits() {
    let book = one(1, &[symbol(2, 1), X], &[X]);
    assert_eq!(matched(&book, &[symbol(2, 0)]), None);
    assert_eq!(matched(&book, &[symbol(2, 1), S7]), Some((0, 0, vec![S7])));
    assert_eq!(matched(&book, &[symbol(2, 2), S7, S8]), Some((0, 1, vec![S7])));
    assert_eq!(matched(&book, &[symbol(3, 2), S7, S8]), None);
    let whole = [&[symbol(2, 15), symbol(4, 1), variable(3)], &[S7; 14][..]].concat();
    assert_eq!(matched(&book, &whole), Some((0, 14, vec![symbol(4, 1), variable(3)])));
    // A root with as many children that is no symbol.
    assert_eq!(matched(&book, &[LAMBDA, S7]), None);
    // No arguments at all.
    let book = one(0, &[symbol(2, 0)], &[S7]);
    assert_eq!(matched(&book, &[symbol(2, 0)]), Some((0, 0, vec![])));
    assert_eq!(matched(&book, &full(2, 15)), Some((0, 15, vec![])));
    assert_eq!(matched(&book, &[variable(2)]), None);
    // All fifteen: nothing is ever set aside.
    let book = one(0, &full(2, 15), &[S7]);
    assert_eq!(matched(&book, &full(2, 15)), Some((0, 0, vec![])));
    assert_eq!(matched(&book, &full(2, 14)), None);
}

#[test]
fn inside_the_counts_stay_equal() {
    let book = one(1, &[symbol(3, 1), symbol(2, 1), X], &[X]);
    let s = symbol(2, 1);
    assert_eq!(matched(&book, &[symbol(3, 1), s, S7]), Some((0, 0, vec![S7])));
    assert_eq!(matched(&book, &[symbol(3, 1), symbol(2, 2), S7, S8]), None);
    assert_eq!(matched(&book, &[symbol(3, 2), s, S7, S8]), Some((0, 1, vec![S7])));
    // The same symbol at the root and inside.
    let book = one(1, &[s, s, X], &[X]);
    assert_eq!(matched(&book, &[symbol(2, 2), s, S7, S8]), Some((0, 1, vec![S7])));
    assert_eq!(matched(&book, &[s, symbol(2, 2), S7, S8]), None);
}

#[test]
fn what_is_set_aside_is_not_asked() {
    // Equality and closedness are asked of the front alone.
    let book = one(1, &[symbol(2, 2), X, X], &[X]);
    assert_eq!(matched(&book, &[symbol(2, 3), S7, S7, S8]), Some((0, 1, vec![S7])));
    assert_eq!(matched(&book, &[symbol(2, 3), S7, S8, S7]), None);
    let book = one(1, &[symbol(3, 1), LAMBDA, X], &[X]);
    let far = [LAMBDA, variable(1)];
    let term = [&[symbol(3, 2), LAMBDA, variable(2)], &far[..]].concat();
    assert_eq!(matched(&book, &term), Some((0, 1, vec![variable(1)])));
    let term = [&[symbol(3, 2), LAMBDA, variable(1)], &far[..]].concat();
    assert_eq!(matched(&book, &term), None);
}

#[test]
fn the_lowest_number_wins() {
    let pair = rule(1, &[symbol(2, 2), X, X], &[X]);
    let single = rule(1, &[symbol(2, 1), X], &[X]);
    let book = gen::book_words(&[pair.clone(), single.clone()]);
    let s7 = || vec![S7];
    assert_eq!(matched(&book, &[symbol(2, 1), S7]), Some((1, 0, s7())));
    assert_eq!(matched(&book, &[symbol(2, 2), S7, S7]), Some((0, 0, s7())));
    assert_eq!(matched(&book, &[symbol(2, 2), S7, S8]), Some((1, 1, s7())));
    assert_eq!(matched(&book, &[symbol(2, 3), S7, S7, S8]), Some((0, 1, s7())));
    assert_eq!(matched(&book, &[symbol(2, 3), S7, S8, S8]), Some((1, 2, s7())));
    assert_eq!(matched(&book, &[symbol(2, 0)]), None);
    let book = gen::book_words(&[single, pair]);
    assert_eq!(matched(&book, &[symbol(2, 2), S7, S7]), Some((0, 1, s7())));
}

#[test]
fn aside_is_zero_on_every_other_answer() {
    let book = one(1, &[symbol(2, 1), X], &[X]);
    let t = tree(&book);
    let term = [symbol(2, 2), S7, S8];
    let mut l = [9; 16];
    assert_eq!(match_rule(&book, 0, &term, &mut [9], &mut l), (a(0, 0), 1));
    assert_eq!(match_rule(&book, 0, &term, &mut [], &mut l), (a(13, 0), 0));
    assert_eq!(match_tree(&t, &term, &mut [9], &mut l), (a(0, 0), 0, 1));
    assert_eq!(match_tree(&t, &term, &mut [], &mut l), (a(13, 0), 0, 0));
    assert_eq!(l, [0; 16]);
    // Building from the match gives the term without what was set aside.
    let mut out = [9; 3];
    l[0] = 1;
    assert_eq!(build_left(&book, 0, &[S7], &l, &mut out), a(0, 0));
    assert_eq!(out, [symbol(2, 1), S7, 0]);
}

#[test]
fn the_root_switch() {
    let all = |id: u32, c: u32| {
        let left: Vec<u32> = (0..c).map(|x| pattern(x, 0)).collect();
        rule(c, &[vec![symbol(id, c)], left].concat(), &[S7])
    };
    let leaf = |rule: u32, n: u32, aside: u32| {
        let places = (1..=n).flat_map(|p| [p, 0]);
        [1, rule, n, aside].into_iter().chain(places).collect::<Vec<u32>>()
    };
    let book = gen::book_words(&[all(2, 14), all(3, 15), all(2, 13)]);
    // The root has 12 words; Leafs have 4 and two for each variable.
    let mut expected = vec![2, 0, 4, symbol(2, 13), 12, symbol(2, 14), 42, symbol(2, 15), 74];
    expected.extend([symbol(3, 15), 106, 140]);
    expected.extend(leaf(2, 13, 0));
    expected.extend(leaf(0, 14, 0));
    expected.extend(leaf(0, 14, 1));
    expected.extend(leaf(1, 15, 0));
    expected.push(0);
    assert_eq!(gen::compiled(&book), expected);
    // With the smaller first it stands first in all its counts.
    let book = gen::book_words(&[all(2, 13), all(2, 14)]);
    let mut expected = vec![2, 0, 3, symbol(2, 13), 10, symbol(2, 14), 40, symbol(2, 15), 70, 100];
    expected.extend(leaf(0, 13, 0));
    expected.extend(leaf(0, 13, 1));
    expected.extend(leaf(0, 13, 2));
    expected.push(0);
    assert_eq!(gen::compiled(&book), expected);
    // The empty book is a Fail alone.
    assert_eq!(gen::compiled(&[0]), [0]);
}

#[test]
fn rows_in_the_counts_they_cover() {
    // s2.14 s7.0 ... before s2.15 ... : both stand in 15, the first in 14.
    let mut long = vec![symbol(2, 15), S8];
    long.extend((0..14).map(|x| pattern(x, 0)));
    let mut short = vec![symbol(2, 14), S7];
    short.extend((0..13).map(|x| pattern(x, 0)));
    let book = gen::book_words(&[rule(13, &short, &[S7]), rule(14, &long, &[S7])]);
    let places = |n: u32| (2..2 + n).flat_map(|p| [p, 0]).collect::<Vec<u32>>();
    // 0: root, 8 words. 8: Switch on place 1, 6 words. 14: Leaf. 44: Fail.
    let mut expected = vec![2, 0, 2, symbol(2, 14), 8, symbol(2, 15), 45, 116];
    expected.extend([2, 1, 1, S7, 14, 44]);
    expected.extend([vec![1, 0, 13, 0], places(13)].concat());
    expected.push(0);
    // 45: two cases, 8 words. 53: Leaf of 30. 83: Leaf of 32. 115: Fail.
    expected.extend([2, 1, 2, S7, 53, S8, 83, 115]);
    expected.extend([vec![1, 0, 13, 1], places(13)].concat());
    expected.extend([vec![1, 1, 14, 0], places(14)].concat());
    expected.extend([0, 0]);
    assert_eq!(expected.len(), 117);
    assert_eq!(gen::compiled(&book), expected);
}

/// The answer and the result without the zeros behind it.
fn rewrite(book: &[u32], term: &[u32]) -> (Answer, Vec<u32>) {
    let mut out = vec![9; 4_096];
    let answer = rewrite_root(book, &tree(book), term, &mut out);
    let length = out.iter().rposition(|&w| w != 0).map_or(0, |n| n + 1);
    out.truncate(length);
    // Simplifying with budget 1 makes the same step, unless there is none.
    if answer.number != 1 {
        let mut once = vec![9; 4_096];
        let (answer_2, steps) = simplify(book, &tree(book), term, 1, &mut once);
        let made = u32::from(answer.number == 0);
        assert_eq!(steps, made);
        assert_eq!(answer_2.number >= 10, answer.number >= 10);
        assert_eq!(once[..out.len()], out);
    }
    (answer, out)
}

#[test]
fn arguments_at_the_end() {
    let s3 = |c| symbol(3, c);
    let book = one(1, &[s3(1), X], &[symbol(4, 2), X, S9]);
    assert_eq!(rewrite(&book, &[s3(1), S7]), (a(0, 0), vec![symbol(4, 2), S7, S9]));
    let three = [s3(3), S7, LAMBDA, variable(2), variable(1)];
    let expected = vec![symbol(4, 4), S7, S9, LAMBDA, variable(2), variable(1)];
    assert_eq!(rewrite(&book, &three), (a(0, 0), expected));
    // The argument may be long.
    let two = [s3(2), LAMBDA, variable(1), symbol(5, 1), S8];
    let expected = vec![symbol(4, 3), LAMBDA, variable(1), S9, symbol(5, 1), S8];
    assert_eq!(rewrite(&book, &two), (a(0, 0), expected));
    assert_eq!(rewrite(&book, &[s3(0)]).0, a(1, 0));
}

#[test]
fn roots_of_right_sides() {
    let s3 = |c| symbol(3, c);
    // A symbol, an abstraction.
    let book = one(1, &[s3(1), X], &[LAMBDA, X]);
    assert_eq!(rewrite(&book, &[s3(1), S7]), (a(0, 0), vec![LAMBDA, S7]));
    assert_eq!(rewrite(&book, &[s3(2), S7, S8]), (a(18, 1), vec![]));
    assert_eq!(rewrite(&book, &[s3(3), S7, S8, S8]), (a(18, 2), vec![]));
    // A pattern variable: its body's root decides.
    let book = one(1, &[s3(1), X], &[X]);
    assert_eq!(rewrite(&book, &[s3(2), S9, S8]), (a(0, 0), vec![symbol(9, 1), S8]));
    let term = [s3(2), symbol(4, 1), S7, S8];
    assert_eq!(rewrite(&book, &term), (a(0, 0), vec![symbol(4, 2), S7, S8]));
    assert_eq!(rewrite(&book, &[s3(2), LAMBDA, S7, S8]), (a(18, 1), vec![]));
    assert_eq!(rewrite(&book, &[s3(2), variable(5), S8]), (a(18, 1), vec![]));
    assert_eq!(rewrite(&book, &[s3(1), variable(5)]), (a(0, 0), vec![variable(5)]));
}

#[test]
fn roots_by_parameters() {
    let s3 = |c| symbol(3, c);
    let v = variable;
    let left = [s3(2), LAMBDA, pattern(0, 1), v(1), Y];
    let by = |right: &[u32], term: &[u32]| rewrite(&one(2, &left, right), term);
    let f = pattern(0, 1);
    // The body is the parameter: the child's root decides.
    let term = |y: u32| [s3(3), LAMBDA, v(1), y, S8];
    assert_eq!(by(&[f, Y], &term(S9)), (a(0, 0), vec![symbol(9, 1), S8]));
    assert_eq!(by(&[f, Y], &term(v(4))), (a(18, 1), vec![]));
    assert_eq!(by(&[f, f, Y], &term(S9)), (a(0, 0), vec![symbol(9, 1), S8]));
    assert_eq!(by(&[f, symbol(6, 1), Y], &term(v(4))), (a(0, 0), vec![symbol(6, 2), v(4), S8]));
    assert_eq!(by(&[f, LAMBDA, v(1)], &term(S9)), (a(18, 1), vec![]));
    let deep = [s3(3), LAMBDA, v(1), LAMBDA, S7, S8];
    assert_eq!(by(&[f, Y], &deep), (a(18, 1), vec![]));
    // The body is a symbol, an abstraction, a variable outside.
    let term = [s3(3), LAMBDA, symbol(6, 1), v(1), S9, S8];
    assert_eq!(by(&[f, Y], &term), (a(0, 0), vec![symbol(6, 2), S9, S8]));
    let term = [s3(3), LAMBDA, LAMBDA, v(2), S9, S8];
    assert_eq!(by(&[f, Y], &term), (a(18, 1), vec![]));
    let term = [s3(3), LAMBDA, v(2), S9, S8];
    assert_eq!(by(&[f, Y], &term), (a(18, 1), vec![]));
    // Of two parameters the second.
    let left = [s3(1), LAMBDA, LAMBDA, pattern(0, 2), v(2), v(1)];
    let book = one(1, &left, &[pattern(0, 2), LAMBDA, S7, S9]);
    let term = |i| [s3(2), LAMBDA, LAMBDA, v(i), S8];
    assert_eq!(rewrite(&book, &term(1)), (a(0, 0), vec![symbol(9, 1), S8]));
    assert_eq!(rewrite(&book, &term(2)), (a(18, 1), vec![]));
}

#[test]
fn sums_of_fifteen_and_sixteen() {
    for own in 0..=15 {
        let book = one(0, &[symbol(3, 0)], &full(4, own));
        for aside in 0..=15 {
            let term = [vec![symbol(3, aside)], vec![S8; aside as usize]].concat();
            let answer = rewrite(&book, &term);
            if aside == 0 || own + aside <= 15 {
                let mut expected = vec![symbol(4, own + aside)];
                expected.extend(vec![S7; own as usize]);
                expected.extend(vec![S8; aside as usize]);
                assert_eq!(answer, (a(0, 0), expected));
            } else {
                assert_eq!(answer, (a(18, aside), vec![]));
            }
        }
    }
    // A body at the root with 14 and with 15.
    let book = one(1, &[symbol(3, 1), X], &[X]);
    let of = |c| [vec![symbol(3, 2)], full(4, c), vec![S8]].concat();
    let expected = [full(4, 14), vec![S8]].concat();
    assert_eq!(rewrite(&book, &of(14)), (a(0, 0), [&[symbol(4, 15)], &expected[1..]].concat()));
    assert_eq!(rewrite(&book, &of(15)), (a(18, 1), vec![]));
}

#[test]
fn order_of_18() {
    let mut rng = Rng::new(2);
    let long = gen::wide(&mut rng, 2_500);
    let term = [vec![symbol(3, 2)], long, vec![S8]].concat();
    // Too long to be written, and the root can't take the argument.
    let book = one(1, &[symbol(3, 1), X], &[LAMBDA, symbol(2, 2), X, X]);
    assert_eq!(rewrite(&book, &term), (a(18, 1), vec![]));
    assert_eq!(rewrite_root(&book, &tree(&book), &term, &mut []), a(18, 1));
    // Nothing set aside: no 18.
    let less = [&[symbol(3, 1)], &term[1..term.len() - 1]].concat();
    assert_eq!(rewrite(&book, &less), (a(15, 0), vec![]));
    // The root can take it.
    let book = one(1, &[symbol(3, 1), X], &[symbol(2, 2), X, X]);
    assert_eq!(rewrite(&book, &term), (a(15, 0), vec![]));
    // Nested too deep, an id too large: 18 as well.
    let book = one(1, &[symbol(3, 1), X], &[LAMBDA, X]);
    let chain = gen::chain(&mut rng, 63);
    let deep = [vec![symbol(3, 2)], chain, vec![S8]].concat();
    assert_eq!(rewrite(&book, &deep), (a(18, 1), vec![]));
    assert_eq!(rewrite(&book, &[symbol(3, 2), variable(65_535), S8]), (a(18, 1), vec![]));
    assert_eq!(rewrite(&book, &[symbol(3, 1), variable(65_535)]), (a(15, 0), vec![]));
    // 14 before 18, 12 and 11 too.
    let t = tree(&book);
    let two = [symbol(3, 2), S7, S8];
    assert_eq!(rewrite_root(&book, &[1, 0, 1, 0, 1, 0], &two, &mut []), a(14, 0));
    assert_eq!(rewrite_root(&[], &t, &two, &mut []), a(12, 0));
    assert_eq!(rewrite_root(&book, &t, &two[..2], &mut []), a(11, 2));
}

#[test]
fn the_whole_term_with_the_arguments() {
    let mut rng = Rng::new(2);
    let long = gen::wide(&mut rng, 4_093);
    let term = [vec![symbol(3, 2), S7], long.clone()].concat();
    let book = one(1, &[symbol(3, 1), X], &[symbol(4, 2), X, S9]);
    let expected = [vec![symbol(4, 3), S7, S9], long].concat();
    assert_eq!(expected.len(), 4_096);
    assert_eq!(rewrite(&book, &term), (a(0, 0), expected.clone()));
    let mut out = vec![9; 4_095];
    assert_eq!(rewrite_root(&book, &tree(&book), &term, &mut out), a(13, 0));
    assert_eq!(out, vec![0; 4_095]);
    let book = one(1, &[symbol(3, 1), X], &[symbol(4, 3), X, S9, S9]);
    assert_eq!(rewrite(&book, &term), (a(15, 0), vec![]));
    // Nesting 64 in what is set aside stays what it was.
    let book = one(1, &[symbol(3, 1), X], &[symbol(4, 1), X]);
    let term = [vec![symbol(3, 2), S7], vec![LAMBDA; 62], vec![S8]].concat();
    let expected = [vec![symbol(4, 2), S7], vec![LAMBDA; 62], vec![S8]].concat();
    assert_eq!(rewrite(&book, &term), (a(0, 0), expected));
}

#[test]
fn damage_by_what_is_set_aside() {
    let (mut b, mut l) = ([0; 9], [0; 16]);
    let leaf = |aside: u32| [1, 0, 0, aside];
    // Without a book: at most the count of the root's word, of any kind.
    let mut by = |aside: u32, term: &[u32]| match_tree(&leaf(aside), term, &mut b, &mut l);
    let roots = [full(3, 0), full(3, 2), full(3, 15), vec![LAMBDA, S7], vec![variable(1)]];
    for term in &roots {
        let c = count(term[0]);
        for aside in 0..=c {
            assert_eq!(by(aside, term), (a(0, 0), 0, aside));
        }
        for aside in [c + 1, 16, u32::MAX] {
            assert_eq!(by(aside, term), (a(14, 0), 0, 0));
        }
    }
    // With one: exactly a - b, and a root of fewer arguments never.
    let mut out = [0; 17];
    let book = one(0, &full(3, 2), &[S9]);
    for whole in 0..=15 {
        for aside in (0..=16).chain([u32::MAX, u32::MAX - 1]) {
            let answer = rewrite_root(&book, &leaf(aside), &full(3, whole), &mut out);
            let right = whole >= 2 && aside == whole - 2;
            assert_eq!(answer, if right { a(0, 0) } else { a(14, 0) });
        }
    }
    // Other roots too: the counts alone are named.
    let book = one(0, &[S7], &[S9]);
    assert_eq!(rewrite_root(&book, &leaf(1), &[LAMBDA, variable(1)], &mut out), a(0, 0));
    assert_eq!(out[..3], [symbol(9, 1), variable(1), 0]);
    assert_eq!(rewrite_root(&book, &leaf(0), &[LAMBDA, variable(1)], &mut out), a(14, 0));
    assert_eq!(rewrite_root(&book, &leaf(0), &[variable(1)], &mut out), a(0, 0));
    // The Leaf ends before the number.
    assert_eq!(rewrite_root(&book, &[1, 0, 0], &[S7], &mut out), a(14, 0));
}

#[test]
fn simplifying_with_arguments_set_aside() {
    let s3 = |c| symbol(3, c);
    let book = one(1, &[s3(1), X], &[X]);
    let t = tree(&book);
    let mut out = [9; 8];
    // s3.3 s3.0 s4.1 s7.0 s8.0: the body s3.0 takes two, then s4.1 takes one.
    let term = [s3(3), s3(0), symbol(4, 1), S7, S8];
    assert_eq!(simplify(&book, &t, &term, 9, &mut out), (a(0, 0), 2));
    assert_eq!(out, [symbol(4, 2), S7, S8, 0, 0, 0, 0, 0]);
    assert_eq!(simplify(&book, &t, &term, 1, &mut out), (a(2, 0), 1));
    assert_eq!(out, [s3(2), symbol(4, 1), S7, S8, 0, 0, 0, 0]);
    // Inside, under an abstraction, something behind it.
    let term = [symbol(5, 2), LAMBDA, s3(2), S9, variable(1), S7];
    assert_eq!(simplify(&book, &t, &term, 9, &mut out), (a(0, 0), 1));
    assert_eq!(out, [symbol(5, 2), LAMBDA, symbol(9, 1), variable(1), S7, 0, 0, 0]);
    // 18 in the second step: the first stays counted; a used budget is no 18.
    let term = [symbol(5, 2), s3(1), S7, s3(3), variable(1), S7, S8];
    assert_eq!(simplify(&book, &t, &term, 9, &mut out), (a(18, 2), 1));
    assert_eq!(out, [0; 8]);
    assert_eq!(simplify(&book, &t, &term, 1, &mut out), (a(2, 0), 1));
    assert_eq!(out, [symbol(5, 2), S7, s3(3), variable(1), S7, S8, 0, 0]);
    assert_eq!(simplify(&book, &t, &term, 0, &mut out), (a(2, 0), 0));
    assert_eq!(simplify(&book, &t, &term, 9, &mut []), (a(18, 2), 1));
    // The lowest offset is s3.3, though its inside could be rewritten.
    let term = [s3(2), LAMBDA, s3(1), S7, S8];
    assert_eq!(simplify(&book, &t, &term, 9, &mut out), (a(18, 1), 0));
}

#[test]
fn the_program_prints_18_as_15() {
    let input = "book=1\nrules=1\nrule=0\nvars=1\nleft=s3.1 m0.0\nright=m0.0\n\
term=s5.2 s3.1 s7.0 s3.3 l v1 s7.0 s7.0\nterm=s3.2 s4.1 s7.0 s8.0\n";
    // A root of 3 + 2 x 15 + 1 words, Leafs of 6, a Fail: 34 + 90 + 1.
    let printed = "book=1\nrules=1\ntree=125\nterm=0\nanswer=18\nsteps=1\nresult=-\n\
term=1\nanswer=0\nsteps=1\nresult=s4.2 s7.0 s8.0\n";
    assert_eq!(String::from_utf8(run_file(input.as_bytes())).unwrap(), printed);
}

#[test]
fn books_around_the_size_of_trees() {
    // Each rule for a leaf has 16 cases of 2 words and 16 Leafs of 4: 96 words.
    // The root's tag, place, number and default and the Fail are 5 more.
    let leaf = |n: u32| rule(0, &[symbol(n, 0)], &[S7]);
    let of = |n: u32| gen::book_words(&(0..n).map(leaf).collect::<Vec<_>>());
    let mut out = vec![9; 16_384];
    assert_eq!(compile(&of(64), &mut out[..6_149]), a(0, 0));
    assert_eq!(compile(&of(64), &mut out[..6_148]), a(13, 0));
    let wide = |n: u32| {
        let mut left = vec![symbol(n, 1)];
        left.extend([symbol(6, 15)]);
        left.extend((0..15).map(|x| pattern(x, 0)));
        rule(15, &left, &[S7])
    };
    let of = |n: u32| gen::book_words(&(0..n).map(wide).collect::<Vec<_>>());
    // For each rule and count: 2 in the root, a Switch of 6, a Leaf of 34, a
    // Fail: 43; for each rule 645. 25 rules: 16,125 + 5; 26: 16,770 + 5.
    let mut out = vec![9; 20_000];
    assert_eq!(compile(&of(25), &mut out), a(0, 0));
    assert_eq!(gen::compiled(&of(25)).len(), 16_130);
    assert_eq!(compile(&of(26), &mut out), a(13, 0));
    assert!(out.iter().all(|&w| w == 0));
}

/// What the cases of the generator are, so that none of them goes missing.
#[test]
fn the_cases_cover() {
    let mut seen = std::collections::BTreeMap::<&str, u32>::new();
    for seed in 0..20_000 {
        let c = gen::aside_case(&mut Rng::new(seed));
        let book = second::book::read(&c.book).unwrap();
        let term = Laid::of(&c.term);
        let mut note = |what, is: bool| *seen.entry(what).or_insert(0) += u32::from(is);
        let Ok(found) = second::walk::walk(&c.tree, &term, 0, Some(&book), &mut 0) else {
            note("damage", true);
            continue;
        };
        let Some(found) = found.filter(|found| found.aside > 0) else {
            continue;
        };
        let rule = &book.rules[found.rule];
        let root = written_root(rule, &found.bodies);
        let by_body = kind(rule.right.words[0]) == PATTERN;
        let sum = count(root) + found.aside;
        let over = write_right(rule, &found.bodies, 1).is_err();
        let refused = kind(root) != SYMBOL || sum > 15;
        note("fifteen arguments", count(c.term[0]) == 15);
        note("sum 15", kind(root) == SYMBOL && sum == 15);
        note("sum 16", kind(root) == SYMBOL && sum == 16);
        note("abstraction", kind(root) == ABSTRACTION && !by_body);
        note("symbol", !refused && !by_body);
        note("body a symbol, sum 15", kind(root) == SYMBOL && by_body && sum == 15);
        note("body a symbol, sum 16", kind(root) == SYMBOL && by_body && sum == 16);
        note("body an abstraction", kind(root) == ABSTRACTION && by_body);
        note("body a variable", kind(root) == VARIABLE && by_body);
        note("18 and 15", refused && over);
        note("15 alone", !refused && over);
        note("done", !refused && !over);
        let x = id(rule.right.words[0]) as usize;
        note("by a parameter", by_body && root != found.bodies[x][0]);
    }
    println!("{seen:?}");
    assert!(seen.len() == 14 && seen.values().all(|&times| times >= 50));
}
