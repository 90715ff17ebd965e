//! E7: the nodes visited. Worked out by hand from document 02, then against a
//! plainer walk on random inputs.

use second::gen;
use second::renumber::body_of;
use second::term::Laid;
use second::words::*;
use second::*;

fn a(number: u32, at: u32) -> Answer {
    Answer { number, at }
}

fn one(vars: u32, left: &[u32], right: &[u32]) -> Vec<u32> {
    gen::book_words(&[gen::Source { vars, left: left.to_vec(), right: right.to_vec() }])
}

const S7: u32 = symbol(7, 0);
const S8: u32 = symbol(8, 0);
const X: u32 = pattern(0, 0);

fn book_a() -> Vec<u32> {
    let text = "book=1\nrules=3\nrule=0\nvars=1\nleft=s2.2 m0.0 m0.0\nright=m0.0\n\
rule=1\nvars=1\nleft=s3.1 l m0.0\nright=m0.0\n\
rule=2\nvars=1\nleft=s3.1 l s4.1 m0.1 v1\nright=s4.1 s3.1 l m0.1 v1\n";
    let mut words = vec![0; 200];
    assert_eq!(read_book(text.as_bytes(), &mut words).number, 0);
    let length = (1..).find(|&n| check_book(&words[..n]).number == 0).unwrap();
    words.truncate(length);
    words
}

fn term(text: &str) -> Vec<u32> {
    let mut words = vec![0; text.split(' ').count()];
    assert_eq!(read_term(format!("{text}\n").as_bytes(), &mut words).number, 0);
    words
}

/// Answer and visits of one match.
fn walked(tree: &[u32], term: &[u32]) -> (Answer, u64) {
    let (answer, _, _, visits) = match_tree(tree, term, &mut [0; 99], &mut [0; 16]);
    (answer, visits)
}

#[test]
fn book_a_by_hand() {
    let book = book_a();
    let tree = gen::compiled(&book);
    let table: &[(&str, u32, u64)] = &[
        // Switch, Same, Leaf; with an argument set aside too.
        ("s2.2 s7.0 s7.0", 0, 3),
        ("s2.3 s7.0 s7.0 s8.0", 0, 3),
        // Switch, Same, Fail.
        ("s2.2 s7.0 s8.0", 1, 3),
        // Switch, Switch, Closed, Leaf.
        ("s3.1 l v2", 0, 4),
        ("s3.1 l s4.1 s7.0", 0, 4),
        // Switch, Switch, Closed, Switch, Fail.
        ("s3.1 l v1", 1, 5),
        // Switch, Switch, Closed, Switch, Leaf.
        ("s3.1 l s4.1 v1", 0, 5),
        // Switch, Switch, Fail.
        ("s3.1 s7.0", 1, 3),
        // The root alone settles it: Switch, Fail.
        ("s2.1 s7.0", 1, 2),
        ("s7.0", 1, 2),
        ("l s3.1 l v2", 1, 2),
        ("v1", 1, 2),
    ];
    for (text, number, visits) in table {
        let term = term(text);
        assert_eq!(walked(&tree, &term), (a(*number, 0), *visits), "{text}");
        let mut out = [0; 20];
        let (answer, rewriting) = rewrite_root(&book, &tree, &term, &mut out);
        assert_eq!((answer.number, rewriting), (*number, *visits), "{text}");
    }
}

#[test]
fn book_a_simplifying_by_hand() {
    let book = book_a();
    let tree = gen::compiled(&book);
    // A search goes on until the offset where the rule is found: Fails at 0
    // and 1, then s3.1 l v2 with 4, so 8. Then each offset of what is left.
    let inner = term("s5.2 s7.0 s3.1 l v2");
    let mut out = [0; 9];
    assert_eq!(simplify(&book, &tree, &inner, 0, &mut out), (a(2, 0), 0, 8));
    assert_eq!(simplify(&book, &tree, &inner, 9, &mut out), (a(0, 0), 1, 8 + 3 * 2));
    assert_eq!(out[..4], [symbol(5, 2), S7, variable(1), 0]);
    // The two terms of document 01. s2.2 with two parts that differ: 3. Then
    // s3.1 l s7.0: 4. Then s2.2 with equal parts: 3. Then s7.0: 2.
    let first = term("s2.2 s3.1 l s7.0 s7.0");
    assert_eq!(simplify(&book, &tree, &first, 9, &mut out), (a(0, 0), 2, 3 + 4 + 3 + 2));
    // 5. Behind the new s4.1 (2) again 5. Then s4.1 s4.1 s3.1 l v1: 2, 2, and
    // s3.1 l v1 with 5, l with 2, v1 with 2.
    let second = term("s3.1 l s4.1 s4.1 v1");
    let sum = 5 + (2 + 5) + (2 + 2 + 5 + 2 + 2);
    assert_eq!(simplify(&book, &tree, &second, 9, &mut out), (a(0, 0), 2, sum));
}

#[test]
fn single_nodes_and_refusals() {
    assert_eq!(walked(&[0], &[S7]), (a(1, 0), 1));
    assert_eq!(walked(&[1, 0, 0, 0], &[S7]), (a(0, 0), 1));
    assert_eq!(walked(&[], &[S7]), (a(14, 0), 1));
    assert_eq!(walked(&[5], &[S7]), (a(14, 0), 1));
    assert_eq!(walked(&[1, 64, 0, 0], &[S7]), (a(14, 0), 1));
    assert_eq!(walked(&[1, 0, 0, 1], &[S7]), (a(14, 0), 1));
    // A taken address that is none: the node that has it is damaged.
    assert_eq!(walked(&[2, 0, 0, 4], &[S7]), (a(14, 0), 1));
    assert_eq!(walked(&[2, 0, 0, 4, 5], &[S7]), (a(14, 4), 2));
    assert_eq!(walked(&[2, 0, 0, 4, 3, 0, 0, 9, 9, 0], &[S7]), (a(1, 0), 3));
    assert_eq!(walked(&[2, 0, 0, 4, 3, 0, 0, 4, 9, 0], &[S7]), (a(14, 4), 2));
    assert_eq!(walked(&[2, 0, 0, 4, 4, 0, 0, 0, 10, 0, 1], &[S7]), (a(14, 10), 3));
    // Nodes that are passed over aren't visited.
    assert_eq!(walked(&[2, 0, 0, 6, 0, 0, 0], &[S7]), (a(1, 0), 2));
    // Before any walk.
    let long = vec![0; 16_385];
    assert_eq!(walked(&long, &[S7]), (a(14, 16_384), 0));
    assert_eq!(walked(&long[1..], &[S7]), (a(1, 0), 1));
    assert_eq!(walked(&[0], &[]), (a(11, 0), 0));
    assert_eq!(walked(&[], &[S7, S7]), (a(11, 1), 0));
}

#[test]
fn rewriting_at_the_root() {
    let book = one(1, &[symbol(3, 1), X], &[LAMBDA, X]);
    let tree = gen::compiled(&book);
    let by = |term: &[u32]| {
        let mut out = [0; 9];
        rewrite_root(&book, &tree, term, &mut out)
    };
    assert_eq!(by(&[symbol(3, 1), S7]), (a(0, 0), 2));
    assert_eq!(by(&[S7]), (a(1, 0), 2));
    // 15, 18 and 13 keep what was walked.
    assert_eq!(by(&[symbol(3, 1), variable(65_535)]), (a(15, 0), 2));
    assert_eq!(by(&[symbol(3, 2), S7, S7]), (a(18, 1), 2));
    assert_eq!(rewrite_root(&book, &tree, &[symbol(3, 1), S7], &mut [0]), (a(13, 0), 2));
    let mut l = [0; 16];
    let answer = match_tree(&tree, &[symbol(3, 1), S7], &mut [], &mut l);
    assert_eq!(answer, (a(13, 0), 0, 0, 2));
    // Nothing was walked.
    assert_eq!(rewrite_root(&[], &tree, &[S7], &mut []), (a(12, 0), 0));
    assert_eq!(by(&[]), (a(11, 0), 0));
    assert_eq!(rewrite_root(&book, &[0; 16_385], &[S7], &mut []), (a(14, 16_384), 0));
    // Damage, the second by the book alone.
    assert_eq!(rewrite_root(&book, &[], &[S7], &mut []), (a(14, 0), 1));
    let leaf = [2, 0, 0, 4, 1, 0, 0, 0];
    assert_eq!(rewrite_root(&book, &leaf, &[S7], &mut []), (a(14, 4), 2));
    assert_eq!(walked(&leaf, &[S7]), (a(0, 0), 2));
}

#[test]
fn simplifying() {
    let s = symbol(3, 1);
    let book = one(1, &[s, X], &[X]);
    let tree = gen::compiled(&book);
    let mut out = [0; 9];
    let mut by = |term: &[u32], budget| simplify(&book, &tree, term, budget, &mut out);
    // Each look at an offset is Switch and Leaf, or Switch and Fail.
    let term = [s, s, S7];
    assert_eq!(by(&term, 0), (a(2, 0), 0, 2));
    assert_eq!(by(&term, 1), (a(2, 0), 1, 4));
    assert_eq!(by(&term, 2), (a(0, 0), 2, 6));
    assert_eq!(by(&term, 9), (a(0, 0), 2, 6));
    assert_eq!(by(&[S7], 0), (a(0, 0), 0, 2));
    // Searches begin anew at the root: 0, 1; then 0, 1, 2; then all three.
    let term = [symbol(5, 2), s, S7, s, S8];
    assert_eq!(by(&term, 0), (a(2, 0), 0, 4));
    assert_eq!(by(&term, 1), (a(2, 0), 1, 4 + 6));
    assert_eq!(by(&term, 2), (a(0, 0), 2, 4 + 6 + 6));
    // The search of a step refused by 18 counts.
    let term = [symbol(5, 2), s, S7, symbol(3, 2), variable(1), S8];
    assert_eq!(by(&term, 9), (a(18, 1), 1, 4 + 6));
    // 13 keeps all.
    assert_eq!(simplify(&book, &tree, &[s, s, S7], 2, &mut []), (a(13, 0), 2, 6));
    // 15 in the second step.
    let book = one(1, &[s, X], &[LAMBDA, X]);
    let term = [symbol(5, 2), s, S7, s, variable(65_535)];
    let tree = gen::compiled(&book);
    // After the first step: s5.2 l s7.0 s3.1 v65535, found at 3.
    assert_eq!(simplify(&book, &tree, &term, 9, &mut []), (a(15, 0), 1, 4 + 8));
    // Nothing was walked.
    assert_eq!(simplify(&[], &tree, &term, 9, &mut []), (a(12, 0), 0, 0));
    assert_eq!(simplify(&book, &tree, &[], 9, &mut []), (a(11, 0), 0, 0));
    assert_eq!(simplify(&book, &[0; 16_385], &term, 9, &mut []), (a(14, 16_384), 0, 0));
    // A Fail alone: one for each offset.
    assert_eq!(simplify(&book, &[0], &term, 0, &mut [0; 5]), (a(0, 0), 0, 5));
    assert_eq!(simplify(&book, &[], &term, 9, &mut []), (a(14, 0), 0, 1));
}

#[test]
fn damage_while_simplifying() {
    // s8.0 takes an address that is none; others take the default.
    let book = one(0, &[S7], &[S8]);
    let tree = [2, 0, 1, S8, 99, 6, 0];
    let term = [symbol(5, 2), S7, S8];
    assert_eq!(simplify(&book, &tree, &term, 9, &mut []), (a(14, 0), 0, 2 + 2 + 1));
    // The step makes the s8.0 on which the second search is damaged.
    let tree = [2, 0, 2, S7, 8, S8, 99, 12, 1, 0, 0, 0, 0];
    assert_eq!(simplify(&book, &tree, &[S7], 9, &mut []), (a(14, 0), 1, 2 + 1));
    assert_eq!(simplify(&book, &tree, &[S7], 0, &mut [0]), (a(2, 0), 0, 2));
    assert_eq!(simplify(&book, &tree, &[LAMBDA, S7], 9, &mut []), (a(14, 0), 1, 4 + 2 + 1));
    // Damaged further in: at a Leaf that sets aside what isn't there.
    let tree = [2, 0, 1, S7, 6, 10, 1, 0, 0, 1, 0];
    assert_eq!(simplify(&book, &tree, &[LAMBDA, S7], 9, &mut []), (a(14, 6), 0, 2 + 2));
    // The last look is damaged too where the budget is used up.
    let tree = [2, 0, 2, S7, 8, S8, 99, 12, 1, 0, 0, 0, 0];
    assert_eq!(simplify(&book, &tree, &[S7], 1, &mut []), (a(14, 0), 1, 2 + 1));
}

/// The addresses a walk goes through in a tree without damage.
fn path(tree: &[u32], term: &[u32]) -> Vec<usize> {
    let laid = Laid::of(term);
    let mut places = vec![(0, 0)];
    let mut seen = vec![0];
    loop {
        let node = &tree[seen[seen.len() - 1]..];
        let body = |place: usize, list: usize, k: usize| {
            let (at, d) = places[node[place] as usize];
            body_of(&laid, at, d, &node[list..list + k])
        };
        let next = match node[0] {
            0 | 1 => return seen,
            2 => {
                let (at, d) = places[node[1] as usize];
                let cases = node[2] as usize;
                match (0..cases).find(|n| node[3 + 2 * n] == term[at]) {
                    None => node[3 + 2 * cases],
                    Some(n) => {
                        let d = d + u32::from(term[at] == LAMBDA);
                        places.extend(laid.children(at).into_iter().map(|child| (child, d)));
                        node[4 + 2 * n]
                    }
                }
            }
            3 => {
                let k = node[2] as usize;
                node[3 + k + usize::from(body(1, 3, k).is_none())]
            }
            _ => {
                let k = node[3] as usize;
                let one = body(1, 4, k);
                let equal = one.is_some() && one == body(2, 4 + k, k);
                node[4 + 2 * k + usize::from(!equal)]
            }
        };
        seen.push(next as usize);
    }
}

#[test]
fn visits_are_the_nodes_on_the_path() {
    let mut longest = 0;
    for seed in 0..6_000 {
        let mut rng = Rng::new(seed);
        let alphabet = gen::alphabet(&mut rng);
        let book = gen::book(&mut rng, &alphabet);
        let tree = gen::compiled(&book);
        for _ in 0..4 {
            let term = gen::any_term(&mut rng, &alphabet, &book);
            let (answer, visits) = walked(&tree, &term);
            if answer.number == 11 {
                assert_eq!(visits, 0);
                continue;
            }
            let path = path(&tree, &term);
            assert_eq!(visits, path.len() as u64, "seed {seed}");
            longest = longest.max(path.len());
        }
    }
    println!("longest path {longest}");
}

/// What a search visits: the walks over the parts, one after the other, up to
/// the first that says something else than none; and the offset of that one.
fn search(tree: &[u32], term: &[u32]) -> (u64, usize) {
    let laid = Laid::of(term);
    let mut sum = 0;
    for at in 0..term.len() {
        let part = &term[at..laid.end[at]];
        let (answer, _, _, visits) = match_tree(tree, part, &mut [0; 9_000], &mut [0; 16]);
        sum += visits;
        if answer.number != 1 {
            return (sum, at);
        }
    }
    (sum, term.len())
}

/// The term after a step at an offset where there is one.
fn stepped(book: &[u32], tree: &[u32], term: &[u32], at: usize) -> Vec<u32> {
    let end = Laid::of(term).end[at];
    let mut out = vec![0; 4_096];
    assert_eq!(rewrite_root(book, tree, &term[at..end], &mut out).0, a(0, 0));
    let part = &out[..Laid::of(&out).end[0]];
    [&term[..at], part, &term[end..]].concat()
}

#[test]
fn a_run_is_the_sum_of_its_searches() {
    let mut seen = std::collections::BTreeMap::<u32, u32>::new();
    for seed in 0..6_000 {
        let mut rng = Rng::new(seed);
        let c = if rng.chance(1, 5) { gen::growth_case(&mut rng) } else { gen::rewrite_case(&mut rng) };
        let (book, tree, mut term) = (c.book, c.tree, c.term);
        let mut out = vec![0; c.out_length];
        let (answer, steps, visits) = simplify(&book, &tree, &term, c.budget.min(12), &mut out);
        let (_, root_visits) = rewrite_root(&book, &tree, &term, &mut out);
        *seen.entry(answer.number).or_insert(0) += 1;
        if [11, 12].contains(&answer.number) || tree.len() > 16_384 {
            assert_eq!((visits, root_visits), (0, 0), "seed {seed}");
            continue;
        }
        assert_eq!(root_visits, walked(&tree, &term).1, "seed {seed}");
        // As many searches as steps and one more: the last, also if it was
        // damaged, if its step was refused or if the budget was used.
        let (mut sum, mut at) = search(&tree, &term);
        for _ in 0..steps {
            term = stepped(&book, &tree, &term, at);
            let more;
            (more, at) = search(&tree, &term);
            sum += more;
        }
        assert_eq!(visits, sum, "seed {seed} {answer:?} {steps}");
    }
    println!("{seen:?}");
    assert!([0, 2, 11, 12, 13, 14, 15, 18].iter().all(|number| seen[number] >= 50));
}
