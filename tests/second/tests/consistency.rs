//! The operations against each other, and against plainer definitions, on
//! random inputs. SECOND_ROUNDS multiplies the number of rounds.

mod without;

use second::book;
use second::gen;
use second::rng::Rng;
use second::term::Laid;
use second::words::*;
use second::*;
use without::{match_tree, rewrite_root, simplify};

fn rounds(n: u64) -> u64 {
    let times = std::env::var("SECOND_ROUNDS").ok().and_then(|s| s.parse().ok());
    n * times.unwrap_or(1)
}

fn zero<T: Default + PartialEq>(words: &[T]) -> bool {
    words.iter().all(|w| *w == T::default())
}

/// The one part that a cleared output begins with.
fn result(out: &[u32]) -> Vec<u32> {
    out[..Laid::of(out).end[0]].to_vec()
}

/// The term without the last `aside` arguments of its root.
fn front(term: &[u32], aside: u32) -> Vec<u32> {
    let root = node(term);
    let kept = root.1.len() - aside as usize;
    let mut out = Vec::new();
    let w = if aside == 0 { root.0 } else { symbol(id(root.0), kept as u32) };
    flat(&Node(w, root.1[..kept].to_vec()), &mut out);
    out
}

/// The arguments of a rule's left side, and how many are set aside at a root.
fn set_aside(words: &[u32], n: u32, root: u32) -> Option<u32> {
    let own = book::read(words).unwrap().rules[n as usize].left.words[0];
    let same = kind(root) == SYMBOL && id(root) == id(own);
    (same && count(root) >= count(own)).then(|| count(root) - count(own))
}

/// Matching a rule is matching the front of the term with nothing set aside.
fn rule_fits_front(words: &[u32], n: u32, term: &[u32]) -> Option<(u32, Vec<u32>, [u32; 16])> {
    let (mut bodies, mut lengths) = (vec![1; 4_096], [1; 16]);
    let (answer, aside) = match_rule(words, n, term, &mut bodies, &mut lengths);
    assert!(answer.number <= 1);
    let expected = set_aside(words, n, term[0]);
    let fits = expected.is_some_and(|aside| {
        let (mut bodies_2, mut lengths_2) = (vec![1; 4_096], [1; 16]);
        let cut = front(term, aside);
        let (answer_2, none) = match_rule(words, n, &cut, &mut bodies_2, &mut lengths_2);
        assert_eq!((answer, none), (answer_2, 0));
        assert_eq!((&bodies, lengths), (&bodies_2, lengths_2));
        answer_2.number == 0
    });
    assert_eq!(fits, answer.number == 0);
    assert_eq!(aside, if fits { expected.unwrap() } else { 0 });
    fits.then_some((aside, bodies, lengths))
}

#[test]
fn the_tree_finds_the_lowest_rule() {
    let mut found = [0u64; 5];
    for seed in 0..rounds(15_000) {
        let mut rng = Rng::new(seed);
        let a = gen::alphabet(&mut rng);
        let book = gen::book(&mut rng, &a);
        let mut tree = vec![0; 16_384];
        if compile(&book, &mut tree).number == 13 {
            found[3] += 1;
            continue;
        }
        for _ in 0..4 {
            let term = gen::any_term(&mut rng, &a, &book);
            let (mut bodies, mut lengths) = (vec![1; 4_096], [1; 16]);
            let (answer, rule, aside) = match_tree(&tree, &term, &mut bodies, &mut lengths);
            if check_term(&term).number != 0 {
                assert_eq!(answer, check_term(&term));
                continue;
            }
            let lowest =
                (0..book[0]).find_map(|n| rule_fits_front(&book, n, &term).map(|found| (n, found)));
            match lowest {
                None => {
                    assert_eq!((answer.number, rule, aside), (1, 0, 0), "seed {seed}");
                    assert!(zero(&bodies) && zero(&lengths));
                    found[0] += 1;
                }
                Some((n, (aside_2, bodies_2, lengths_2))) => {
                    assert_eq!((answer.number, rule, aside), (0, n, aside_2), "seed {seed}");
                    assert_eq!((&bodies, lengths), (&bodies_2, lengths_2), "seed {seed}");
                    found[1] += 1;
                    found[2] += u64::from(n > 0);
                    found[4] += u64::from(aside > 0);
                    // Match, then build, gives the front of the term back.
                    let sum = lengths.iter().sum::<u32>() as usize;
                    let term = front(&term, aside);
                    let mut out = vec![1; term.len()];
                    let answer = build_left(&book, n, &bodies[..sum], &lengths, &mut out);
                    assert_eq!((answer.number, &out), (0, &term), "seed {seed}");
                }
            }
        }
    }
    println!(
        "no rule {}, rule {} (not 0: {}, some set aside: {}), tree over {}",
        found[0], found[1], found[2], found[4], found[3]
    );
    assert!(found[1] > found[0] / 4);
}

#[test]
fn build_then_match_gives_the_bodies_back() {
    let mut done = 0;
    for seed in 0..rounds(10_000) {
        let mut rng = Rng::new(seed);
        let a = gen::alphabet(&mut rng);
        let words = gen::book(&mut rng, &a);
        let book = book::read(&words).expect("a good book");
        if book.rules.is_empty() {
            continue;
        }
        let n = rng.below(book.rules.len());
        let (list, lengths) = if rng.chance(1, 10) && book.rules[n].vars > 0 {
            gen::edge_bodies(&mut rng, &book.rules[n])
        } else {
            gen::bodies(&mut rng, &a, &book.rules[n])
        };
        let mut out = vec![1; 4_096];
        let answer = build_left(&words, n as u32, &list, &lengths, &mut out);
        if answer.number == 15 {
            assert!(zero(&out));
            continue;
        }
        assert_eq!(answer.number, 0);
        let (mut bodies, mut found) = (vec![1; list.len()], [1; 16]);
        let (answer, aside) = match_rule(&words, n as u32, &result(&out), &mut bodies, &mut found);
        assert_eq!((answer.number, aside, bodies, found), (0, 0, list, lengths), "seed {seed}");
        done += 1;
    }
    println!("{done} built and matched");
}

/// Trees of nodes, for plainer definitions than those of the library.
#[derive(Clone, Debug, PartialEq)]
struct Node(u32, Vec<Node>);

fn node(words: &[u32]) -> Node {
    fn take(words: &[u32], at: &mut usize) -> Node {
        let w = words[*at];
        *at += 1;
        let children = (0..count(w)).map(|_| take(words, at)).collect();
        Node(w, children)
    }
    take(words, &mut 0)
}

fn flat(n: &Node, out: &mut Vec<u32>) {
    out.push(n.0);
    for child in &n.1 {
        flat(child, out);
    }
}

/// Applies f(id, abstractions above) to each variable, with ids unbounded:
/// they are kept in the words' low 24 bits under a kind of their own.
fn map(n: &Node, e: u32, f: &mut impl FnMut(u32, u32) -> Node) -> Node {
    if kind(n.0) == VARIABLE {
        return f(n.0 - variable(0), e);
    }
    let inner = e + u32::from(n.0 == LAMBDA);
    Node(n.0, n.1.iter().map(|c| map(c, inner, f)).collect())
}

fn var(i: u32) -> Node {
    Node(variable(0) + i, Vec::new())
}

fn shift(n: &Node, by: u32) -> Node {
    map(n, 0, &mut |i, e| var(if i > e { i + by } else { i }))
}

/// The right side under `own` abstractions of its own, written from inside
/// out: children first, then put into the body and shifted there.
fn write(part: &Node, own: u32, bodies: &[Node]) -> Node {
    match kind(part.0) {
        PATTERN => {
            let k = part.1.len() as u32;
            let children: Vec<Node> = part.1.iter().map(|c| write(c, own, bodies)).collect();
            map(&bodies[id(part.0) as usize], 0, &mut |i, e| {
                if i <= e {
                    var(i)
                } else if i <= e + k {
                    shift(&children[(i - e - 1) as usize], e)
                } else {
                    var(i - k + own)
                }
            })
        }
        VARIABLE => part.clone(),
        _ => {
            let inner = own + u32::from(part.0 == LAMBDA);
            Node(part.0, part.1.iter().map(|c| write(c, inner, bodies)).collect())
        }
    }
}

/// Whether a node is a term by size, nesting and ids.
fn is_term(n: &Node) -> Option<Vec<u32>> {
    let mut words = Vec::new();
    flat(n, &mut words);
    // An id over 65,535 has run into the count's bits.
    (check_term(&words).number == 0).then_some(words)
}

/// The written part with the arguments set aside at its end: 18 if it can't
/// take them.
fn with_aside(new: Node, part: &[u32], aside: u32) -> Result<Node, Answer> {
    if aside == 0 {
        return Ok(new);
    }
    let sum = new.1.len() as u32 + aside;
    if kind(new.0) != SYMBOL || sum > 15 {
        return Err(Answer { number: 18, at: aside });
    }
    let arguments = node(part).1;
    let kept = arguments.len() - aside as usize;
    Ok(Node(symbol(id(new.0), sum), [new.1, arguments[kept..].to_vec()].concat()))
}

/// One step by the definitions: the lowest offset, the lowest rule.
fn plain_step(words: &[u32], term: &[u32]) -> Option<Result<Vec<u32>, Answer>> {
    let too_large = Answer { number: 15, at: 0 };
    let book = book::read(words).unwrap();
    let laid = Laid::of(term);
    for at in 0..term.len() {
        let part = &term[at..laid.end[at]];
        for (n, rule) in book.rules.iter().enumerate() {
            let (mut bodies, mut lengths) = (vec![0; part.len()], [0; 16]);
            let (answer, aside) = match_rule(words, n as u32, part, &mut bodies, &mut lengths);
            if answer.number != 0 {
                continue;
            }
            let mut rest = &bodies[..];
            let mut nodes = Vec::new();
            for &length in &lengths[..rule.vars] {
                nodes.push(node(&rest[..length as usize]));
                rest = &rest[length as usize..];
            }
            let new = write(&node(&rule.right.words), 0, &nodes);
            let new = match with_aside(new, part, aside) {
                Ok(new) => new,
                Err(answer) => return Some(Err(answer)),
            };
            let Some(new) = is_term(&new) else {
                return Some(Err(too_large));
            };
            let whole = [&term[..at], &new, &term[laid.end[at]..]].concat();
            return Some(if check_term(&whole).number == 0 { Ok(whole) } else { Err(too_large) });
        }
    }
    None
}

#[test]
fn simplifying_is_the_steps_of_the_definition() {
    let mut answers = std::collections::BTreeMap::new();
    let mut steps_made = 0;
    for seed in 0..rounds(3_000) {
        let mut rng = Rng::new(seed);
        let a = gen::alphabet(&mut rng);
        let (words, mut term);
        if rng.chance(1, 10) {
            let case = gen::growth_case(&mut rng);
            (words, term) = (case.book, case.term);
        } else if rng.chance(1, 3) {
            let (rules, made) = gen::aside_rules(&mut rng);
            (words, term) = (gen::book_words(&rules), made);
        } else {
            words = gen::book(&mut rng, &a);
            term = gen::planted(&mut rng, &a, &words);
        }
        let most = if rng.chance(1, 8) { 3_000 } else { 300 };
        if check_term(&term).number != 0 || term.len() > most {
            continue;
        }
        let mut tree = vec![0; 16_384];
        if compile(&words, &mut tree).number != 0 {
            continue;
        }
        let budget = rng.below(12) as u16;
        let mut out = vec![1; 4_096];
        let (answer, steps) = simplify(&words, &tree, &term, budget, &mut out);

        // The first step alone, where it is at the root.
        let mut root = vec![1; 4_096];
        let root_answer = rewrite_root(&words, &tree, &term, &mut root);

        let mut made = 0;
        let reached = |number| Answer { number, at: 0 };
        let expected = loop {
            match plain_step(&words, &term) {
                None => break reached(0),
                Some(_) if made == u32::from(budget) => break reached(2),
                Some(Err(refused)) => {
                    if made == 0 && ![1, 15].contains(&root_answer.number) {
                        assert_eq!(root_answer, refused, "seed {seed}");
                    }
                    break refused;
                }
                Some(Ok(new)) => {
                    if made == 0 && root_answer.number == 0 {
                        assert_eq!(result(&root), new, "seed {seed}");
                    }
                    term = new;
                    made += 1;
                }
            }
        };
        assert_eq!((answer, steps), (expected, made), "seed {seed}");
        if expected.number >= 10 {
            assert!(zero(&out));
        } else {
            assert_eq!(out[..term.len()], term, "seed {seed}");
            assert!(zero(&out[term.len()..]));
        }
        *answers.entry(expected.number).or_insert(0) += 1;
        steps_made += made;
    }
    println!("answers {answers:?}, {steps_made} steps");
}

#[test]
fn texts_come_back() {
    let mut answers = std::collections::BTreeMap::new();
    for seed in 0..rounds(10_000) {
        let mut rng = Rng::new(seed);
        let a = gen::alphabet(&mut rng);
        let words = gen::book(&mut rng, &a);
        let mut text = vec![1; 70_000];
        assert_eq!(write_book(&words, &mut text).number, 0);
        let end = text.iter().position(|&b| b == 0).unwrap();
        let mut back = vec![1; words.len()];
        assert_eq!(read_book(&text[..end], &mut back).number, 0);
        assert_eq!(back, words);

        // One meaning has one text: what is read is written as it was.
        let text = gen::any_book_text(&mut rng, &a);
        let mut words = vec![1; 9_000];
        let answer = read_book(&text, &mut words);
        *answers.entry(("book", answer.number)).or_insert(0) += 1;
        if answer.number == 0 {
            let length = (1..).find(|&n| check_book(&words[..n]).number == 0).unwrap();
            let mut again = vec![1; text.len()];
            assert_eq!(write_book(&words[..length], &mut again).number, 0);
            assert_eq!(again, text);
        } else {
            assert!(zero(&words));
        }
        let text = gen::any_term_text(&mut rng, &a);
        let mut words = vec![1; 4_097];
        let answer = read_term(&text, &mut words);
        *answers.entry(("term", answer.number)).or_insert(0) += 1;
        if answer.number == 0 {
            let mut again = vec![1; text.len()];
            assert_eq!(write_term(&result(&words), &mut again).number, 0);
            assert_eq!(again, text);
        } else {
            assert!(zero(&words));
        }
    }
    println!("{answers:?}");
}

#[test]
fn the_program_is_its_parts() {
    let mut answers = std::collections::BTreeMap::new();
    for seed in 0..rounds(2_000) {
        let mut rng = Rng::new(seed);
        let file = gen::any_file(&mut rng);
        let printed = String::from_utf8(run_file(&file)).unwrap();
        if let Some(rest) = printed.strip_prefix("answer=") {
            let number: u32 = rest.lines().next().unwrap().parse().unwrap();
            assert_eq!(printed.lines().count(), 2);
            *answers.entry(("file", number)).or_insert(0) += 1;
            continue;
        }
        let text = std::str::from_utf8(&file).unwrap();
        let split = text.find("term=").unwrap_or(text.len());
        let mut words = vec![0; 9_000];
        assert_eq!(read_book(&file[..split], &mut words).number, 0);
        let length = (1..).find(|&n| check_book(&words[..n]).number == 0).unwrap();
        words.truncate(length);
        let tree = gen::compiled(&words);
        let mut expected = format!("book=1\nrules={}\ntree={}\n", words[0], tree.len());
        for (n, line) in text[split..].lines().enumerate() {
            let mut term = vec![0; 4_096];
            let line = format!("{}\n", &line[5..]);
            let mut answer = read_term(line.as_bytes(), &mut term);
            let mut steps = 0;
            let mut shown = "-".to_string();
            if answer.number == 0 {
                let mut out = vec![0; 4_096];
                (answer, steps) = simplify(&words, &tree, &result(&term), 1_000, &mut out);
                if answer.number < 10 {
                    let mut bytes = vec![0; 40_000];
                    write_term(&result(&out), &mut bytes);
                    let end = bytes.iter().position(|&b| b == b'\n').unwrap();
                    shown = String::from_utf8(bytes[..end].to_vec()).unwrap();
                }
            }
            *answers.entry(("term", answer.number)).or_insert(0) += 1;
            expected += &format!("term={n}\nanswer={}\nsteps={steps}\nresult={shown}\n", answer.number);
        }
        assert_eq!(printed, expected, "seed {seed}");
    }
    println!("{answers:?}");
}

/// No input makes an operation stop; refusals clear every output, and only
/// the answers listed for an operation are given.
#[test]
fn every_operation_on_anything() {
    let mut answers = std::collections::BTreeMap::new();
    let mut seen = |name: &'static str, answer: Answer, allowed: &[u32], clear: bool| {
        *answers.entry((name, answer.number)).or_insert(0u64) += 1;
        assert!(allowed.contains(&answer.number), "{name} {answer:?}");
        if ![10, 11, 12, 14, 16, 18].contains(&answer.number) {
            assert_eq!(answer.at, 0);
        }
        if answer.number == 1 || answer.number >= 10 {
            assert!(clear, "{name} {answer:?}");
        }
    };
    for seed in 0..rounds(10_000) {
        let mut rng = Rng::new(seed);
        seen("check_term", check_term(&gen::check_term_case(&mut rng)), &[0, 11], true);
        seen("check_book", check_book(&gen::check_book_case(&mut rng)), &[0, 12], true);

        let c = gen::match_rule_case(&mut rng);
        let (mut bodies, mut lengths) = (vec![1; c.bodies_length], [1; 16]);
        let (answer, aside) = match_rule(&c.book, c.number, &c.term, &mut bodies, &mut lengths);
        assert!(aside == 0 || answer.number == 0);
        seen("match_rule", answer, &[0, 1, 11, 12, 13, 16], zero(&bodies) && zero(&lengths));

        let c = gen::build_left_case(&mut rng);
        let mut out = vec![1; c.out_length];
        let answer = build_left(&c.book, c.number, &c.bodies, &c.lengths, &mut out);
        seen("build_left", answer, &[0, 11, 12, 13, 15, 16], zero(&out));

        let c = gen::compile_case(&mut rng);
        let mut out = vec![1; c.out_length];
        let answer = compile(&c.book, &mut out);
        seen("compile", answer, &[0, 12, 13], zero(&out));

        let c = gen::match_tree_case(&mut rng);
        let (mut bodies, mut lengths) = (vec![1; c.bodies_length], [1; 16]);
        let (answer, rule, aside) = match_tree(&c.tree, &c.term, &mut bodies, &mut lengths);
        assert!(answer.number == 0 || (rule, aside) == (0, 0));
        seen("match_tree", answer, &[0, 1, 11, 13, 14], zero(&bodies) && zero(&lengths));

        let c = if rng.chance(1, 5) { gen::growth_case(&mut rng) } else { gen::rewrite_case(&mut rng) };
        let mut out = vec![1; c.out_length];
        let answer = rewrite_root(&c.book, &c.tree, &c.term, &mut out);
        seen("rewrite_root", answer, &[0, 1, 11, 12, 13, 14, 15, 18], zero(&out));
        let mut out = vec![1; c.out_length];
        let (answer, steps) = simplify(&c.book, &c.tree, &c.term, c.budget, &mut out);
        assert!(steps <= u32::from(c.budget));
        assert!(answer.number != 2 || steps == u32::from(c.budget));
        seen("simplify", answer, &[0, 2, 11, 12, 13, 14, 15, 18], zero(&out));

        // Words and bytes with no form at all.
        let noise: Vec<u32> = (0..rng.below(30)).map(|_| gen::odd_word(&mut rng)).collect();
        let small: Vec<u32> = (0..rng.below(30)).map(|_| rng.below(6) as u32).collect();
        let bytes: Vec<u8> = (0..rng.below(30)).map(|_| rng.next() as u8).collect();
        let mut l = [0; 16];
        match_tree(&small, &noise, &mut [0; 9], &mut l);
        match_tree(&small, &[symbol(3, 1), LAMBDA, variable(1)], &mut [0; 9], &mut l);
        simplify(&[0], &small, &[symbol(3, 1), LAMBDA, variable(1)], 9, &mut [0; 9]);
        check_book(&noise);
        read_book(&bytes, &mut [0; 9]);
        run_file(&bytes);
    }
    for ((name, number), times) in answers {
        println!("{name:>12} {number:>2}: {times}");
    }
}

/// The compiler once more, plainly: rows hold patterns at places, and the tree
/// is built by recursion before it is laid out.
mod plain_compiler {
    use super::*;

    #[derive(Clone)]
    struct Row {
        rule: u32,
        vars: u32,
        /// For each place its pattern, or None below a pattern variable.
        at: Vec<Option<Node>>,
        entered: Vec<bool>,
        /// Tags of occurrences (numbers in prefix order) with their lists.
        tests: Vec<Plain>,
        aside: u32,
    }

    /// Occurrences are tagged by their prefix number in the pattern's words.
    #[derive(Clone, PartialEq, Debug)]
    enum Plain {
        Closed(u32),
        Same(u32, u32),
    }

    /// Gives the nth pattern variable in prefix order the tag n in its word's
    /// top bits; words in this module are 32 bits with kinds up to 3.
    fn tag(n: &mut Node, next: &mut u32) {
        if kind(n.0) == PATTERN {
            n.0 += *next << 26;
            *next += 1;
            return;
        }
        for c in &mut n.1 {
            tag(c, next);
        }
    }

    fn is_pattern(n: &Node) -> bool {
        kind(n.0) % 4 == PATTERN
    }

    fn tag_of(n: &Node) -> u32 {
        n.0 >> 26
    }

    fn id_of(n: &Node) -> u32 {
        id(n.0)
    }

    fn list_of(n: &Node) -> Vec<u32> {
        n.1.iter().map(|c| id(c.0)).collect()
    }

    fn occurrences(n: &Node, d: u32, out: &mut Vec<(Node, u32)>) {
        if is_pattern(n) {
            out.push((n.clone(), d));
            return;
        }
        let inner = d + u32::from(n.0 == LAMBDA);
        for c in &n.1 {
            occurrences(c, inner, out);
        }
    }

    impl Row {
        fn place(&self, t: u32) -> Option<(u32, Vec<u32>)> {
            let p = self.at.iter().position(|n| {
                n.as_ref().is_some_and(|n| is_pattern(n) && tag_of(n) == t)
            })?;
            Some((p as u32, list_of(self.at[p].as_ref().unwrap())))
        }

        /// The test in places: what is written into the node.
        fn written(&self, t: &Plain) -> Option<Vec<u32>> {
            Some(match t {
                Plain::Closed(n) => {
                    let (p, list) = self.place(*n)?;
                    [vec![3, p, list.len() as u32], list].concat()
                }
                Plain::Same(a, b) => {
                    let ((p, one), (q, two)) = (self.place(*a)?, self.place(*b)?);
                    [vec![4, p, q, one.len() as u32], one, two].concat()
                }
            })
        }
    }

    fn same(a: &[u32], b: &[u32]) -> bool {
        if a[0] == 3 && b[0] == 3 {
            let (mut x, mut y) = (a[3..].to_vec(), b[3..].to_vec());
            x.sort();
            y.sort();
            return a[1] == b[1] && x == y;
        }
        a == b
    }

    /// The cases of the root: by symbol, then by count up to 15.
    fn all_counts(heads: &[u32]) -> Vec<u32> {
        let mut ids: Vec<u32> = Vec::new();
        for &h in heads {
            if !ids.contains(&id(h)) {
                ids.push(id(h));
            }
        }
        let mut all = Vec::new();
        for i in ids {
            let least = heads.iter().filter(|&&h| id(h) == i).map(|&h| count(h)).min().unwrap();
            for c in least..16 {
                all.push(symbol(i, c));
            }
        }
        all
    }

    enum Tree {
        /// A node's words and, by the word to hold the address, its subtrees.
        Inner(Vec<u32>, Vec<(usize, Tree)>),
    }

    fn tree(rows: Vec<Row>, room: &mut i64) -> Option<Tree> {
        let Some(first) = rows.first() else {
            *room -= 1;
            return (*room >= 0).then_some(Tree::Inner(vec![0], Vec::new()));
        };
        let open = |r: &Row, p: usize| !r.entered[p] && r.at[p].as_ref().is_some_and(|n| !is_pattern(n));
        let mut words;
        let mut subtrees = Vec::new();
        if let Some(p) = (0..first.at.len()).find(|&p| open(first, p)) {
            let mut heads: Vec<u32> = Vec::new();
            for r in &rows {
                if open(r, p) && !heads.contains(&r.at[p].as_ref().unwrap().0) {
                    heads.push(r.at[p].as_ref().unwrap().0);
                }
            }
            if p == 0 {
                heads = all_counts(&heads);
            }
            words = vec![2, p as u32, heads.len() as u32];
            let without: Vec<Row> = rows.iter().filter(|r| !open(r, p)).cloned().collect();
            for &h in &heads {
                let mut case = Vec::new();
                for r in &rows {
                    let mut new = r.clone();
                    if open(r, p) {
                        let n = r.at[p].clone().unwrap();
                        let front = p == 0 && id(n.0) == id(h) && count(n.0) < count(h);
                        if n.0 != h && !front {
                            continue;
                        }
                        new.aside += count(h) - count(n.0);
                        new.at.extend(n.1.into_iter().map(Some));
                    }
                    let places = r.at.len() + count(h) as usize;
                    new.at.resize(places, None);
                    new.entered[p] = true;
                    new.entered.resize(new.at.len(), false);
                    case.push(new);
                }
                words.extend([h, 0]);
                subtrees.push((words.len() - 1, case));
            }
            words.push(0);
            subtrees.push((words.len() - 1, without));
        } else if let Some(t) = first.tests.first() {
            let t = first.written(t).unwrap();
            words = t.clone();
            let has = |r: &Row, c: &Plain| r.written(c).is_some_and(|w| same(&w, &t));
            let no = rows.iter().filter(|r| !r.tests.iter().any(|c| has(r, c))).cloned().collect();
            let mut yes = rows.clone();
            for r in &mut yes {
                let kept = r.tests.iter().filter(|c| !has(r, c)).cloned().collect();
                r.tests = kept;
            }
            words.extend([0, 0]);
            subtrees = vec![(words.len() - 2, yes), (words.len() - 1, no)];
        } else {
            words = vec![1, first.rule, first.vars, first.aside];
            for x in 0..first.vars {
                // First in prefix order is the lowest tag.
                let n = first.at.iter().flatten().filter(|n| is_pattern(n) && id_of(n) == x);
                let t = n.map(tag_of).min().unwrap();
                let (p, list) = first.place(t).unwrap();
                words.extend([p, list.len() as u32]);
                words.extend(list);
            }
        }
        *room -= words.len() as i64;
        if *room < 0 {
            return None;
        }
        let mut made = Vec::new();
        for (at, rows) in subtrees {
            made.push((at, tree(rows, room)?));
        }
        Some(Tree::Inner(words, made))
    }

    fn lay(t: &Tree, out: &mut Vec<u32>) {
        let Tree::Inner(words, subtrees) = t;
        let base = out.len();
        out.extend(words);
        for (at, sub) in subtrees {
            out[base + at] = out.len() as u32;
            lay(sub, out);
        }
    }

    fn compile_plainly(words: &[u32]) -> Option<Vec<u32>> {
        let book = book::read(words).unwrap();
        let mut rows = Vec::new();
        for (n, rule) in book.rules.iter().enumerate() {
            let mut root = node(&rule.left.words);
            tag(&mut root, &mut 0);
            let mut found = Vec::new();
            occurrences(&root, 0, &mut found);
            let mut tests = Vec::new();
            for (o, d) in &found {
                if o.1.len() as u32 != *d {
                    tests.push(Plain::Closed(tag_of(o)));
                }
            }
            for (at, (o, _)) in found.iter().enumerate() {
                if let Some((f, _)) = found[..at].iter().find(|(f, _)| id_of(f) == id_of(o)) {
                    tests.push(Plain::Same(tag_of(f), tag_of(o)));
                }
            }
            rows.push(Row {
                rule: n as u32,
                vars: rule.vars as u32,
                at: vec![Some(root)],
                entered: vec![false],
                tests,
                aside: 0,
            });
        }
        let t = tree(rows, &mut 16_384)?;
        let mut out = Vec::new();
        lay(&t, &mut out);
        Some(out)
    }

    #[test]
    fn both_compilers_agree() {
        let (mut done, mut over, mut tests) = (0, 0, 0);
        for seed in 0..rounds(5_000) {
            let mut rng = Rng::new(seed);
            let a = gen::alphabet(&mut rng);
            let words = match rng.below(20) {
                0 => {
                    let n = rng.from_to(5, 64);
                    gen::book_words(&gen::rules(&mut rng, &a, n))
                }
                1 => gen::large_book(&mut rng, &a),
                _ => gen::book(&mut rng, &a),
            };
            let mut out = vec![1; 16_384];
            let answer = compile(&words, &mut out);
            match compile_plainly(&words) {
                None => {
                    assert_eq!(answer.number, 13, "seed {seed}");
                    assert!(zero(&out));
                    over += 1;
                }
                Some(plain) => {
                    assert_eq!(answer.number, 0, "seed {seed}");
                    assert_eq!(out[..plain.len()], plain, "seed {seed}");
                    assert!(zero(&out[plain.len()..]));
                    let mut exact = vec![1; plain.len()];
                    assert_eq!(compile(&words, &mut exact).number, 0);
                    let mut short = vec![1; plain.len() - 1];
                    assert_eq!(compile(&words, &mut short).number, 13);
                    done += 1;
                    tests += u64::from(plain.len() > 100);
                }
            }
        }
        println!("{done} trees ({tests} over 100 words), {over} over their size");
    }
}
