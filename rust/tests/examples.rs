//! Document 01's examples through the safe functions.

use rosenduch::{raw, Answer, Match, Refused, Rewritten, TreeMatch, CANNOT_TAKE};

const BOOK_A: &str = "book=1\nrules=3\n\
    rule=0\nvars=1\nleft=s2.2 m0.0 m0.0\nright=m0.0\n\
    rule=1\nvars=1\nleft=s3.1 l m0.0\nright=m0.0\n\
    rule=2\nvars=1\nleft=s3.1 l s4.1 m0.1 v1\nright=s4.1 s3.1 l m0.1 v1\n";

/// Enough for every call; a thread of the test runner has less.
const STACK: usize = 8 << 20;

fn with_stack(test: fn() -> Result<(), Refused>) {
    let run = std::thread::Builder::new().stack_size(STACK).spawn(test).unwrap();
    run.join().unwrap().unwrap();
}

fn term(text: &str) -> Result<Vec<u32>, Refused> {
    rosenduch::read_term(format!("{text}\n"))
}

#[test]
fn book_a_simplifies_both_terms() {
    with_stack(|| {
        let book = rosenduch::read_book(BOOK_A)?;
        let tree = rosenduch::compile(&book)?;
        assert_eq!(tree.len(), 725);
        assert_eq!(tree[..5], [2, 0, 29, 131_074, 62]);
        // 3 and 4, then 3, then 2. 5, then 2 and 5, then 2, 2, 5, 2 and 2.
        for (from, to, visits) in [("s2.2 s3.1 l s7.0 s7.0", "s7.0\n", 12), ("s3.1 l s4.1 s4.1 v1", "s4.1 s4.1 s3.1 l v1\n", 25)] {
            let done = rosenduch::simplify(&book, &tree, &term(from)?, 1_000)?;
            assert_eq!((done.steps, done.visits, done.budget_used), (2, visits, false));
            assert_eq!(rosenduch::write_term(&done.term)?, to);
        }
        Ok(())
    });
}

#[test]
fn text_is_read_and_written() {
    with_stack(|| {
        let book = rosenduch::read_book(BOOK_A)?;
        assert_eq!(rosenduch::check_book(&book), Ok(()));
        assert_eq!(rosenduch::write_book(&book)?, BOOK_A);
        Ok(())
    });
}

#[test]
fn a_sound_book_is_repaired_to_itself() {
    with_stack(|| {
        let repaired = rosenduch::repair_book(BOOK_A)?;
        assert_eq!(repaired, format!("{BOOK_A}kept=0 0\nkept=1 1\nkept=2 2\n"));
        Ok(())
    });
}

#[test]
fn a_bad_rule_is_left_out() {
    with_stack(|| {
        // Rule 1 names an abstraction that is not there.
        let bad = BOOK_A.replace("left=s3.1 l m0.0", "left=s3.1 m0.1 v1").replace("rules=3", "rules=4");
        let repaired = rosenduch::repair_book(&bad)?;
        let book = repaired.split_once("kept=").map_or("", |(book, _)| book);
        assert_eq!(rosenduch::write_book(&rosenduch::read_book(book)?)?, book);
        assert!(repaired.ends_with("kept=0 0\ndropped=1\nkept=2 1\nrules-was=4\n"));
        Ok(())
    });
}

#[test]
fn marked_matches_of_book_a() {
    with_stack(|| {
        let book = rosenduch::read_book(BOOK_A)?;
        let tree = rosenduch::compile(&book)?;
        for (of, rule, body, visits) in [
            ("s2.2 s7.0 s7.0", 0, "s7.0", 3),
            ("s3.1 l v2", 1, "v1", 4),
            ("s3.1 l s4.1 v1", 2, "v1", 5),
            ("s3.1 l s4.1 s7.0", 1, "s4.1 s7.0", 4),
        ] {
            let of = term(of)?;
            let found = Some(Match { rule, bodies: vec![term(body)?], aside: 0 });
            assert_eq!(rosenduch::match_rule(&book, rule, &of)?, found);
            assert_eq!(rosenduch::match_tree(&tree, &of)?, TreeMatch { found, visits });
            assert_eq!(rosenduch::build_left(&book, rule, &[term(body)?])?, of);
        }
        for (of, visits) in [("s2.2 s7.0 s8.0", 3), ("s3.1 l v1", 5), ("s7.0", 2)] {
            assert_eq!(rosenduch::match_tree(&tree, &term(of)?)?, TreeMatch { found: None, visits });
            assert_eq!(rosenduch::rewrite_root(&book, &tree, &term(of)?)?, Rewritten { term: None, visits });
        }
        Ok(())
    });
}

#[test]
fn a_rule_is_for_a_front_part() {
    with_stack(|| {
        let book = rosenduch::read_book(BOOK_A)?;
        let tree = rosenduch::compile(&book)?;
        let of = term("s2.4 s7.0 s7.0 v1 v2")?;
        let found = Some(Match { rule: 0, bodies: vec![term("s7.0")?], aside: 2 });
        assert_eq!(rosenduch::match_rule(&book, 0, &of)?, found);
        assert_eq!(rosenduch::match_tree(&tree, &of)?, TreeMatch { found, visits: 3 });
        assert_eq!(rosenduch::build_left(&book, 0, &[term("s7.0")?])?, term("s2.2 s7.0 s7.0")?);
        let taken = Some(term("s7.2 v1 v2")?);
        assert_eq!(rosenduch::rewrite_root(&book, &tree, &of)?, Rewritten { term: taken, visits: 3 });
        let refused = rosenduch::rewrite_root(&book, &tree, &term("s2.4 v5 v5 v1 v2")?).unwrap_err();
        assert_eq!(refused, Refused { number: CANNOT_TAKE, at: 2 });
        assert_eq!(refused.to_string(), "what is written cannot take the arguments set aside (number 18, at 2)");
        Ok(())
    });
}

#[test]
fn a_zero_word_is_no_end() {
    with_stack(|| {
        let book = rosenduch::read_book("book=1\nrules=1\nrule=0\nvars=1\nleft=s1.1 m0.0\nright=s2.2 m0.0 s0.0\n")?;
        let tree = rosenduch::compile(&book)?;
        let made = rosenduch::rewrite_root(&book, &tree, &term("s1.1 s0.0")?)?;
        assert_eq!(made.term, Some(term("s2.2 s0.0 s0.0")?));
        Ok(())
    });
}

/// The functions of `raw` tell the nodes visited where a safe one refuses.
#[test]
fn refusals_tell_the_visits() {
    with_stack(|| {
        let book = rosenduch::read_book(BOOK_A)?;
        let tree = rosenduch::compile(&book)?;
        let of = term("s2.4 v5 v5 v1 v2")?;
        let mut out = [0; 8];
        let (answer, visits) = raw::rewrite_root(&book, &tree, &of, &mut out);
        assert_eq!((answer, visits), (Answer { number: CANNOT_TAKE, at: 2 }, 3));
        let (answer, steps, visits) = raw::simplify(&book, &tree, &of, 9, &mut out);
        assert_eq!((answer.number, steps, visits), (CANNOT_TAKE, 0, 3));
        // A tree of no words has a damaged node at 0, and a bad term is not walked over.
        let mut lengths = [0; 16];
        let (answer, _, _, visits) = raw::match_tree(&[], &of, &mut out, &mut lengths);
        assert_eq!((answer, visits), (Answer { number: 14, at: 0 }, 1));
        let (answer, _, _, visits) = raw::match_tree(&tree, &[], &mut out, &mut lengths);
        assert_eq!((answer, visits), (Answer { number: 11, at: 0 }, 0));
        Ok(())
    });
}

#[test]
fn refusals_have_number_and_place() {
    with_stack(|| {
        assert_eq!(rosenduch::check_term(&[]), Err(Refused { number: 11, at: 0 }));
        assert_eq!(rosenduch::check_book(&[]), Err(Refused { number: 12, at: 0 }));
        assert_eq!(rosenduch::read_term("s7.0"), Err(Refused { number: 10, at: 1 }));
        assert_eq!(rosenduch::repair_book("book=1\nrules=1\nrule=0\n"), Err(Refused { number: 10, at: 4 }));
        let book = rosenduch::read_book(BOOK_A)?;
        let refused = rosenduch::match_rule(&book, 3, &[]).unwrap_err();
        assert_eq!(refused, Refused { number: 16, at: 3 });
        assert_eq!(refused.to_string(), "no such rule (number 16, at 3)");
        let many = vec![vec![7]; 17];
        let refused = rosenduch::build_left(&book, 0, &many).unwrap_err();
        assert_eq!(refused, Refused { number: 11, at: 16 });
        Ok(())
    });
}
