//! Repairing a book (E1): the edges, worked out from the documents, and random
//! texts against a plainer definition. SECOND_ROUNDS multiplies the rounds.

use second::gen_repair::{flawed, repair_text, text_of_kind, Flaw, Kind};
use second::*;
use std::collections::BTreeMap;

fn a(number: u32, at: u32) -> Answer {
    Answer { number, at }
}

/// The output without the zeros after it; no text has a zero byte.
fn repaired(text: &str) -> Result<String, Answer> {
    let mut out = vec![9; 100_000];
    let answer = repair_book(text.as_bytes(), &mut out);
    let length = out.iter().position(|&b| b == 0).unwrap();
    assert!(out[length..].iter().all(|&b| b == 0));
    if answer.number != 0 {
        assert_eq!(length, 0);
        return Err(answer);
    }
    assert_eq!(answer.at, 0);
    out.truncate(length);
    Ok(String::from_utf8(out).unwrap())
}

/// The lines of a rule after `rule=`.
fn body(vars: u32, left: &str, right: &str) -> String {
    format!("vars={vars}\nleft={left}\nright={right}\n")
}

fn sound(n: usize) -> String {
    body(0, &format!("s{n}.0"), "s7.0")
}

/// The text of a book that gives its rules these numbers.
fn numbered(stated: usize, rules: &[(usize, String)]) -> String {
    let mut text = format!("book=1\nrules={stated}\n");
    for (number, rule) in rules {
        text += &format!("rule={number}\n{rule}");
    }
    text
}

fn book(rules: &[String]) -> String {
    let rules: Vec<_> = rules.iter().cloned().enumerate().collect();
    numbered(rules.len(), &rules)
}

/// The lines for rules from `old` on that become those from `new` on.
fn kept(old: usize, new: usize, many: usize) -> String {
    (0..many).map(|n| format!("kept={} {}\n", old + n, new + n)).collect()
}

const BOOK_A: &str = "book=1\nrules=3\nrule=0\nvars=1\nleft=s2.2 m0.0 m0.0\nright=m0.0\n\
rule=1\nvars=1\nleft=s3.1 l m0.0\nright=m0.0\n\
rule=2\nvars=1\nleft=s3.1 l s4.1 m0.1 v1\nright=s4.1 s3.1 l m0.1 v1\n";

#[test]
fn a_sound_book_comes_back() {
    assert_eq!(repaired(BOOK_A), Ok(format!("{BOOK_A}kept=0 0\nkept=1 1\nkept=2 2\n")));
    let empty = "book=1\nrules=0\n";
    assert_eq!(repaired(empty), Ok(empty.to_string()));
}

#[test]
fn bad_rules_and_wrong_numbers() {
    let text = "book=1\nrules=2\n\
rule=7\nvars=0\nleft=s1.0\nright=s7.0\n\
rule=7\nvars=1\nleft=s2.0\nright=s7.0\n\
rule=0\nvars=0\nleft=s3.0\nright=v1\n\
rule=65535\nvars=1\nleft=s3.1 m0.0\nright=m0.0\n";
    // Four rules are present; that two are left has no bearing on rules=.
    let new = "book=1\nrules=2\n\
rule=0\nvars=0\nleft=s1.0\nright=s7.0\n\
rule=1\nvars=1\nleft=s3.1 m0.0\nright=m0.0\n\
kept=0 0\ndropped=1\ndropped=2\nkept=3 1\nrules-was=2\n";
    assert_eq!(repaired(text), Ok(new.to_string()));
    let right = text.replace("rules=2", "rules=4");
    assert_eq!(repaired(&right), Ok(new.replace("rules-was=2\n", "")));
}

#[test]
fn sixty_four_and_sixty_five() {
    let rules: Vec<String> = (0..65).map(sound).collect();
    let first = book(&rules[..64]);
    let all = kept(0, 0, 64);
    assert_eq!(repaired(&first), Ok(format!("{first}{all}")));
    assert_eq!(repaired(&book(&rules)), Ok(format!("{first}{all}dropped=64\n")));
    // 65 rules under rules=64: the number of the new book, but not of the old.
    let text = book(&rules).replace("rules=65", "rules=64");
    assert_eq!(repaired(&text), Ok(format!("{first}{all}dropped=64\nrules-was=64\n")));
    let text = first.replace("rules=64", "rules=65");
    assert_eq!(repaired(&text), Ok(format!("{first}{all}rules-was=65\n")));
}

#[test]
fn bad_rules_around_sixty_four_sound_ones() {
    let bad = body(1, "s1.0", "s7.0");
    let rules: Vec<String> = (0..64).map(sound).collect();
    let new = book(&rules);
    let before = [vec![bad.clone()], rules.clone()].concat();
    assert_eq!(repaired(&book(&before)), Ok(format!("{new}dropped=0\n{}", kept(1, 0, 64))));
    let after = [rules.clone(), vec![bad.clone(), sound(9)]].concat();
    let lines = format!("{}dropped=64\ndropped=65\n", kept(0, 0, 64));
    assert_eq!(repaired(&book(&after)), Ok(format!("{new}{lines}")));
    // Inside: 63, the bad one, the 64th, and one too many.
    let inside = [&rules[..63], &[bad], &rules[63..], &[sound(9)]].concat();
    let lines = format!("{}dropped=63\nkept=64 63\ndropped=65\n", kept(0, 0, 63));
    assert_eq!(repaired(&book(&inside)), Ok(format!("{new}{lines}")));
}

#[test]
fn none_sound_and_no_rule() {
    let bad = body(0, "l", "l");
    let none = "book=1\nrules=0\n";
    let text = book(&[bad.clone(), bad.clone()]);
    assert_eq!(repaired(&text), Ok(format!("{none}dropped=0\ndropped=1\n")));
    let text = text.replace("rules=2", "rules=0");
    assert_eq!(repaired(&text), Ok(format!("{none}dropped=0\ndropped=1\nrules-was=0\n")));
    assert_eq!(repaired("book=1\nrules=1\n"), Ok(format!("{none}rules-was=1\n")));
    assert_eq!(repaired("book=1\nrules=65535\n"), Ok(format!("{none}rules-was=65535\n")));
    assert_eq!(repaired("book=1\nrules=65536\n"), Err(a(10, 2)));
}

#[test]
fn stated_numbers() {
    let one = book(&[sound(1)]);
    let stated = |rules: &str, rule: &str| {
        repaired(&one.replace("rules=1", &format!("rules={rules}")).replace("rule=0", rule))
    };
    let new = format!("{one}kept=0 0\n");
    assert_eq!(stated("1", "rule=0"), Ok(new.clone()));
    assert_eq!(stated("0", "rule=0"), Ok(format!("{new}rules-was=0\n")));
    assert_eq!(stated("65535", "rule=0"), Ok(format!("{new}rules-was=65535\n")));
    for bad in ["65536", "00", "01", "", "-1", "+1", " 1", "1 ", "100000", "4294967297", "x"] {
        assert_eq!(stated(bad, "rule=0"), Err(a(10, 2)), "{bad}");
        assert_eq!(stated("1", &format!("rule={bad}")), Err(a(10, 3)), "{bad}");
    }
    for good in ["rule=1", "rule=64", "rule=65", "rule=9999", "rule=65534", "rule=65535"] {
        assert_eq!(stated("1", good), Ok(new.clone()));
    }
}

#[test]
fn outputs_exact_and_one_short() {
    // 15 + 7 + 7 + 10 + 11 bytes of the book, then lines of 9, 10 and 12.
    let text = "book=1\nrules=5\nrule=3\nvars=0\nleft=s1.0\nright=s7.0\n\
rule=4\nvars=0\nleft=l\nright=l\n";
    let new = "book=1\nrules=1\nrule=0\nvars=0\nleft=s1.0\nright=s7.0\n\
kept=0 0\ndropped=1\nrules-was=5\n";
    assert_eq!(new.len(), 50 + 9 + 10 + 12);
    let mut out = vec![9; 82];
    assert_eq!(repair_book(text.as_bytes(), &mut out), a(0, 0));
    assert_eq!(out, [new.as_bytes(), &[0]].concat());
    out.fill(9);
    assert_eq!(repair_book(text.as_bytes(), &mut out[..81]), a(0, 0));
    assert_eq!(out, [new.as_bytes(), &[9]].concat());
    out.fill(9);
    assert_eq!(repair_book(text.as_bytes(), &mut out[..80]), a(13, 0));
    assert_eq!(out, [vec![0; 80], vec![9; 2]].concat());
    // Form is judged before room, and lent bytes are zero then too.
    out.fill(9);
    assert_eq!(repair_book(&text.as_bytes()[..text.len() - 1], &mut out), a(10, 10));
    assert_eq!(out, [0; 82]);
    assert_eq!(repair_book(b"book=1\nrules=x\n", &mut []), a(10, 2));
    assert_eq!(repair_book(b"book=1\nrules=0\n", &mut []), a(13, 0));
}

/// A side of 64 words and 500 bytes less `shorter`.
fn long_side(shorter: usize) -> String {
    let nodes = ["s0.15", "s0.15", "s0.15", "s0.15", "s0.3"];
    let leaves = [vec!["s100.0"; shorter], vec!["s1000.0"; 59 - shorter]].concat();
    let side = [nodes.to_vec(), leaves].concat().join(" ");
    assert_eq!(side.len(), 500 - shorter);
    side
}

/// 64 rules all called 0, `longer` of them with 996 bytes in their sides and
/// the others with 995.
fn called_zero(longer: usize) -> String {
    let rule = |n| (0, body(0, &long_side(0), &long_side(if n < longer { 4 } else { 5 })));
    numbered(64, &(0..64).map(rule).collect::<Vec<_>>())
}

#[test]
fn a_new_text_over_its_size() {
    // 16 bytes before the rules, 27 in each beside its sides: 64 x 27 + 64 x
    // 995 + 58 = 65,466. The numbers 10 to 63 then take 54 bytes more.
    let text = called_zero(58);
    assert_eq!(text.len(), 65_482);
    let new = repaired(&text).unwrap();
    let lines = kept(0, 0, 64);
    assert_eq!((lines.len(), new.len()), (684, 65_536 + 684));
    assert!(new.ends_with(&lines));
    let new = &new[..65_536];
    assert_eq!(repaired(new), Ok(format!("{new}{lines}")));
    assert_eq!(read_book(new.as_bytes(), &mut vec![0; 9_000]), a(0, 0));
    let mut out = vec![9; 66_220];
    assert_eq!(repair_book(text.as_bytes(), &mut out), a(0, 0));
    assert_eq!(repair_book(text.as_bytes(), &mut out[..66_219]), a(13, 0));
    assert!(out[..66_219].iter().all(|&b| b == 0));
    // One byte more.
    let text = called_zero(59);
    assert_eq!(text.len(), 65_483);
    assert_eq!(repaired(&text), Err(a(13, 0)));
    assert_eq!(repair_file(text.as_bytes()), b"answer=13\nat=0\n");
    // With a bad rule first, the text is shorter by that rule.
    let bad = text.replacen("vars=0", "vars=1", 1);
    assert!(repaired(&bad).unwrap().contains("rules=63\n"));
    // A bad line comes before, and so does the size of the text itself.
    assert_eq!(repaired(&format!("{text}x\n")), Err(a(10, 259)));
    let over = called_zero(64).replace("s0.3", "s0.03");
    assert_eq!(over.len(), 65_616);
    assert_eq!(repaired(&over), Err(a(10, 0)));
}

#[test]
fn the_form_of_lines() {
    assert_eq!(repaired(&"x".repeat(65_537)), Err(a(10, 0)));
    assert_eq!(repaired(&"x".repeat(65_536)), Err(a(10, 1)));
    let text = book(&[sound(1), body(0, "l", "l")]);
    // Cut at every byte: whole after rules= and after each right=.
    for length in 0..text.len() {
        let part = &text[..length];
        let lines = part.matches('\n').count() as u32;
        let whole = part.ends_with('\n') && [2, 6].contains(&lines);
        match repaired(part) {
            Ok(new) => assert!(whole && new.ends_with("rules-was=2\n"), "{length}"),
            Err(answer) => assert_eq!((answer, whole), (a(10, lines + 1), false), "{length}"),
        }
    }
    for more in ["\n", "x\n", "rule=2", "rules=2\n", "term=s7.0\n", "vars=0\n", "book=1\n", " "] {
        assert_eq!(repaired(&format!("{text}{more}")), Err(a(10, 11)), "{more}");
    }
    let side = |n: usize| ["s7.0"; 65][..n].join(" ");
    // The line that is changed, its bad form, and its number.
    let table = [
        ("book=1\n", "book=2\n".to_string(), 1),
        ("book=1\n", "book=1 \n".to_string(), 1),
        ("book=1\n", "\n".to_string(), 1),
        ("book=1\n", "book=1\r\n".to_string(), 1),
        ("rule=0\n", "rule=65536\n".to_string(), 3),
        ("rule=0\n", "".to_string(), 3),
        ("rule=0\n", "rule=0\nrule=0\n".to_string(), 4),
        ("vars=0\nleft=s1.0\n", "vars=17\nleft=s1.0\n".to_string(), 4),
        ("vars=0\nleft=s1.0\n", "left=s1.0\nvars=0\n".to_string(), 4),
        ("left=s1.0\n", format!("left={}\n", side(65)), 5),
        ("left=s1.0\n", "left=\n".to_string(), 5),
        ("left=s1.0\n", "left=s1024.0\n".to_string(), 5),
        ("left=s1.0\n", "left=s1.16\n".to_string(), 5),
        ("left=s1.0\n", "left=m16.0\n".to_string(), 5),
        ("left=s1.0\n", "left=m0.5\n".to_string(), 5),
        ("left=s1.0\n", "left=v0\n".to_string(), 5),
        ("left=s1.0\n", "left=v65536\n".to_string(), 5),
        ("left=s1.0\n", "left=s1.0 \n".to_string(), 5),
        ("right=s7.0\n", format!("right={}\n", side(65)), 6),
        ("right=s7.0\n", "right=s7.0  s7.0\n".to_string(), 6),
        ("right=l\n", "right=L\n".to_string(), 10),
    ];
    for (line, bad, at) in table {
        assert_eq!(repaired(&text.replacen(line, &bad, 1)), Err(a(10, at)), "{bad}");
    }
    // In form, though no rule: what is left breaks the book rules only.
    for (line, other) in [
        ("vars=0\nleft=s1.0\n", "vars=16\nleft=s1.0\n".to_string()),
        ("left=s1.0\n", format!("left={}\n", side(64))),
        ("left=s1.0\n", "left=v65535 s1023.15 m15.4 l\n".to_string()),
        ("right=s7.0\n", format!("right={}\n", side(64))),
    ] {
        let new = "book=1\nrules=0\ndropped=0\ndropped=1\n";
        assert_eq!(repaired(&text.replacen(line, &other, 1)), Ok(new.to_string()), "{other}");
    }
}

/// A rule of this number of words that nests in one chain.
fn chain(n: usize) -> String {
    [vec!["s4.1"; n - 1], vec!["s7.0"]].concat().join(" ")
}

#[test]
fn the_book_rules() {
    let sixteen: String = (0..16).map(|x| format!(" m{x}.0")).collect();
    let sixteen = format!("s1.2 s1.15{sixteen}");
    let good = [
        (1, "s3.1 m0.0".to_string(), "m0.0".to_string()),
        (1, "s2.2 m0.0 m0.0".to_string(), "s2.2 m0.0 m0.0".to_string()),
        (1, "s3.1 l l m0.2 v2 v1".to_string(), "m0.2 s7.0 l v1".to_string()),
        (1, "s2.2 l m0.1 v1 l l m0.1 v2".to_string(), "m0.1 m0.1 s7.0".to_string()),
        (2, "s2.2 m1.0 m0.0".to_string(), "m1.0".to_string()),
        (0, "s7.0".to_string(), "l l v2".to_string()),
        (0, chain(16), chain(16)),
        (0, long_side(0), long_side(0)),
        (16, sixteen, "m15.0".to_string()),
    ];
    for (vars, left, right) in good {
        let text = book(&[body(vars, &left, &right)]);
        assert_eq!(repaired(&text), Ok(format!("{text}kept=0 0\n")), "{left} {right}");
    }
    let (deep, s) = (chain(17), "s7.0");
    let bad: &[(u32, &str, &str)] = &[
        // Left: whole, not too deep, of a symbol.
        (0, "s4.1", s),
        (0, "s2.2 s1.0", s),
        (0, "s1.0 s1.0", s),
        (0, &deep, s),
        (0, "l s1.0", s),
        (1, "m0.0", "m0.0"),
        (0, "v1", s),
        // Kind 2 only in lists, and lists of nothing else, distinct, within d.
        (1, "s2.2 l m0.0 v1", s),
        (0, "s3.1 l v1", s),
        (1, "s3.1 l m0.1 s7.0", s),
        (1, "s3.1 l m0.1 l v1", s),
        (1, "s3.1 l m0.1 m0.1 v1", s),
        (1, "s3.1 l l m0.2 v1 v1", s),
        (1, "s3.1 m0.1 v1", s),
        (1, "s3.1 l m0.1 v2", s),
        // Each variable below vars, no other, with one count.
        (1, "s1.0", s),
        (2, "s3.1 m0.0", s),
        (2, "s3.1 m1.0", s),
        (16, "s3.1 m0.0", s),
        (0, "s3.1 m0.0", s),
        (1, "s3.1 m1.0", s),
        (1, "s2.2 m0.0 l m0.1 v1", s),
        // Right: whole, not too deep, nothing from outside, known variables.
        (1, "s3.1 m0.0", "l"),
        (1, "s3.1 m0.0", "s2.2 m0.0"),
        (1, "s3.1 m0.0", "m0.0 m0.0"),
        (1, "s3.1 m0.0", &deep),
        (1, "s3.1 m0.0", "v1"),
        (1, "s3.1 m0.0", "l v2"),
        (1, "s3.1 m0.0", "s2.2 l v1 v1"),
        (1, "s3.1 m0.0", "m1.0"),
        (0, "s1.0", "m0.0"),
        (1, "s3.1 m0.0", "m0.1 s7.0"),
        (1, "s3.1 l m0.1 v1", "m0.0"),
    ];
    let new = book(&[sound(1), sound(2)]);
    for (vars, left, right) in bad {
        let text = book(&[sound(1), body(*vars, left, right), sound(2)]);
        let expected = format!("{new}kept=0 0\ndropped=1\nkept=2 1\n");
        assert_eq!(repaired(&text), Ok(expected), "{vars} {left} {right}");
    }
}

#[test]
fn as_many_rules_as_a_text_holds() {
    // 15 + 2,259 x 29 = 65,526, and one more would be 65,555.
    let text = numbered(0, &vec![(0, body(0, "l", "l")); 2_259]);
    assert_eq!(text.len(), 65_526);
    let lines: String = (0..2_259).map(|n| format!("dropped={n}\n")).collect();
    assert_eq!(repaired(&text), Ok(format!("book=1\nrules=0\n{lines}rules-was=0\n")));
    // 15 + 1,872 x 35 = 65,535: sound ones, the first 64 of which stay.
    let rule = body(0, "s1.0", "s7.0");
    let text = numbered(0, &vec![(0, rule.clone()); 1_872]);
    assert_eq!(text.len(), 65_535);
    let lines: String = (64..1_872).map(|n| format!("dropped={n}\n")).collect();
    let new = book(&vec![rule; 64]);
    let all = kept(0, 0, 64);
    assert_eq!(repaired(&text), Ok(format!("{new}{all}{lines}rules-was=0\n")));
}

#[test]
fn the_program() {
    let run = |text: &str| String::from_utf8(repair_file(text.as_bytes())).unwrap();
    assert_eq!(run(""), "answer=10\nat=1\n");
    assert_eq!(run(&"x".repeat(65_537)), "answer=10\nat=0\n");
    assert_eq!(run("book=1\nrules=0\nrule=0\n"), "answer=10\nat=4\n");
    assert_eq!(run("book=1\nrules=0\n"), "book=1\nrules=0\n");
    assert_eq!(run(BOOK_A), format!("{BOOK_A}kept=0 0\nkept=1 1\nkept=2 2\n"));
}

// ------------------------------------------------- against a plainer one

/// Whether `key` with a number from 0 to 65,535 makes this line.
fn is_number(line: &[u8], key: &str) -> bool {
    let Ok(line) = std::str::from_utf8(line) else {
        return false;
    };
    let number = line.strip_prefix(key).and_then(|n| n.parse::<u16>().ok());
    number.is_some_and(|n| format!("{key}{n}") == line)
}

/// What reading says of a book of one rule with these lines.
fn reading(lines: &[&[u8]]) -> u32 {
    let text = [b"book=1\nrules=1\nrule=0\n", &lines.join(&b'\n')[..], b"\n"].concat();
    read_book(&text, &mut [0; 132]).number
}

/// Whether a line is in form and the one due, the first being 0.
fn in_form(at: usize, line: &[u8]) -> bool {
    let mut rule: [&[u8]; 3] = [b"vars=0", b"left=s7.0", b"right=s7.0"];
    match at {
        0 => line == b"book=1",
        1 => is_number(line, "rules="),
        _ if at % 4 == 2 => is_number(line, "rule="),
        _ => {
            rule[(at - 3) % 4] = line;
            reading(&rule) != 10
        }
    }
}

/// The lines of a text in form, else the first that is not.
fn lines_in_form(text: &[u8]) -> Result<Vec<&[u8]>, Answer> {
    if text.len() > 65_536 {
        return Err(a(10, 0));
    }
    let mut lines: Vec<&[u8]> = text.split(|&b| b == b'\n').collect();
    let rest = lines.pop().unwrap();
    let bad = (0..lines.len()).find(|&at| !in_form(at, lines[at]));
    let ends = rest.is_empty() && lines.len() % 4 == 2;
    match bad.or((!ends).then_some(lines.len())) {
        Some(at) => Err(a(10, at as u32 + 1)),
        None => Ok(lines),
    }
}

/// A book out of the lines of its rules, taken over as they stand.
fn joined(rules: &[&[&[u8]]]) -> Vec<u8> {
    let mut text = format!("book=1\nrules={}\n", rules.len()).into_bytes();
    for (n, rule) in rules.iter().enumerate() {
        text.extend(format!("rule={n}\n").into_bytes());
        text.extend(rule.join(&b'\n'));
        text.push(b'\n');
    }
    text
}

fn plainer(text: &[u8]) -> Result<Vec<u8>, Answer> {
    let lines = lines_in_form(text)?;
    let rules: Vec<&[&[u8]]> = lines[2..].chunks(4).map(|rule| &rule[1..]).collect();
    let mut stay: Vec<&[&[u8]]> = Vec::new();
    let mut notes = String::new();
    let mut dropped = Vec::new();
    for (old, &rule) in rules.iter().enumerate() {
        if reading(rule) == 0 && stay.len() < 64 {
            notes += &format!("kept={old} {}\n", stay.len());
            stay.push(rule);
        } else {
            notes += &format!("dropped={old}\n");
            dropped.push((stay.len(), rule));
        }
    }
    let stated = std::str::from_utf8(&lines[1][6..]).unwrap();
    if stated != rules.len().to_string() {
        notes += &format!("rules-was={stated}\n");
    }
    let new = joined(&stay);
    if new.len() > 65_536 {
        return Err(a(13, 0));
    }
    // The new book is accepted; with a dropped rule in its place it is not.
    let mut words = vec![0; 9_000];
    assert_eq!(read_book(&new, &mut words), a(0, 0));
    for &(at, rule) in dropped.iter().step_by(dropped.len() / 4 + 1) {
        let mut more = stay.clone();
        more.insert(at, rule);
        assert_ne!(read_book(&joined(&more), &mut words).number, 0);
    }
    Ok([new, notes.into_bytes()].concat())
}

/// What a kind says of the answer to its text.
fn check_kind(kind: Kind, text: &[u8], result: &Result<Vec<u8>, Answer>) {
    let lines = |key: &str| {
        let new = String::from_utf8(result.clone().unwrap()).unwrap();
        new.lines().filter(|line| line.starts_with(key)).count()
    };
    match kind {
        Kind::Sound => {
            assert!(result.as_ref().unwrap().starts_with(text));
            assert_eq!((lines("dropped="), lines("rules-was=")), (0, 0));
        }
        Kind::NoRule => assert_eq!(lines("kept=") + lines("dropped="), 0),
        Kind::Bad(_) | Kind::Mixed => assert!(lines("dropped=") > 0 && lines("rules-was=") == 0),
        Kind::NoneSound => assert!(lines("dropped=") > 0 && lines("kept=") == 0),
        Kind::WrongRules => assert_eq!(lines("rules-was="), 1),
        Kind::WrongRule => assert!(lines("kept=") > 0 && lines("rules-was=") == 0),
        Kind::AnyNumbers => assert!(lines("dropped=") > 0),
        Kind::Over64 => assert!(lines("kept=") == 64 && lines("dropped=") > 0),
        Kind::Many => assert!(lines("kept=") <= 64 && lines("dropped=") > 0),
        Kind::NearSize => assert!(result.is_ok() || *result == Err(a(13, 0))),
        Kind::OverSize => assert_eq!(*result, Err(a(10, 0))),
        _ => assert!(result.as_ref().map_or_else(|refused| refused.number == 10, |_| true)),
    }
}

fn rounds(n: u64) -> u64 {
    let times = std::env::var("SECOND_ROUNDS").ok().and_then(|s| s.parse().ok());
    n * times.unwrap_or(1)
}

#[test]
fn random_texts() {
    // For each kind: answers 0, 10 and 13.
    let mut counts: BTreeMap<Kind, [u64; 3]> = BTreeMap::new();
    for seed in 0..rounds(12_000) {
        let case = repair_text(seed);
        let expected = plainer(&case.text);
        check_kind(case.kind, &case.text, &expected);
        let mut out = vec![9; case.out_length];
        let answer = repair_book(&case.text, &mut out);
        let room = match &expected {
            Ok(new) if new.len() > out.len() => Err(a(13, 0)),
            other => other.clone(),
        };
        let (number, mut bytes) = match room {
            Ok(new) => (a(0, 0), new),
            Err(refused) => (refused, Vec::new()),
        };
        bytes.resize(case.out_length, 0);
        assert_eq!(answer, number, "seed {seed} {}", case.kind.name());
        assert!(out == bytes, "seed {seed} {}", case.kind.name());
        let column = [0, 10, 13].iter().position(|&n| n == answer.number).unwrap();
        counts.entry(case.kind).or_default()[column] += 1;
    }
    for (kind, [done, form, room]) in &counts {
        println!("{:30} 0: {done:6} 10: {form:6} 13: {room:6}", kind.name());
    }
    assert_eq!(counts.len(), 20 + Flaw::ALL.len());
}

#[test]
fn every_flaw_breaks_its_rule() {
    for flaw in Flaw::ALL {
        for seed in 0..rounds(300) {
            let mut rng = Rng::new(seed);
            let alphabet = gen::alphabet(&mut rng);
            let rule = flawed(&mut rng, &alphabet, flaw);
            let text = gen::sources_text(&[rule]);
            let name = flaw.name();
            assert_eq!(read_book(&text, &mut [0; 132]), a(12, 0), "{name} {seed}");
            let new = repair_file(&text);
            assert_eq!(new, b"book=1\nrules=0\ndropped=0\n", "{name} {seed}");
        }
    }
}

#[test]
fn texts_near_their_size() {
    let mut found = [0u64; 2];
    for seed in 0..rounds(60) {
        let text = text_of_kind(&mut Rng::new(seed), Kind::NearSize);
        assert!(text.len() <= 65_536 && text.len() >= 65_466);
        let mut out = vec![9; 70_000];
        let answer = repair_book(&text, &mut out);
        found[usize::from(answer == a(13, 0))] += 1;
        assert_eq!(plainer(&text).is_ok(), answer == a(0, 0));
    }
    println!("new texts within their size {}, over {}", found[0], found[1]);
    assert!(found[0] > 0 && found[1] > 0);
}
