//! Repairing a book that came by mail: what stays, the lines that say so, the form of lines, and sizes.

use super::{clear, edge, flat, text, Edge, Told, BOOK_A, NOT_IN_FORM, NO_ROOM};
use crate::case::Case;

fn repair(name: &str, mail: &str, told: Told) -> Edge {
    edge(name, Case::RepairBook { text: mail.into(), room: rosenduch::MOST_REPAIRED }, told)
}

/// The lines of a rule after `rule=`.
fn rule(vars: u32, left: &str, right: &str) -> String {
    format!("vars={vars}\nleft={left}\nright={right}\n")
}

/// A rule that turns this leaf into another.
fn sound(id: usize) -> String {
    rule(0, &format!("s{id}.0"), "s1000.0")
}

/// A rule with a variable that its left side does not have.
fn bad() -> String {
    rule(1, "s1.0", "s7.0")
}

/// A text that states this number of rules and numbers them so.
fn mail(stated: usize, rules: &[(usize, String)]) -> String {
    let rules: String = rules.iter().map(|(number, rule)| format!("rule={number}\n{rule}")).collect();
    format!("book=1\nrules={stated}\n{rules}")
}

/// The text of rules with the numbers that are due.
fn book(rules: &[String]) -> String {
    let rules: Vec<_> = rules.iter().cloned().enumerate().collect();
    mail(rules.len(), &rules)
}

fn leaves(number: usize) -> Vec<String> {
    (0..number).map(sound).collect()
}

/// The lines of so many rules from `old` on, which are `new` and so on afterwards.
fn kept(old: usize, new: usize, number: usize) -> String {
    (0..number).map(|n| format!("kept={} {}\n", old + n, new + n)).collect()
}

/// The lines of the rules from one old number up to another.
fn dropped(from: usize, to: usize) -> String {
    (from..to).map(|old| format!("dropped={old}\n")).collect()
}

fn whole() -> Vec<Edge> {
    let same = book(&[rule(1, "s3.1 m0.0", "s3.1 m0.0")]);
    vec![
        repair("a sound book byte for byte", BOOK_A, text(&(BOOK_A.to_string() + &kept(0, 0, 3)))),
        repair("a rule whose sides are the same stays", &same, text(&(same.clone() + "kept=0 0\n"))),
        repair("no rule", "book=1\nrules=0\n", text("book=1\nrules=0\n")),
        repair("no rule, and 65,535 stated", "book=1\nrules=65535\n", text("book=1\nrules=0\nrules-was=65535\n")),
    ]
}

/// 64 sound rules and more.
fn many() -> Vec<Edge> {
    let (rules, over) = (leaves(64), leaves(65));
    let (new, all) = (book(&rules), kept(0, 0, 64));
    let before = [vec![bad()], rules.clone()].concat();
    let within = [&over[..63], &[bad()], &over[63..]].concat();
    let states_64 = book(&over).replacen("rules=65", "rules=64", 1);
    vec![
        repair("64 sound rules", &new, text(&format!("{new}{all}"))),
        repair("65 sound rules", &book(&over), text(&format!("{new}{all}dropped=64\n"))),
        repair("65 sound rules, and 64 stated", &states_64, text(&format!("{new}{all}dropped=64\nrules-was=64\n"))),
        repair("a bad rule before 64 sound ones", &book(&before), text(&format!("{new}dropped=0\n{}", kept(1, 0, 64)))),
        repair(
            "a bad rule before the last of 64, and one more",
            &book(&within),
            text(&format!("{new}{}dropped=63\nkept=64 63\ndropped=65\n", kept(0, 0, 63))),
        ),
    ]
}

fn few() -> Vec<Edge> {
    let none = book(&[bad(), bad()]);
    let between = book(&[sound(1), bad(), sound(2)]);
    let left = book(&[sound(1), sound(2)]);
    let all_1 = mail(3, &[(1, sound(1)), (1, bad()), (1, sound(2))]);
    let states_2 = mail(2, &[(0, sound(1)), (1, bad()), (2, sound(2))]);
    vec![
        repair("none sound", &none, text("book=1\nrules=0\ndropped=0\ndropped=1\n")),
        repair("a sound rule after a bad one", &between, text(&format!("{left}kept=0 0\ndropped=1\nkept=2 1\n"))),
        repair("three rules called 1", &all_1, text(&format!("{left}kept=0 0\ndropped=1\nkept=2 1\n"))),
        repair("as many stated as stay", &states_2, text(&format!("{left}kept=0 0\ndropped=1\nkept=2 1\nrules-was=2\n"))),
    ]
}

/// One sound rule under these numbers.
fn numbered(rules: &str, rule: &str) -> String {
    format!("book=1\nrules={rules}\nrule={rule}\n{}", sound(7))
}

fn numbers() -> Vec<Edge> {
    let one = || book(&[sound(7)]) + "kept=0 0\n";
    let good = |name: &str, mail: String, more: &str| repair(name, &mail, text(&(one() + more)));
    let refused = |name: &str, mail: String, at| repair(name, &mail, clear(NOT_IN_FORM, at));
    vec![
        good("rules=0 and a rule", numbered("0", "0"), "rules-was=0\n"),
        good("rules=65535 and a rule", numbered("65535", "0"), "rules-was=65535\n"),
        refused("rules=65536 and a rule", numbered("65536", "0"), 2),
        refused("rules=01", numbered("01", "0"), 2),
        good("rule=65535", numbered("1", "65535"), ""),
        refused("rule=65536", numbered("1", "65536"), 3),
        refused("rule=00", numbered("1", "00"), 3),
    ]
}

/// So many leaves in a line.
fn tokens(number: usize) -> String {
    vec!["s7.0"; number].join(" ")
}

fn forms() -> Vec<Edge> {
    let out = |name: &str, rule: String| repair(name, &book(&[rule]), text("book=1\nrules=0\ndropped=0\n"));
    let refused = |name: &str, mail: String, at| repair(name, &mail, clear(NOT_IN_FORM, at));
    let one = || book(&[sound(1)]);
    vec![
        out("vars=16 and no variable", rule(16, "s1.0", "s7.0")),
        refused("vars=17", book(&[rule(17, "s1.0", "s7.0")]), 4),
        out("64 tokens on the left that are no side", rule(0, &tokens(64), "s7.0")),
        refused("65 tokens on the left", book(&[rule(0, &tokens(65), "s7.0")]), 5),
        out("64 tokens on the right that are no side", rule(0, "s1.0", &tokens(64))),
        refused("65 tokens on the right", book(&[rule(0, "s1.0", &tokens(65))]), 6),
        refused("a bad line after a bad rule", book(&[bad(), rule(17, "s1.0", "s7.0")]), 8),
        refused("an empty text", String::new(), 1),
        refused("a text that ends after book=1", "book=1\n".to_string(), 2),
        refused("a text that ends after a rule=", one() + "rule=1\n", 8),
        refused("a text that ends before a right=", one() + "rule=1\nvars=0\nleft=s1.0\n", 10),
        refused("a text without its last line's end", one().trim_end().to_string(), 6),
        refused("an empty line after the last rule", one() + "\n", 7),
        refused("a term after the last rule", one() + "term=s7.0\n", 7),
    ]
}

/// A side of 64 words in 500 bytes, less a byte for each leaf that is shorter.
fn side(shorter: usize) -> String {
    let leaves = [vec!["s100.0"; shorter], vec!["s1000.0"; 59 - shorter]].concat();
    format!("s0.15 s0.15 s0.15 s0.15 s0.3 {}", leaves.join(" "))
}

/// 64 rules of two such sides: 996 bytes in the first `longer`, 995 in the others. Their text has 16 bytes before the rules and 27 in each beside its
/// sides and its number's second digit, which 54 of them have: 16 + 64 x 27 + 54 + 64 x 995 + longer is 65,478 + longer.
fn full(longer: usize) -> Vec<String> {
    (0..64).map(|n| rule(0, &side(0), &side(if n < longer { 4 } else { 5 }))).collect()
}

/// The same, all called 0: 54 bytes less.
fn called_0(longer: usize) -> String {
    mail(64, &full(longer).into_iter().map(|rule| (0, rule)).collect::<Vec<_>>())
}

/// So many rules of 29 bytes, of which none is sound.
fn shortest(number: usize) -> Vec<(usize, String)> {
    vec![(0, rule(0, "l", "l")); number]
}

fn sizes() -> Vec<Edge> {
    let new = || book(&full(58));
    let grown = || format!("{}{}", new(), kept(0, 0, 64));
    let none = format!("book=1\nrules=0\n{}rules-was=0\n", dropped(0, 2_259));
    let one_sound = mail(1, &[shortest(2_258), vec![(0, rule(0, "s1.0", "s7.0"))]].concat());
    let last = format!("{}{}kept=2258 0\nrules-was=1\n", book(&[rule(0, "s1.0", "s7.0")]), dropped(0, 2_258));
    let leaf = || rule(0, "s1.0", "s7.0");
    let first_64 = format!("{}{}{}rules-was=0\n", book(&vec![leaf(); 64]), kept(0, 0, 64), dropped(64, 1_872));
    vec![
        repair("a text of 65,536 bytes", &new(), text(&grown())),
        repair("a text of 65,537 bytes", &book(&full(59)), clear(NOT_IN_FORM, 0)),
        repair("65,536 bytes in one line", &" ".repeat(65_536), clear(NOT_IN_FORM, 1)),
        repair("65,537 bytes in one line", &" ".repeat(65_537), clear(NOT_IN_FORM, 0)),
        repair("a new text of 65,536 bytes", &called_0(58), text(&grown())),
        repair("a new text of 65,537 bytes", &called_0(59), clear(NO_ROOM, 0)),
        repair("a bad line, where the new text would be over its size", &(called_0(59) + "\n"), clear(NOT_IN_FORM, 259)),
        repair("2,259 rules, none sound", &mail(0, &shortest(2_259)), text(&none)),
        repair("2,259 rules, the last sound", &one_sound, text(&last)),
        repair("1,872 sound rules", &mail(0, &vec![(0, leaf()); 1_872]), text(&first_64)),
    ]
}

/// So many symbols, each below the one before.
fn chain(number: usize) -> String {
    vec!["s4.1"; number - 1].join(" ") + " s7.0"
}

fn deep() -> Vec<Edge> {
    let deepest = book(&vec![rule(0, &chain(16), &chain(16)); 64]);
    let over = book(&[rule(0, &chain(17), "s7.0"), rule(0, "s7.0", &chain(17)), rule(0, &chain(64), &chain(64))]);
    vec![
        repair("64 rules of nesting 16", &deepest, text(&format!("{deepest}{}", kept(0, 0, 64)))),
        repair("nesting 17 and 64", &over, text("book=1\nrules=0\ndropped=0\ndropped=1\ndropped=2\n")),
    ]
}

/// Outputs of a book with a bad rule and a wrong number: 53 bytes of the new book, then lines of 9, 10 and 12.
fn rooms() -> Vec<Edge> {
    let mail = mail(5, &[(3, sound(1)), (4, bad())]);
    let new = || text("book=1\nrules=1\nrule=0\nvars=0\nleft=s1.0\nright=s1000.0\nkept=0 0\ndropped=1\nrules-was=5\n");
    let lent = |name: &str, room, told| edge(name, Case::RepairBook { text: mail.clone().into(), room }, told);
    let whole = |name: &str, mail: &str, room, told| edge(name, Case::RepairBook { text: mail.into(), room }, told);
    let full = || text(&format!("{}{}", book(&full(58)), kept(0, 0, 64)));
    vec![
        lent("an output exact, all kinds of lines", 84, new()),
        lent("an output one short, all kinds of lines", 83, clear(NO_ROOM, 0)),
        lent("an output for the new book alone", 53, clear(NO_ROOM, 0)),
        lent("no output", 0, clear(NO_ROOM, 0)),
        whole("no output, and a bad line", "book=1\nrules=x\n", 0, clear(NOT_IN_FORM, 2)),
        whole("an output exact, a new text of 65,536 bytes", &called_0(58), 66_220, full()),
        whole("an output one short, a new text of 65,536 bytes", &called_0(58), 66_219, clear(NO_ROOM, 0)),
    ]
}

/// The texts of all these edges, for the program.
pub fn texts() -> Vec<(String, Vec<u8>)> {
    let text = |edge: Edge| match edge.case {
        Case::RepairBook { text, .. } => Some((edge.name, text)),
        _ => None,
    };
    edges().into_iter().filter_map(text).collect()
}

/// A sound book of 65,536 bytes, for which more is written.
pub fn text_of_size() -> Vec<u8> {
    book(&full(58)).into_bytes()
}

pub fn edges() -> Vec<Edge> {
    flat([whole(), many(), few(), numbers(), forms(), sizes(), deep(), rooms()])
}
