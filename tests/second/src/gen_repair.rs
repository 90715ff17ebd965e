//! Seeded random texts for repairing: book texts whole, with bad rules, with
//! wrong numbers, at their limits, and damaged. Each case says its kind.

use crate::gen::{self, Alphabet, Source};
use crate::repair::{repaired, MAX_STATED};
use crate::rng::Rng;
use crate::text::{words_text, MAX_TEXT};
use crate::words::{count, id, kind, pattern, symbol, variable, LAMBDA, PATTERN};

// ---------------------------------------------------------------- kinds

/// What a rule that is in form can break of the book rules.
#[derive(Clone, Copy, Debug, PartialEq, Eq, PartialOrd, Ord, Hash)]
pub enum Flaw {
    LeftRunsOut,
    LeftGoesOn,
    LeftDeep,
    RootAbstraction,
    RootPattern,
    LeftVariable,
    ListOther,
    ListTwice,
    ListOutside,
    VarMissing,
    VarSurplus,
    VarTwoCounts,
    RightRunsOut,
    RightGoesOn,
    RightDeep,
    RightOutside,
    RightUnknown,
    RightCount,
}

impl Flaw {
    pub const ALL: [Flaw; 18] = [
        Flaw::LeftRunsOut,
        Flaw::LeftGoesOn,
        Flaw::LeftDeep,
        Flaw::RootAbstraction,
        Flaw::RootPattern,
        Flaw::LeftVariable,
        Flaw::ListOther,
        Flaw::ListTwice,
        Flaw::ListOutside,
        Flaw::VarMissing,
        Flaw::VarSurplus,
        Flaw::VarTwoCounts,
        Flaw::RightRunsOut,
        Flaw::RightGoesOn,
        Flaw::RightDeep,
        Flaw::RightOutside,
        Flaw::RightUnknown,
        Flaw::RightCount,
    ];

    pub fn name(self) -> &'static str {
        match self {
            Flaw::LeftRunsOut => "bad: left runs out",
            Flaw::LeftGoesOn => "bad: left goes on",
            Flaw::LeftDeep => "bad: left nests over 16",
            Flaw::RootAbstraction => "bad: root an abstraction",
            Flaw::RootPattern => "bad: root a pattern variable",
            Flaw::LeftVariable => "bad: left variable in no list",
            Flaw::ListOther => "bad: list of another kind",
            Flaw::ListTwice => "bad: list not distinct",
            Flaw::ListOutside => "bad: list beyond d",
            Flaw::VarMissing => "bad: variable not in left",
            Flaw::VarSurplus => "bad: variable not in vars",
            Flaw::VarTwoCounts => "bad: variable with two counts",
            Flaw::RightRunsOut => "bad: right runs out",
            Flaw::RightGoesOn => "bad: right goes on",
            Flaw::RightDeep => "bad: right nests over 16",
            Flaw::RightOutside => "bad: right variable outside",
            Flaw::RightUnknown => "bad: right variable unknown",
            Flaw::RightCount => "bad: right variable's count",
        }
    }
}

/// What was done to get the text of a case.
#[derive(Clone, Copy, Debug, PartialEq, Eq, PartialOrd, Ord, Hash)]
pub enum Kind {
    /// A sound book of 1 to 64 rules with right numbers.
    Sound,
    /// No rule, any number in `rules=`.
    NoRule,
    /// Right numbers; one or more rules have this flaw, the others are sound.
    Bad(Flaw),
    /// Right numbers; bad rules of several kinds.
    Mixed,
    /// Right numbers; no rule is sound.
    NoneSound,
    /// Sound rules; another number in `rules=`.
    WrongRules,
    /// Sound rules; another number in one `rule=` or more.
    WrongRule,
    /// Bad rules, and any numbers.
    AnyNumbers,
    /// More than 64 sound rules, at times bad ones among them.
    Over64,
    /// Hundreds of short rules, to the 2,259 that a text can hold.
    Many,
    /// Near 65,536 bytes; the new numbers may take it further.
    NearSize,
    /// Over 65,536 bytes.
    OverSize,
    /// One line at the limits of its form, or just past them.
    Limits,
    ByteChanged,
    ByteInserted,
    ByteRemoved,
    Cut,
    LinesExchanged,
    LinesRepeated,
    LinesRemoved,
    /// As `gen::damage_text` does, once or twice.
    Damaged,
}

impl Kind {
    pub fn name(self) -> &'static str {
        match self {
            Kind::Sound => "sound",
            Kind::NoRule => "no rule",
            Kind::Bad(flaw) => flaw.name(),
            Kind::Mixed => "bad: several kinds",
            Kind::NoneSound => "bad: none sound",
            Kind::WrongRules => "wrong number in rules=",
            Kind::WrongRule => "wrong number in rule=",
            Kind::AnyNumbers => "bad rules and wrong numbers",
            Kind::Over64 => "over 64 sound rules",
            Kind::Many => "many short rules",
            Kind::NearSize => "near 65,536 bytes",
            Kind::OverSize => "over 65,536 bytes",
            Kind::Limits => "a line at its limits",
            Kind::ByteChanged => "a byte changed",
            Kind::ByteInserted => "a byte inserted",
            Kind::ByteRemoved => "a byte removed",
            Kind::Cut => "cut",
            Kind::LinesExchanged => "two lines exchanged",
            Kind::LinesRepeated => "one line or four repeated",
            Kind::LinesRemoved => "one line or four removed",
            Kind::Damaged => "damaged once or twice",
        }
    }
}

// ---------------------------------------------------------------- bad rules

/// The rule that takes every flaw.
fn plain() -> Source {
    Source { vars: 1, left: vec![symbol(3, 1), pattern(0, 0)], right: vec![pattern(0, 0)] }
}

/// The rule with one more child at the root of its left side.
fn more_left(rule: &Source, part: &[u32]) -> Option<Source> {
    let root = rule.left[0];
    let more = (count(root) < 15).then(|| symbol(id(root), count(root) + 1))?;
    let left = [&[more], &rule.left[1..], part].concat();
    (left.len() <= 64).then_some(Source { left, ..rule.clone() })
}

/// The same, the part being of the rule's next variable.
fn more_variable(rule: &Source, part: &[u32]) -> Option<Source> {
    let more = Source { vars: rule.vars + 1, ..rule.clone() };
    (more.vars <= 16).then(|| more_left(&more, part))?
}

/// The rule with its right side and one more part under a new root.
fn more_right(rule: &Source, part: &[u32]) -> Option<Source> {
    let right = [&[symbol(2, 2)], &rule.right[..], part].concat();
    (right.len() <= 64).then_some(Source { right, ..rule.clone() })
}

/// A chain that nests 16 to 18 deep, and so one more below a root.
fn deep_part(rng: &mut Rng) -> Vec<u32> {
    let n = rng.from_to(16, 18);
    let mut part: Vec<u32> =
        (1..n).map(|_| if rng.chance(1, 2) { LAMBDA } else { symbol(4, 1) }).collect();
    part.push(symbol(7, 0));
    part
}

/// A side cut so that words are missing.
fn cut_side(rng: &mut Rng, side: &[u32]) -> Vec<u32> {
    if side.len() == 1 {
        return vec![LAMBDA; rng.from_to(1, 3)];
    }
    side[..rng.from_to(1, side.len() - 1)].to_vec()
}

/// A variable of the left side and a count that isn't its own.
fn other_count(rng: &mut Rng, rule: &Source) -> Option<(u32, u32)> {
    let found: Vec<u32> = rule.left.iter().copied().filter(|&w| kind(w) == PATTERN).collect();
    if found.is_empty() {
        return None;
    }
    let w = *rng.pick(&found);
    let others: Vec<u32> = (0..=4).filter(|&k| k != count(w)).collect();
    Some((id(w), *rng.pick(&others)))
}

/// A variable that a rule doesn't have.
fn unknown(rng: &mut Rng, rule: &Source) -> Option<u32> {
    (rule.vars <= 15).then(|| pattern(rng.from_to(rule.vars as usize, 15) as u32, 0))
}

/// The rule with a flaw in the list of a new variable x.
fn break_list(rng: &mut Rng, flaw: Flaw, rule: &Source) -> Option<Source> {
    let (l, s, v) = (LAMBDA, symbol(7, 0), variable);
    let x = |k| pattern(rule.vars, k);
    let parts: [Vec<u32>; 4] = match flaw {
        Flaw::ListOther => [
            vec![l, x(1), s],
            vec![l, x(2), v(1), s],
            vec![l, x(1), l, v(1)],
            vec![l, x(1), x(1), v(1)],
        ],
        Flaw::ListTwice => [
            vec![l, x(2), v(1), v(1)],
            vec![l, l, x(2), v(2), v(2)],
            vec![l, l, l, x(3), v(3), v(1), v(3)],
            vec![l, l, l, l, x(4), v(1), v(4), v(2), v(2)],
        ],
        _ => [
            vec![x(1), v(1)],
            vec![l, x(1), v(2)],
            vec![l, l, x(2), v(3), v(1)],
            vec![l, x(1), v(65_535)],
        ],
    };
    more_variable(rule, rng.pick::<Vec<u32>>(&parts))
}

/// The rule with a flaw in its left side or its variables.
fn break_left(rng: &mut Rng, flaw: Flaw, rule: &Source) -> Option<Source> {
    let mut new = rule.clone();
    match flaw {
        Flaw::LeftRunsOut => new.left = cut_side(rng, &rule.left),
        Flaw::LeftGoesOn => new.left.push(*rng.pick(&[symbol(7, 0), LAMBDA, symbol(3, 1)])),
        Flaw::LeftDeep => return more_left(rule, &deep_part(rng)),
        Flaw::RootAbstraction => new.left.insert(0, LAMBDA),
        Flaw::RootPattern => new = Source { left: vec![pattern(0, 0)], ..plain() },
        Flaw::LeftVariable => {
            let parts = [vec![variable(1)], vec![LAMBDA, variable(1)], vec![variable(65_535)]];
            return more_left(rule, rng.pick::<Vec<u32>>(&parts));
        }
        Flaw::VarMissing => new.vars += rng.from_to(1, 3) as u32,
        Flaw::VarSurplus => return more_left(rule, &[unknown(rng, rule)?]),
        Flaw::VarTwoCounts => {
            let (x, k) = other_count(rng, rule)?;
            let mut part = vec![LAMBDA; k as usize];
            part.push(pattern(x, k));
            part.extend((1..=k).map(variable));
            return more_left(rule, &part);
        }
        _ => return break_list(rng, flaw, rule),
    }
    Some(new)
}

/// The rule with a flaw in its right side.
fn break_right(rng: &mut Rng, flaw: Flaw, rule: &Source) -> Option<Source> {
    let mut new = rule.clone();
    match flaw {
        Flaw::RightRunsOut => new.right = cut_side(rng, &rule.right),
        Flaw::RightGoesOn => new.right.push(*rng.pick(&[symbol(7, 0), LAMBDA, symbol(3, 1)])),
        Flaw::RightDeep => return more_right(rule, &deep_part(rng)),
        Flaw::RightOutside => {
            let parts = [vec![variable(1)], vec![LAMBDA, variable(2)], vec![variable(65_535)]];
            return more_right(rule, rng.pick::<Vec<u32>>(&parts));
        }
        Flaw::RightUnknown => return more_right(rule, &[unknown(rng, rule)?]),
        _ => {
            let (x, k) = other_count(rng, rule)?;
            let mut part = vec![pattern(x, k)];
            part.extend(vec![symbol(7, 0); k as usize]);
            return more_right(rule, &part);
        }
    }
    Some(new)
}

fn is_of_right(flaw: Flaw) -> bool {
    use Flaw::*;
    matches!(
        flaw,
        RightRunsOut | RightGoesOn | RightDeep | RightOutside | RightUnknown | RightCount
    )
}

/// Whether the sides are still whole wherever the flaw leaves them so, and
/// the rule is in form.
fn only_this(flaw: Flaw, rule: &Source) -> bool {
    let shape = [
        Flaw::LeftRunsOut,
        Flaw::LeftGoesOn,
        Flaw::LeftDeep,
        Flaw::RightRunsOut,
        Flaw::RightGoesOn,
        Flaw::RightDeep,
    ];
    let touched = |right: bool| shape.contains(&flaw) && is_of_right(flaw) == right;
    let in_form = rule.vars <= 16 && rule.left.len() <= 64 && rule.right.len() <= 64;
    in_form
        && (touched(false) || gen::side_is_whole(&rule.left))
        && (touched(true) || gen::side_is_whole(&rule.right))
}

/// A rule in form with a flaw: a sound one changed, mostly in nothing else.
pub fn flawed(rng: &mut Rng, a: &Alphabet, flaw: Flaw) -> Source {
    loop {
        let base = if rng.chance(1, 6) { plain() } else { gen::rules(rng, a, 1).remove(0) };
        let broken = if is_of_right(flaw) {
            break_right(rng, flaw, &base)
        } else {
            break_left(rng, flaw, &base)
        };
        if let Some(rule) = broken.filter(|rule| only_this(flaw, rule)) {
            return rule;
        }
    }
}

// ---------------------------------------------------------------- books

/// Rules with the numbers that the text says they have.
#[derive(Clone, Debug)]
pub struct Draft {
    pub stated: usize,
    pub rules: Vec<(usize, Source)>,
}

impl Draft {
    /// The rules with their right numbers.
    pub fn right(rules: Vec<Source>) -> Draft {
        Draft { stated: rules.len(), rules: rules.into_iter().enumerate().collect() }
    }

    pub fn text(&self) -> Vec<u8> {
        let mut text = format!("book=1\nrules={}\n", self.stated);
        for (number, rule) in &self.rules {
            text += &format!("rule={number}\nvars={}\n", rule.vars);
            text += &format!("left={}\n", words_text(&rule.left));
            text += &format!("right={}\n", words_text(&rule.right));
        }
        text.into_bytes()
    }
}

/// Sound rules, so few that their text is far from its limit.
fn sound(rng: &mut Rng, a: &Alphabet, number: usize) -> Vec<Source> {
    let mut made = gen::rules(rng, a, number);
    let mut length = gen::sources_text(&made).len();
    for rule in made.iter_mut().rev() {
        if length <= MAX_TEXT - 8_192 {
            break;
        }
        length -= words_text(&rule.left).len() + words_text(&rule.right).len();
        *rule = Source { vars: 0, left: vec![symbol(7, 0)], right: vec![symbol(7, 0)] };
    }
    made
}

/// How many rules: mostly few, at times around 64 or up to a hundred.
fn rule_number(rng: &mut Rng) -> usize {
    match rng.below(30) {
        0 => rng.from_to(62, 66),
        1 => rng.from_to(12, 100),
        2..=5 => rng.from_to(6, 14),
        _ => rng.from_to(1, 5),
    }
}

/// Puts rules of these flaws in the place of some others, one at the least.
fn spoil(rng: &mut Rng, a: &Alphabet, rules: &mut [Source], flaws: &[Flaw]) {
    let sure = rng.below(rules.len());
    let share = rng.below(4);
    for (at, rule) in rules.iter_mut().enumerate() {
        if at == sure || rng.chance(share, 8) {
            let flaw = *rng.pick(flaws);
            *rule = flawed(rng, a, flaw);
        }
    }
}

/// A number for `rules=` or `rule=`: near the right one, or any.
fn any_number(rng: &mut Rng, right: usize) -> usize {
    match rng.below(10) {
        0 | 1 => 0,
        2 => MAX_STATED,
        3 => rng.from_to(60, 70),
        4 | 5 => right + 1,
        6 | 7 => right.saturating_sub(1),
        8 => rng.below(right + 1),
        _ => rng.below(MAX_STATED + 1),
    }
}

/// Another number than the right one.
fn wrong_number(rng: &mut Rng, right: usize) -> usize {
    let number = any_number(rng, right);
    if number == right {
        right + 1
    } else {
        number
    }
}

/// Numbers the rules anew, one wrongly at the least.
fn misnumber(rng: &mut Rng, draft: &mut Draft) {
    let sure = rng.below(draft.rules.len());
    let share = rng.below(5);
    for (at, rule) in draft.rules.iter_mut().enumerate() {
        if at == sure || rng.chance(share, 4) {
            rule.0 = wrong_number(rng, at);
        }
    }
}

/// A book of sound and bad rules with any numbers.
fn any_numbers(rng: &mut Rng, a: &Alphabet) -> Draft {
    let n = rule_number(rng);
    let mut rules = sound(rng, a, n);
    spoil(rng, a, &mut rules, &Flaw::ALL);
    let mut draft = Draft::right(rules);
    misnumber(rng, &mut draft);
    draft.stated = any_number(rng, n);
    draft
}

/// More than 64 sound rules; at times bad ones among them.
fn over_64(rng: &mut Rng, a: &Alphabet) -> Draft {
    let n = if rng.chance(1, 3) { 65 } else { rng.from_to(65, 90) };
    let mut rules = sound(rng, a, n);
    for _ in 0..rng.below(4) * rng.below(4) {
        let at = rng.below(rules.len() + 1);
        let flaw = *rng.pick(&Flaw::ALL);
        rules.insert(at, flawed(rng, a, flaw));
    }
    let mut draft = Draft::right(rules);
    if rng.chance(1, 3) {
        draft.stated = wrong_number(rng, draft.rules.len());
    }
    draft
}

/// A book in form of any of the kinds above, to be damaged.
fn base(rng: &mut Rng, a: &Alphabet) -> Draft {
    match rng.below(10) {
        0..=4 => {
            let n = rule_number(rng);
            Draft::right(sound(rng, a, n))
        }
        5..=8 => any_numbers(rng, a),
        _ if rng.chance(1, 4) => over_64(rng, a),
        _ => Draft { stated: any_number(rng, 0), rules: Vec::new() },
    }
}

/// Hundreds of the shortest rules, the sound share being from none to all.
fn many(rng: &mut Rng) -> Draft {
    let most = if rng.chance(1, 2) { 2_259 } else { rng.from_to(65, 2_259) };
    let share = *rng.pick(&[0, 0, 1, 10, 50, 99, 100]);
    let way = rng.below(3);
    let mut draft = Draft { stated: 0, rules: Vec::new() };
    // The first two lines with the longest number that is put in below.
    let mut length = "book=1\nrules=0\n".len() + if way == 0 { 0 } else { 4 };
    while draft.rules.len() < most {
        let number = match way {
            0 => 0,
            1 => draft.rules.len(),
            _ => rng.below(MAX_STATED + 1),
        };
        let side = if rng.chance(share, 100) { symbol(rng.below(10) as u32, 0) } else { LAMBDA };
        let rule = Source { vars: 0, left: vec![side], right: vec![side] };
        length += format!("rule={number}\nvars=0\nleft=\nright=\n").len();
        length += 2 * words_text(&[side]).len();
        if length > MAX_TEXT {
            break;
        }
        draft.rules.push((number, rule));
    }
    draft.stated = match way {
        0 => 0,
        1 => draft.rules.len(),
        _ => any_number(rng, draft.rules.len()),
    };
    draft
}

/// A side of 64 words, most of them leaves with an id of four digits.
fn full_side() -> Vec<u32> {
    let mut side = vec![symbol(1_000, 15); 4];
    side.push(symbol(1_000, 3));
    side.resize(64, symbol(1_000, 0));
    side
}

/// A book of about 64 full rules whose text has from `least` to `most` bytes.
fn of_length(rng: &mut Rng, least: usize, most: usize) -> Draft {
    let length = rng.from_to(least, most);
    let n = if rng.chance(2, 3) { 64 } else { rng.from_to(63, 66) };
    let full = Source { vars: 0, left: full_side(), right: full_side() };
    let mut draft = Draft::right(vec![full; n]);
    let numbers = *rng.pick(&[1, 10, 10, 100, MAX_STATED + 1]);
    if rng.chance(3, 4) {
        draft.rules.iter_mut().for_each(|rule| rule.0 = rng.below(numbers));
    }
    if rng.chance(1, 2) {
        draft.stated = rng.below(10);
    }
    // A digit less in a leaf is a byte less.
    for _ in length..draft.text().len() {
        loop {
            let rule = &mut draft.rules[rng.below(n)].1;
            let side = if rng.chance(1, 2) { &mut rule.left } else { &mut rule.right };
            let leaf = &mut side[rng.from_to(5, 63)];
            if id(*leaf) >= 10 {
                *leaf = symbol(id(*leaf) / 10, 0);
                break;
            }
        }
    }
    // A bad rule of the same length.
    if rng.chance(1, 4) {
        draft.rules[rng.below(n)].1.vars = 1;
    }
    draft
}

// ---------------------------------------------------------------- damage

fn lines_of(text: &[u8]) -> Vec<Vec<u8>> {
    text.split_inclusive(|&b| b == b'\n').map(|line| line.to_vec()).collect()
}

/// A side of this many tokens, which need not be whole.
fn side_of(tokens: usize) -> String {
    ["s7.0"; 66][..tokens].join(" ")
}

/// Values of numbers at the limits of their form, parted by commas.
const NUMBERS: &str = "0,00,01,1,16,17,016,63,64,65,9999,65535,65536,065535,99999,100000,\
4294967296,,-1,+1, 1,1 ,1\r,x,1.0";

/// The same for sides.
const SIDES: &str = "s1023.0,s1024.0,s1.15,s1.16,s01.0,s1.00,m15.0,m16.0,m0.4,m0.5,v1,v0,v65535,\
v65536,v01,l,l1,l1.0,s1,m1,v1.0,a,S1.0,s7.0 s7.0,s7.0  s7.0, s7.0,s7.0 ,s7.0\t,, ,s7.0\r";

/// A line with its key and a value that is at its limit or just past it.
fn limit_line(rng: &mut Rng, line: &[u8]) -> Vec<u8> {
    let one_of =
        |rng: &mut Rng, all: &str| rng.pick(&all.split(',').collect::<Vec<_>>()).to_string();
    let key = line.split_inclusive(|&b| b == b'=').next().unwrap_or(b"rule=");
    let value = match (key, rng.below(4)) {
        (b"left=" | b"right=", 0) => side_of(rng.from_to(63, 66)),
        (b"left=" | b"right=", _) => one_of(rng, SIDES),
        _ => one_of(rng, NUMBERS),
    };
    let key: &[u8] = if rng.chance(1, 12) {
        rng.pick::<&[u8]>(&[b"book=", b"rules=", b"rule=", b"vars=", b"term=", b"", b"Rule="])
    } else {
        key
    };
    [key, value.as_bytes(), b"\n"].concat()
}

fn limits(rng: &mut Rng, text: &[u8]) -> Vec<u8> {
    let mut lines = lines_of(text);
    let at = if rng.chance(1, 4) { rng.below(2) } else { rng.below(lines.len()) };
    lines[at] = limit_line(rng, &lines[at]);
    lines.concat()
}

/// A byte that stands in texts, or close to those that do.
fn near_byte(rng: &mut Rng) -> u8 {
    *rng.pick(b"0123456789slvm. =\n\r\t-+abcdefghijklopqrtu\0\xff")
}

/// Another byte in the place of one; half of the time a digit for a digit.
fn change_byte(rng: &mut Rng, byte: &mut u8) {
    let old = *byte;
    let digit = old.is_ascii_digit() && rng.chance(1, 2);
    while *byte == old {
        *byte = if digit { b'0' + rng.below(10) as u8 } else { near_byte(rng) };
    }
}

/// A length to cut a text to: any, at times one that ends a line.
fn cut_length(rng: &mut Rng, text: &[u8]) -> usize {
    if rng.chance(1, 4) {
        let ends: Vec<usize> = (0..text.len()).filter(|&at| text[at] == b'\n').collect();
        return *rng.pick(&ends) + 1;
    }
    rng.below(text.len())
}

/// Changes a text in form in the way of a kind.
fn damaged(rng: &mut Rng, kind: Kind, mut text: Vec<u8>) -> Vec<u8> {
    let at = rng.below(text.len());
    match kind {
        Kind::ByteChanged => change_byte(rng, &mut text[at]),
        Kind::ByteInserted => text.insert(rng.below(text.len() + 1), near_byte(rng)),
        Kind::ByteRemoved => {
            text.remove(at);
        }
        Kind::Cut => text.truncate(cut_length(rng, &text)),
        Kind::Limits => return limits(rng, &text),
        Kind::Damaged => {
            for _ in 0..rng.from_to(1, 2) {
                gen::damage_text(rng, &mut text);
            }
        }
        _ => return damaged_lines(rng, kind, &text),
    }
    text
}

/// The same for the kinds that concern whole lines.
fn damaged_lines(rng: &mut Rng, kind: Kind, text: &[u8]) -> Vec<u8> {
    let mut lines = lines_of(text);
    // Two lines, half of the time of one key if there are such.
    let n = rng.below(lines.len());
    let step = if rng.chance(1, 2) { 4 } else { 1 };
    let later: Vec<usize> = (n..lines.len()).step_by(step).skip(1).collect();
    let m = if later.is_empty() { rng.below(lines.len()) } else { *rng.pick(&later) };
    // A line, or the four of a rule, or any four.
    let many = if rng.chance(1, 2) { 4.min(lines.len() - n) } else { 1 };
    match kind {
        Kind::LinesExchanged => lines.swap(n, m),
        Kind::LinesRepeated => {
            let to = if rng.chance(1, 2) { n + many } else { m };
            let again = lines[n..n + many].to_vec();
            lines.splice(to..to, again);
        }
        _ => {
            lines.drain(n..n + many);
        }
    }
    lines.concat()
}

// ---------------------------------------------------------------- cases

pub struct RepairCase {
    pub kind: Kind,
    pub text: Vec<u8>,
    pub out_length: usize,
}

/// The kinds of texts that need not be in form.
const DAMAGE: [Kind; 9] = [
    Kind::Limits,
    Kind::ByteChanged,
    Kind::ByteInserted,
    Kind::ByteRemoved,
    Kind::Cut,
    Kind::LinesExchanged,
    Kind::LinesRepeated,
    Kind::LinesRemoved,
    Kind::Damaged,
];

fn any_kind(rng: &mut Rng) -> Kind {
    match rng.below(200) {
        0..=19 => Kind::Sound,
        20 | 21 => Kind::NoRule,
        22..=75 => Kind::Bad(*rng.pick(&Flaw::ALL)),
        76..=85 => Kind::Mixed,
        86..=89 => Kind::NoneSound,
        90..=97 => Kind::WrongRules,
        98..=105 => Kind::WrongRule,
        106..=117 => Kind::AnyNumbers,
        118..=121 => Kind::Over64,
        122 => Kind::Many,
        123 | 124 => Kind::NearSize,
        125 => Kind::OverSize,
        _ => *rng.pick(&DAMAGE),
    }
}

/// A text of rules in form with right numbers and these flaws among them.
fn spoiled(rng: &mut Rng, a: &Alphabet, flaws: &[Flaw]) -> Draft {
    let n = rule_number(rng);
    let mut rules = sound(rng, a, n);
    spoil(rng, a, &mut rules, flaws);
    Draft::right(rules)
}

/// A book of a kind that is not damaged.
fn draft_of_kind(rng: &mut Rng, a: &Alphabet, kind: Kind) -> Draft {
    let n = rule_number(rng);
    match kind {
        Kind::Sound => Draft::right(sound(rng, a, n.min(64))),
        Kind::NoRule => Draft { stated: any_number(rng, 0), rules: Vec::new() },
        Kind::Bad(flaw) => spoiled(rng, a, &[flaw]),
        Kind::Mixed => spoiled(rng, a, &Flaw::ALL),
        Kind::NoneSound => {
            let flaws: Vec<Flaw> = (0..n).map(|_| *rng.pick(&Flaw::ALL)).collect();
            Draft::right(flaws.into_iter().map(|flaw| flawed(rng, a, flaw)).collect())
        }
        Kind::WrongRules => {
            Draft { stated: wrong_number(rng, n), ..Draft::right(sound(rng, a, n)) }
        }
        Kind::WrongRule => {
            let mut draft = Draft::right(sound(rng, a, n));
            misnumber(rng, &mut draft);
            draft
        }
        Kind::AnyNumbers => any_numbers(rng, a),
        Kind::Over64 => over_64(rng, a),
        Kind::Many => many(rng),
        Kind::NearSize => of_length(rng, MAX_TEXT - 70, MAX_TEXT),
        Kind::OverSize => of_length(rng, MAX_TEXT + 1, MAX_TEXT + 70),
        _ => base(rng, a),
    }
}

/// The text of a kind.
pub fn text_of_kind(rng: &mut Rng, kind: Kind) -> Vec<u8> {
    let a = gen::alphabet(rng);
    let text = draft_of_kind(rng, &a, kind).text();
    if DAMAGE.contains(&kind) {
        damaged(rng, kind, text)
    } else {
        text
    }
}

pub fn repair_case(rng: &mut Rng) -> RepairCase {
    let kind = any_kind(rng);
    let text = text_of_kind(rng, kind);
    let need = repaired(&text).map_or(text.len(), |new| new.len());
    let out_length =
        if rng.chance(2, 3) { need + rng.below(2_000) } else { gen::output_length(rng, need) };
    RepairCase { kind, text, out_length }
}

/// The case of a seed.
pub fn repair_text(seed: u64) -> RepairCase {
    repair_case(&mut Rng::new(seed))
}
