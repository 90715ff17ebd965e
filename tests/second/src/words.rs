//! Words: kind x 16,777,216 + count x 65,536 + id.

pub const SYMBOL: u32 = 0;
pub const ABSTRACTION: u32 = 1;
pub const VARIABLE: u32 = 2;
pub const PATTERN: u32 = 3;

pub const MAX_ID: u32 = 65_535;

/// The most children a symbol has.
pub const MAX_ARGUMENTS: u32 = 15;

pub const fn word(kind: u32, count: u32, id: u32) -> u32 {
    kind * 16_777_216 + count * 65_536 + id
}

pub const fn symbol(id: u32, count: u32) -> u32 {
    word(SYMBOL, count, id)
}

pub const LAMBDA: u32 = word(ABSTRACTION, 1, 0);

pub const fn variable(id: u32) -> u32 {
    word(VARIABLE, 0, id)
}

pub const fn pattern(id: u32, count: u32) -> u32 {
    word(PATTERN, count, id)
}

pub const fn kind(w: u32) -> u32 {
    w / 16_777_216
}

pub const fn count(w: u32) -> u32 {
    w / 65_536 % 256
}

pub const fn id(w: u32) -> u32 {
    w % 65_536
}

/// Whether a word keeps to the table of kinds.
pub fn in_table(w: u32) -> bool {
    match kind(w) {
        SYMBOL => count(w) <= MAX_ARGUMENTS && id(w) <= 1_023,
        ABSTRACTION => count(w) == 1 && id(w) == 0,
        VARIABLE => count(w) == 0 && id(w) >= 1,
        PATTERN => count(w) <= 4 && id(w) <= 15,
        _ => false,
    }
}
