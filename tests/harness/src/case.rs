//! One case: an operation with its inputs and the room of its output.

#[derive(Clone, Debug)]
pub enum Case {
    CheckTerm { term: Vec<u32> },
    CheckBook { book: Vec<u32> },
    MatchRule { book: Vec<u32>, rule: u32, term: Vec<u32>, room: usize },
    BuildLeft { book: Vec<u32>, rule: u32, bodies: Vec<u32>, lengths: [u32; 16], room: usize },
    Compile { book: Vec<u32>, room: usize },
    MatchTree { tree: Vec<u32>, term: Vec<u32>, room: usize },
    RewriteRoot { book: Vec<u32>, tree: Vec<u32>, term: Vec<u32>, room: usize },
    Simplify { book: Vec<u32>, tree: Vec<u32>, term: Vec<u32>, budget: u16, room: usize },
    ReadBook { text: Vec<u8>, room: usize },
    WriteBook { book: Vec<u32>, room: usize },
    ReadTerm { text: Vec<u8>, room: usize },
    WriteTerm { term: Vec<u32>, room: usize },
    RepairBook { text: Vec<u8>, room: usize },
}

/// An operation's name, and the numbers of document 01 that it can answer with.
pub struct Operation {
    pub name: &'static str,
    pub numbers: &'static [u32],
}

const fn operation(name: &'static str, numbers: &'static [u32]) -> Operation {
    Operation { name, numbers }
}

/// The thirteen operations, in the order of `Case`.
pub const OPERATIONS: [Operation; 13] = [
    operation("check_term", &[0, 11]),
    operation("check_book", &[0, 12]),
    operation("match_rule", &[0, 1, 11, 12, 13, 16]),
    operation("build_left", &[0, 11, 12, 13, 15, 16]),
    operation("compile", &[0, 12, 13]),
    operation("match_tree", &[0, 1, 11, 13, 14]),
    operation("rewrite_root", &[0, 1, 11, 12, 13, 14, 15, 18]),
    operation("simplify", &[0, 2, 11, 12, 13, 14, 15, 18]),
    operation("read_book", &[0, 10, 12, 13]),
    operation("write_book", &[0, 12, 13]),
    operation("read_term", &[0, 10, 11, 13]),
    operation("write_term", &[0, 11, 13]),
    operation("repair_book", &[0, 10, 13]),
];

impl Case {
    /// The operation's place in `OPERATIONS`.
    pub fn operation(&self) -> usize {
        match self {
            Case::CheckTerm { .. } => 0,
            Case::CheckBook { .. } => 1,
            Case::MatchRule { .. } => 2,
            Case::BuildLeft { .. } => 3,
            Case::Compile { .. } => 4,
            Case::MatchTree { .. } => 5,
            Case::RewriteRoot { .. } => 6,
            Case::Simplify { .. } => 7,
            Case::ReadBook { .. } => 8,
            Case::WriteBook { .. } => 9,
            Case::ReadTerm { .. } => 10,
            Case::WriteTerm { .. } => 11,
            Case::RepairBook { .. } => 12,
        }
    }

    /// The room of the lent output, where the operation has one.
    pub fn room(&mut self) -> Option<&mut usize> {
        match self {
            Case::CheckTerm { .. } | Case::CheckBook { .. } => None,
            Case::MatchRule { room, .. }
            | Case::BuildLeft { room, .. }
            | Case::Compile { room, .. }
            | Case::MatchTree { room, .. }
            | Case::RewriteRoot { room, .. }
            | Case::Simplify { room, .. }
            | Case::ReadBook { room, .. }
            | Case::WriteBook { room, .. }
            | Case::ReadTerm { room, .. }
            | Case::WriteTerm { room, .. }
            | Case::RepairBook { room, .. } => Some(room),
        }
    }

    /// A room that is enough for every result of the operation.
    pub fn most_room(&self) -> usize {
        match self {
            Case::CheckTerm { .. } | Case::CheckBook { .. } => 0,
            Case::MatchRule { .. } | Case::MatchTree { .. } => rosenduch::MOST_BODIES,
            Case::Compile { .. } => rosenduch::MOST_TREE,
            Case::ReadBook { .. } => rosenduch::MOST_BOOK,
            Case::WriteBook { .. } | Case::WriteTerm { .. } => rosenduch::MOST_TEXT,
            Case::RepairBook { .. } => rosenduch::MOST_REPAIRED,
            _ => rosenduch::MOST_TERM,
        }
    }
}
