//! An independent second program for document 01 (01-scope.md) and for the
//! requests E1, E2 and E7 of document 02 (02-change-requests.md).
//!
//! One module per subject; the public operations are gathered here.

pub mod answer;
pub mod book;
pub mod compile;
pub mod fit;
pub mod gen;
pub mod gen_repair;
pub mod program;
pub mod renumber;
pub mod repair;
pub mod right;
pub mod rng;
pub mod simplify;
pub mod term;
pub mod text;
pub mod walk;
pub mod words;

pub use answer::Answer;
pub use book::check_book;
pub use compile::compile;
pub use fit::{build_left, match_rule};
pub use program::run_file;
pub use repair::{repair_book, repair_file};
pub use rng::Rng;
pub use simplify::{rewrite_root, simplify};
pub use term::check_term;
pub use text::{read_book, read_term, write_book, write_term};
pub use walk::match_tree;
