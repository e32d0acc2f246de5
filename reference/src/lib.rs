//! Reference implementation of the rules (docs/RULES.md), written for
//! comparison: every rule is carried out by the most direct means.

mod answers;
mod desk;
mod desk_lines;
mod desk_words;
mod file;
mod listing;
mod survey;
mod tables;
mod text;
mod verdict;

pub use answers::{ask, walk, Answer, Route};
pub use desk::desk;
pub use file::{export, import};
pub use listing::reports;
pub use survey::accept;
pub use tables::{build, threshold, STORED};
pub use text::{put_text, read, write};
pub use verdict::{test, Tested, Verdict};

/// The table entry that means "none".
pub const NONE: u16 = 65535;
