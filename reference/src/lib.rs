//! The reference: the Rust of docs/src, built unchanged, with its answers as plain data.
//!
//! `run` gives it the stack that document 01 names; `tokens` lexes one script and `reading` reads it,
//! and both catch panics. Overflow checks come from the workspace's profiles.

mod errors;
mod kinds;
mod lines;
mod panics;
mod reading;
mod run;
mod tokens;
mod tree;

pub use errors::{Carries, Error};
pub use kinds::{EOF_KIND, STR_KIND, VAL_KIND};
pub use reading::{depth, reading, End, Read, Reading};
pub use run::run;
pub use sifc_parse::{lex, parser, symtab, token};
pub use sifc_traced::trace::{Event, DEPTH_LIMIT};
pub use tokens::{tokens, Ending, Lexed, Token};
pub use tree::Node;

/// Forgets the errors that a parser emitted, where one is run outside of `reading`.
pub fn forget_emitted() {
    sifc_err::seen::take();
}
