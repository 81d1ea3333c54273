//! The comparison: the proved calls and the Rust of docs/src on the same scripts.
//!
//! `scripts` makes the scripts, `host` calls the static library, and `tokens`, `reading`, `text` and `deepest`
//! judge its answers by what `reference` says, `value` by what `str::parse` says. `groups` runs all of this; `list` keeps a sample of the Rust's
//! answers; `archive` says which static library it is.

pub mod archive;
pub mod deepest;
mod digest;
pub mod groups;
pub mod host;
mod lent;
pub mod list;
pub mod reading;
mod report;
pub mod scripts;
pub mod text;
pub mod tokens;
pub mod value;
