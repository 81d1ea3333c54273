//! The errors that `emit` is called on, kept in the place of being printed. `Parser::parse` emits the
//! error of each top-level declaration that fails, and keeps no other record of the one that ends it.

use crate::lex_err::LexErr;
use crate::parse_err::ParseErr;
use std::cell::RefCell;

thread_local! {
    static SEEN: RefCell<Vec<ParseErr>> = const { RefCell::new(Vec::new()) };
}

/// The parse errors that were emitted since the last call of this.
pub fn take() -> Vec<ParseErr> {
    SEEN.take()
}

/// What `emit` prints of an error.
pub trait Emitted {
    fn keep(&self);
}

impl Emitted for ParseErr {
    fn keep(&self) {
        SEEN.with_borrow_mut(|seen| seen.push(self.clone()));
    }
}

impl Emitted for LexErr {
    fn keep(&self) {}
}
