//! What a run checks of a script: the reading call, the text call, and demand 3.

use crate::host::{READING, TEXT, TWIN_READING, TWIN_TEXT};
use crate::reading::{self, Case};
use crate::text;
use crate::text::trip::{self, Calls, Pairs};
use std::cell::RefCell;

/// The calls of a run, and the trees and texts that it has seen so far.
pub struct Checks {
    pub calls: Calls,
    pairs: RefCell<Pairs>,
}

/// The name of a script's ending, or a difference.
pub type Checked = Result<&'static str, String>;

impl Checks {
    fn new(calls: Calls) -> Checks {
        Checks { calls, pairs: RefCell::default() }
    }

    /// Of the calls of the static library.
    pub fn of_library() -> Checks {
        Checks::new(Calls { reading: READING, text: TEXT })
    }

    /// Of the calls of the plain twin.
    pub fn of_twin() -> Checks {
        Checks::new(Calls { reading: TWIN_READING, text: TWIN_TEXT })
    }

    /// Checks a script with the usual arrays and buffers.
    pub fn script(&self, script: &[u8]) -> Checked {
        let case = Case::new(script);
        reading::check_case(self.calls.reading, &case)?;
        text::check_case(self.calls.text, &case)?;
        self.trip(&case)
    }

    /// The same with arrays and buffers of every small size.
    pub fn all_rooms(&self, script: &[u8]) -> Checked {
        let case = Case::new(script);
        reading::check_all_rooms(self.calls.reading, &case)?;
        text::check_all_rooms(self.calls.text, &case)?;
        self.trip(&case)
    }

    fn trip(&self, case: &Case) -> Checked {
        match case.flag_down() {
            Some(read) => trip::check(self.calls, case, read, &mut self.pairs.borrow_mut()),
            None => Ok(case.ending()),
        }
    }

    /// Prints how many trees and texts there were.
    pub fn tell(&self) {
        println!("demand 3, {}", self.pairs.borrow().told());
    }
}
