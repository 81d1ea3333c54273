//! Where a call says no.

use crate::call::Said;
use std::fmt::{self, Display, Formatter};

/// Why a script was not lexed, read or written: the refusals of document 01.
///
/// [`Uneven`](Refusal::Uneven) and those that end in `Full` are about the arrays of a call. This crate
/// lends arrays of sizes with which they cannot occur.
#[derive(Clone, Copy, Debug, PartialEq, Eq, Hash)]
pub enum Refusal {
    /// 1: the script has more than 65,535 bytes.
    LongScript,
    /// 2: the script has a byte of 128 or more, the first of them at this offset.
    NotAscii { offset: usize },
    /// 3: two parallel arrays differ in length. Does not occur.
    Uneven,
    /// 4: more tokens than the arrays hold. Does not occur.
    TokensFull,
    /// 5: a fault, at which the Rust of sif panics.
    SourceFault { fault: Fault, offset: usize },
    /// 6: the script nests too deeply.
    TooDeep,
    /// 7: more nodes than the arrays hold. Does not occur.
    NodesFull,
    /// 8: more symbols than the words hold. Does not occur.
    SymbolsFull,
    /// 9: more errors than the arrays hold. Does not occur.
    ErrorsFull,
    /// 10: the script has no canonical text, since it does not read without failure. Of [`text`](crate::text) only.
    Flagged,
    /// 11: a text that is longer than its buffer. Does not occur.
    TextFull,
    /// 20: there is no deepest script of this length. Of [`deepest`](crate::deepest) only.
    NoLength,
}

/// The kind of a fault.
#[derive(Clone, Copy, Debug, PartialEq, Eq, Hash)]
pub enum Fault {
    /// 1: `//` with no newline before the script's end.
    Comment,
    /// 2: a number with a point that runs to the script's end.
    Number,
    /// 3: `(` after anything but a name or a string.
    Call,
    /// 4: `.` after anything but a single token.
    Period,
    /// 5: `[` after anything but a single token.
    Bracket,
}

impl Fault {
    /// All faults, in the order of their numbers.
    pub const ALL: [Fault; 5] =
        [Fault::Comment, Fault::Number, Fault::Call, Fault::Period, Fault::Bracket];

    /// The number of the kind, from 1.
    pub fn number(self) -> u32 {
        self as u32 + 1
    }
}

impl Display for Fault {
    fn fmt(&self, f: &mut Formatter<'_>) -> fmt::Result {
        f.write_str(match self {
            Fault::Comment => "a comment that begins with `//` must end in a newline",
            Fault::Number => "a number with a point cannot be the last of a script",
            Fault::Call => "only a name or a string can be called",
            Fault::Period => "`.` can follow only a single name or literal",
            Fault::Bracket => "`[` can follow only a single name or literal",
        })
    }
}

impl Refusal {
    /// The refusal that a call said, if any.
    pub(crate) fn of(said: Said) -> Option<Refusal> {
        let Said { number, kind, offset } = said;
        Some(match number {
            0 => return None,
            1 => Refusal::LongScript,
            2 => Refusal::NotAscii { offset },
            3 => Refusal::Uneven,
            4 => Refusal::TokensFull,
            5 => Refusal::SourceFault { fault: Fault::ALL[kind as usize - 1], offset },
            6 => Refusal::TooDeep,
            7 => Refusal::NodesFull,
            8 => Refusal::SymbolsFull,
            9 => Refusal::ErrorsFull,
            10 => Refusal::Flagged,
            11 => Refusal::TextFull,
            20 => Refusal::NoLength,
            _ => unreachable!("a call answers 0 to 11 or 20"),
        })
    }

    /// The number of document 01, from 1 to 11, or of document 02.
    pub fn number(self) -> u32 {
        match self {
            Refusal::LongScript => 1,
            Refusal::NotAscii { .. } => 2,
            Refusal::Uneven => 3,
            Refusal::TokensFull => 4,
            Refusal::SourceFault { .. } => 5,
            Refusal::TooDeep => 6,
            Refusal::NodesFull => 7,
            Refusal::SymbolsFull => 8,
            Refusal::ErrorsFull => 9,
            Refusal::Flagged => 10,
            Refusal::TextFull => 11,
            Refusal::NoLength => 20,
        }
    }

    /// The kind of fault, if it is one.
    pub fn fault(self) -> Option<Fault> {
        match self {
            Refusal::SourceFault { fault, .. } => Some(fault),
            _ => None,
        }
    }

    /// The offset in the script that the refusal is about, if there is one.
    pub fn offset(self) -> Option<usize> {
        match self {
            Refusal::NotAscii { offset } | Refusal::SourceFault { offset, .. } => Some(offset),
            _ => None,
        }
    }
}

impl Display for Refusal {
    fn fmt(&self, f: &mut Formatter<'_>) -> fmt::Result {
        f.write_str(match self {
            Refusal::LongScript => "the script has more than 65,535 bytes",
            Refusal::NotAscii { offset } => {
                return write!(f, "the byte at offset {offset} is 128 or more: a script is ASCII");
            }
            Refusal::Uneven => "two parallel arrays differ in length",
            Refusal::TokensFull => "there are more tokens than the arrays hold",
            Refusal::SourceFault { fault, .. } => return fault.fmt(f),
            Refusal::TooDeep => "the script nests too deeply",
            Refusal::NodesFull => "there are more nodes than the arrays hold",
            Refusal::SymbolsFull => "there are more names than the symbol words hold",
            Refusal::ErrorsFull => "there are more errors than the arrays hold",
            Refusal::Flagged => "the script has errors, and so no canonical text",
            Refusal::TextFull => "the canonical text is longer than its buffer",
            Refusal::NoLength => "a deepest script has from 1 to 255 bytes",
        })
    }
}

impl std::error::Error for Refusal {}
