//! Refusals, and the errors of a reading: their two words, and the list of them.

use crate::token::Tokens;

/// A refusal's number, kind and offset.
#[derive(Clone, Copy)]
pub struct Refusal(pub u32, pub u32, pub usize);

impl Refusal {
    /// A refusal that has neither kind nor offset.
    pub fn plain(number: u32) -> Refusal {
        Refusal(number, 0, 0)
    }
}

/// Why a declaration fails; tokens by their indices.
#[derive(Clone, Copy)]
pub enum Reason {
    InvalidIdent(usize),
    InvalidTkn(usize),
    InvalidTknMsg(u32),
    InvalidAssign(usize),
    InvalidIfStmt,
    TknMismatch(u32, usize),
    FnParmCntExceeded(usize),
    WrongFnParmCnt(usize, usize),
    UndeclSym(usize),
    ExpectedIdent(usize),
}

/// The fixed messages of InvalidTkn: `expected either '=' or ';`, `unexpected end of file` and
/// `expected identifier`.
pub const EQ_OR_SEMICOLON: u32 = 1;
pub const END_OF_FILE: u32 = 2;
pub const AN_IDENTIFIER: u32 = 3;

impl Reason {
    /// Its word: the number in the order of `ParseErrTy`, and what it carries.
    fn word(self) -> u32 {
        let (number, carried, second) = match self {
            Reason::InvalidIdent(token) => (1, token, 0),
            Reason::InvalidTkn(token) => (2, token, 0),
            Reason::InvalidTknMsg(message) => (2, 0, message),
            Reason::InvalidAssign(token) => (3, token, 0),
            Reason::InvalidIfStmt => (5, 0, 0),
            Reason::TknMismatch(kind, token) => (6, token, kind),
            Reason::FnParmCntExceeded(count) => (7, count, 0),
            Reason::WrongFnParmCnt(expected, found) => (8, expected, found as u32),
            Reason::UndeclSym(token) => (9, token, 0),
            Reason::ExpectedIdent(token) => (11, token, 0),
        };
        number + 16 * carried as u32 + 1_048_576 * second
    }

    /// Whether the reading goes on after it.
    pub fn continuable(self) -> bool {
        !matches!(self, Reason::TknMismatch(..) | Reason::FnParmCntExceeded(_))
    }
}

impl From<(u32, u32)> for Early {
    fn from((place, reason): (u32, u32)) -> Early {
        Early { place, reason }
    }
}

/// An error: the index of the token at whose place it stands, and why.
#[derive(Clone, Copy)]
pub struct ParseErr {
    pub token: usize,
    pub reason: Reason,
}

/// The two words of an error that ends a reading, or 0 and 0.
#[derive(Clone, Copy, Debug, PartialEq)]
pub struct Early {
    pub place: u32,
    pub reason: u32,
}

/// The listed errors. A place is a token's index until `place_all`.
pub struct Errors<'a> {
    pub places: &'a mut [u32],
    pub reasons: &'a mut [u32],
    pub count: usize,
}

impl Errors<'_> {
    pub fn push(&mut self, err: ParseErr) -> Result<(), Refusal> {
        if self.count == self.places.len() {
            return Err(Refusal::plain(9));
        }
        self.places[self.count] = err.token as u32;
        self.reasons[self.count] = err.reason.word();
        self.count += 1;
        Ok(())
    }

    /// Replaces the tokens' indices by places, in one pass over the script: the tokens of the listed
    /// errors never go back, and the error that ends a reading comes last.
    pub fn place_all(&mut self, tokens: Tokens, early: Option<ParseErr>) -> Early {
        let mut pen = Pen { script: tokens.script, at: 0, line: 0, line_start: 0 };
        for place in &mut self.places[..self.count] {
            *place = pen.place(tokens.offset(*place as usize));
        }
        early.map_or(Early { place: 0, reason: 0 }, |err| Early {
            place: pen.place(tokens.offset(err.token)),
            reason: err.reason.word(),
        })
    }
}

/// A place in the script that goes forward: an offset, the newlines before it, and its line's start.
struct Pen<'a> {
    script: &'a [u8],
    at: usize,
    line: usize,
    line_start: usize,
}

impl Pen<'_> {
    /// The word of a token's place: 65,536 times the line, from 0, and the column. Eof at the end of a
    /// last line without a newline is one line further.
    fn place(&mut self, offset: usize) -> u32 {
        while self.at < offset {
            self.at += 1;
            if self.script[self.at - 1] == b'\n' {
                self.line += 1;
                self.line_start = self.at;
            }
        }
        if offset == self.script.len() && offset > self.line_start {
            return 65_536 * (self.line as u32 + 1);
        }
        65_536 * self.line as u32 + (offset - self.line_start) as u32
    }
}
