//! The Rust's parse errors as plain data.

use crate::tokens::Lexed;
use sifc_err::parse_err::{ParseErr, ParseErrTy};

#[derive(Clone, Debug, PartialEq)]
pub struct Error {
    pub line: usize,
    pub pos: usize,
    /// The place of its reason in `ParseErrTy`, from 1.
    pub reason: u32,
    pub carries: Carries,
}

/// What a reason carries. The Rust has a token's spelling only; the index comes from the trace.
#[derive(Clone, Debug, PartialEq)]
pub enum Carries {
    Nothing,
    Token {
        index: usize,
        spelling: String,
    },
    Message(String),
    /// The spelling of the expected kind, and the token that stands in its place.
    Mismatch {
        expected: String,
        index: usize,
        found: String,
    },
    Count(usize),
    /// The expected count, and the one that was found.
    Counts(usize, usize),
}

/// An error, with the place of the token that it carries: the token there must have the spelling that
/// the Rust carries.
pub fn error(err: &ParseErr, carried: (usize, usize), lexed: &Lexed) -> Result<Error, String> {
    let index = lexed.at(carried.0, carried.1)?;
    let error = told(err, index, &lexed.tokens[index].spelling);
    match &error.carries {
        Carries::Token { spelling, .. } | Carries::Mismatch { found: spelling, .. }
            if *spelling != lexed.tokens[index].spelling =>
        {
            Err(format!("{err:?} carries what is not at its place"))
        }
        _ => Ok(error),
    }
}

/// An error that carries the token at an index with a spelling, if it carries one.
fn told(err: &ParseErr, index: usize, there: &str) -> Error {
    let token = |spelling: &String| Carries::Token { index, spelling: spelling.clone() };
    let (reason, carries) = match &err.ty {
        ParseErrTy::InvalidIdent(found) => (1, token(found)),
        ParseErrTy::InvalidTkn(found) if found == there => (2, token(found)),
        ParseErrTy::InvalidTkn(message) => (2, Carries::Message(message.clone())),
        ParseErrTy::InvalidAssign(found) => (3, token(found)),
        ParseErrTy::InvalidForStmt => (4, Carries::Nothing),
        ParseErrTy::InvalidIfStmt => (5, Carries::Nothing),
        ParseErrTy::TknMismatch(expected, found) => {
            (6, Carries::Mismatch { expected: expected.clone(), index, found: found.clone() })
        }
        ParseErrTy::FnParmCntExceeded(count) => (7, Carries::Count(*count)),
        ParseErrTy::WrongFnParmCnt(expected, found) => (8, Carries::Counts(*expected, *found)),
        ParseErrTy::UndeclSym(name) => (9, token(name)),
        ParseErrTy::UnassignedVar(name) => (10, token(name)),
        ParseErrTy::ExpectedIdent(found) => (11, token(found)),
    };
    Error { line: err.line, pos: err.pos, reason, carries }
}
