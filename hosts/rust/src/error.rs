//! The errors of a script that is read.

use crate::call::Early;
use crate::kind::TokenKind;
use crate::place::Place;
use crate::token::{Token, Tokens};
use std::fmt::{self, Display, Formatter};

/// An error of a script, with its place. It is shown as `LINE:COLUMN: reason`, the column from 1.
/// [`Lines::offset`](crate::Lines::offset) has the offset of the place, and the token that the reason
/// carries has a span; the two are not always the same part of the script.
#[derive(Clone, Copy, Debug, PartialEq, Eq)]
pub struct ParseError<'s> {
    pub place: Place,
    pub reason: Reason<'s>,
}

/// What is wrong: the cases of `ParseErrTy` in the Rust source of sif, with what they carry.
#[derive(Clone, Copy, Debug, PartialEq, Eq)]
pub enum Reason<'s> {
    /// 1: this stands where a name must.
    InvalidIdent(Token<'s>),
    /// 2: nothing can begin with this.
    InvalidTkn(Token<'s>),
    /// 2 too: a fixed message in the place of a token.
    Expected(Message),
    /// 3: this cannot be assigned to.
    InvalidAssign(Token<'s>),
    /// 4: no script has it.
    InvalidForStmt,
    /// 5: an if statement with more than one else.
    InvalidIfStmt,
    /// 6: one kind of token was expected and another was found. It ends the reading.
    TknMismatch { expected: TokenKind, found: Token<'s> },
    /// 7: more parameters or arguments than there may be. It ends the reading.
    FnParmCntExceeded { most: usize },
    /// 8: a function is called with the wrong number of arguments.
    WrongFnParmCnt { expected: usize, found: usize },
    /// 9: a name that is not declared.
    UndeclSym(Token<'s>),
    /// 10: no script has it.
    UnassignedVar(Token<'s>),
    /// 11: this stands where a name must.
    ExpectedIdent(Token<'s>),
}

/// The fixed messages of reason 2.
#[derive(Clone, Copy, Debug, PartialEq, Eq)]
pub enum Message {
    /// 1: expected either `=` or `;`.
    EqOrSemicolon,
    /// 2: unexpected end of file.
    EndOfFile,
    /// 3: expected a name.
    Name,
}

impl<'s> Reason<'s> {
    /// The token that the reason carries, if it carries one.
    pub fn token(&self) -> Option<Token<'s>> {
        match *self {
            Reason::InvalidIdent(token)
            | Reason::InvalidTkn(token)
            | Reason::InvalidAssign(token)
            | Reason::TknMismatch { found: token, .. }
            | Reason::UndeclSym(token)
            | Reason::UnassignedVar(token)
            | Reason::ExpectedIdent(token) => Some(token),
            Reason::Expected(_)
            | Reason::InvalidForStmt
            | Reason::InvalidIfStmt
            | Reason::FnParmCntExceeded { .. }
            | Reason::WrongFnParmCnt { .. } => None,
        }
    }

    /// The number of document 01, from 1 to 11.
    pub fn number(&self) -> u32 {
        match self {
            Reason::InvalidIdent(_) => 1,
            Reason::InvalidTkn(_) | Reason::Expected(_) => 2,
            Reason::InvalidAssign(_) => 3,
            Reason::InvalidForStmt => 4,
            Reason::InvalidIfStmt => 5,
            Reason::TknMismatch { .. } => 6,
            Reason::FnParmCntExceeded { .. } => 7,
            Reason::WrongFnParmCnt { .. } => 8,
            Reason::UndeclSym(_) => 9,
            Reason::UnassignedVar(_) => 10,
            Reason::ExpectedIdent(_) => 11,
        }
    }
}

impl<'s> ParseError<'s> {
    /// The error that two words of a reading say, `include/sif.h`: places and reasons.
    pub(crate) fn of_words(place: u32, reason: u32, tokens: &Tokens<'s>) -> ParseError<'s> {
        let place = Place { line: place as usize / 65_536 + 1, column: place as usize % 65_536 };
        let (first, second) = (reason as usize / 16 % 65_536, reason as usize / 1_048_576);
        let token = || tokens.get(first).expect("a carried token is one of the script's");
        let kind = || TokenKind::from_number(second as u32).expect("an expected kind is a kind");
        let reason = match (reason % 16, second) {
            (1, _) => Reason::InvalidIdent(token()),
            (2, 1) => Reason::Expected(Message::EqOrSemicolon),
            (2, 2) => Reason::Expected(Message::EndOfFile),
            (2, 3) => Reason::Expected(Message::Name),
            (2, _) => Reason::InvalidTkn(token()),
            (3, _) => Reason::InvalidAssign(token()),
            (4, _) => Reason::InvalidForStmt,
            (5, _) => Reason::InvalidIfStmt,
            (6, _) => Reason::TknMismatch { expected: kind(), found: token() },
            (7, _) => Reason::FnParmCntExceeded { most: first },
            (8, _) => Reason::WrongFnParmCnt { expected: first, found: second },
            (9, _) => Reason::UndeclSym(token()),
            (10, _) => Reason::UnassignedVar(token()),
            (11, _) => Reason::ExpectedIdent(token()),
            _ => unreachable!("reasons are 1 to 11"),
        };
        ParseError { place, reason }
    }

    /// The error that ended a reading, if one did.
    pub(crate) fn of_early(early: Early, tokens: &Tokens<'s>) -> Option<ParseError<'s>> {
        let place = Place { line: early.line, column: early.pos };
        let reason = match early.number {
            0 => return None,
            6 => Reason::TknMismatch {
                expected: TokenKind::from_number(early.value as u32)
                    .expect("an expected kind is a kind"),
                found: tokens.at(early.offset).expect("a carried token is one of the script's"),
            },
            7 => Reason::FnParmCntExceeded { most: early.value },
            _ => unreachable!("only 6 and 7 end a reading"),
        };
        Some(ParseError { place, reason })
    }
}

/// A token as a message shows it: in quotes, or words for the end of the script. What would not show as
/// one line of signs is escaped, and a long text is cut.
struct Shown<'s>(Token<'s>);

impl Display for Shown<'_> {
    fn fmt(&self, f: &mut Formatter<'_>) -> fmt::Result {
        const MOST: usize = 40;
        let Token { kind, text, .. } = self.0;
        if kind == TokenKind::Eof {
            return kind.fmt(f);
        }
        let (shown, dots) = if text.len() > MOST { (&text[..MOST], "..") } else { (text, "") };
        let shown = shown.as_bytes().escape_ascii().to_string();
        write!(f, "`{}{dots}`", shown.replace("\\\"", "\"").replace("\\'", "'"))
    }
}

impl Display for Reason<'_> {
    fn fmt(&self, f: &mut Formatter<'_>) -> fmt::Result {
        match *self {
            Reason::InvalidIdent(found) => write!(f, "{} is not a name", Shown(found)),
            Reason::InvalidTkn(found) => write!(f, "{} cannot stand here", Shown(found)),
            Reason::Expected(message) => message.fmt(f),
            Reason::InvalidAssign(found) => write!(f, "{} cannot be assigned to", Shown(found)),
            Reason::InvalidForStmt => f.write_str("a loop must begin with a name"),
            Reason::InvalidIfStmt => f.write_str("an if statement with more than one else"),
            Reason::TknMismatch { expected, found } => {
                write!(f, "expected {expected}, found {}", Shown(found))
            }
            Reason::FnParmCntExceeded { most } => {
                write!(f, "more than {most} parameters or arguments")
            }
            Reason::WrongFnParmCnt { expected, found } => {
                let plural = if expected == 1 { "" } else { "s" };
                write!(f, "expected {expected} argument{plural}, found {found}")
            }
            Reason::UndeclSym(found) => write!(f, "{} is not declared", Shown(found)),
            Reason::UnassignedVar(found) => write!(f, "{} has no value", Shown(found)),
            Reason::ExpectedIdent(found) => write!(f, "expected a name, found {}", Shown(found)),
        }
    }
}

impl Display for Message {
    fn fmt(&self, f: &mut Formatter<'_>) -> fmt::Result {
        f.write_str(match self {
            Message::EqOrSemicolon => "expected `=` or `;`",
            Message::EndOfFile => "unexpected end of the script",
            Message::Name => "expected a name",
        })
    }
}

impl Display for ParseError<'_> {
    fn fmt(&self, f: &mut Formatter<'_>) -> fmt::Result {
        write!(f, "{}: {}", self.place, self.reason)
    }
}

impl std::error::Error for ParseError<'_> {}
