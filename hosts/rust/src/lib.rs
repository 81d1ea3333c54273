//! Reads sif scripts: from bytes to tokens, tree, errors and canonical text.
//!
//! The work is done by a library that is proved to give what its definition says for every input
//! (docs/PROOFS.md); this crate lends it memory and gives its answers types. Scripts are ASCII, of at most
//! 65,535 bytes.
//!
//! ```
//! use sif::{NodeKind, View};
//!
//! let reading = sif::read(b"var rate = 4.25;\nprint(rate);")?;
//! assert!(!reading.failed());
//! let View::Program { mut declarations } = reading.root().view() else { unreachable!() };
//! let View::VarDecl { name, is_global, value } = declarations.next().unwrap().view() else { panic!() };
//! assert_eq!((name.text, is_global), ("rate", true));
//! assert_eq!(value.unwrap().token().unwrap().text, "4.25");
//! assert_eq!(declarations.next().unwrap().kind(), NodeKind::ExprStmt);
//! # Ok::<(), sif::Refusal>(())
//! ```
//!
//! A script with errors is read too, and says where they are:
//!
//! ```
//! let reading = sif::read(b"var a = 1;\na = b + 1;\n")?;
//! let shown: Vec<String> = reading.problems().map(|error| error.to_string()).collect();
//! assert_eq!(shown[0], "2:5: `b` is not declared");
//! assert!(reading.failed());
//! # Ok::<(), sif::Refusal>(())
//! ```
//!
//! # Threads and stack
//!
//! A reading recurses as its script nests, and the deepest takes about 2.4 MB of stack; a Rust thread has
//! 2 MiB by default. [`read`] and [`text`] count the bytes of a script that can nest: with n of them at most
//! 3 * n + 3 calls of the parser are active at once, which is proved ([`deepest`]). With at most 64 of them
//! the library is called at once: it takes less than half a megabyte then. With more, the call runs on a
//! thread of its own with a stack of 8 MiB, and the caller waits. So any thread can call with half a
//! megabyte to spare. docs/HOSTS.md says what the thread costs. [`tokens`] takes little stack always.
//!
//! # Panics
//!
//! [`read`] and [`text`] panic where the system has no thread to give. Nothing else panics.

#![deny(unsafe_code)]
#![warn(missing_debug_implementations)]

#[allow(unsafe_code)]
mod call;
mod error;
mod kind;
mod place;
mod reading;
mod refusal;
mod stack;
mod token;
mod tree;

pub use error::{Message, ParseError, Reason};
pub use kind::{NodeKind, TokenKind};
pub use place::{Lines, Place, Span};
pub use reading::{Raw, Reading};
pub use refusal::{Fault, Refusal};
pub use token::{Stop, Token, Tokens};
pub use tree::{Children, Node, View};

use call::{Arrays, Rooms, Said};

/// The longest script that is read, in bytes.
pub const MAX_SCRIPT: usize = 65_535;

/// Lexes a script.
///
/// ```
/// use sif::TokenKind;
///
/// let tokens = sif::tokens(b"a => \"b\" # c")?;
/// let kinds: Vec<TokenKind> = tokens.iter().map(|token| token.kind).collect();
/// assert_eq!(kinds, [TokenKind::Ident, TokenKind::EqArrow, TokenKind::Str, TokenKind::Eof]);
/// let string = tokens.get(2).unwrap();
/// assert_eq!((string.text, string.spelling(), string.span.start), ("\"b\"", "b", 5));
/// # Ok::<(), sif::Refusal>(())
/// ```
///
/// # Errors
///
/// Refusals 1, 2 and 5 of document 01, the last for each fault of kind 1 or 2.
pub fn tokens(script: &[u8]) -> Result<Tokens<'_>, Refusal> {
    let room = Rooms::ample(lent(script)).tokens;
    let (mut offs, mut words) = (vec![0; room], vec![0; room]);
    let (said, count) = call::tokens(script, &mut offs, &mut words);
    answered(said)?;
    offs.truncate(count);
    words.truncate(count);
    Ok(Tokens::new(script, offs, words))
}

/// Reads a script.
///
/// ```
/// use sif::{Fault, Refusal};
///
/// let refusal = sif::read(b"var a; (1 + 2)(a);").unwrap_err();
/// assert_eq!(refusal, Refusal::SourceFault { fault: Fault::Call, offset: 14 });
/// assert_eq!(refusal.to_string(), "only a name or a string can be called");
/// ```
///
/// # Errors
///
/// Refusals 1, 2, 5 and 6 of document 01. A script with errors of its own is read:
/// [`Reading::errors`] and [`Reading::ended`] have them.
///
/// # Panics
///
/// Where the script may nest deeply and the system has no thread to give.
pub fn read(script: &[u8]) -> Result<Reading<'_>, Refusal> {
    read_with(script, Rooms::ample(lent(script)))
}

/// Reads a script, and writes its canonical text: one spelling for one tree.
///
/// ```
/// let text = sif::text(b"var a=(1+2)*3; # three")?;
/// assert_eq!(text, b"var a = ( 1 + 2 ) * 3 ;\n");
/// assert_eq!(sif::text(&text)?, text);
/// # Ok::<(), sif::Refusal>(())
/// ```
///
/// # Errors
///
/// Refusals 1, 2, 5, 6 and 10 of document 01; the last for a script that does not read without failure.
///
/// # Panics
///
/// Where the script may nest deeply and the system has no thread to give.
pub fn text(script: &[u8]) -> Result<Vec<u8>, Refusal> {
    let len = lent(script);
    let mut arrays = Arrays::new(Rooms::ample(len));
    let mut text = vec![0; call::text_room(len)];
    let (said, count) = stack::with_room(script, || call::text(script, &mut arrays, &mut text));
    answered(said)?;
    text.truncate(count);
    Ok(text)
}

/// A script in whose reading as many calls of the parser are active at once as in any of its length.
#[derive(Clone, Debug, PartialEq, Eq)]
pub struct Deepest {
    /// Opening parentheses.
    pub script: Vec<u8>,
    /// How many calls are active: those that refusal 6 counts.
    pub depth: usize,
}

/// The deepest script of a length from 1 to 255: to try a stack, or to measure what a reading takes.
///
/// ```
/// let deepest = sif::deepest(4)?;
/// assert_eq!((&deepest.script[..], deepest.depth), (&b"(((("[..], 15));
/// assert_eq!(sif::deepest(256), Err(sif::Refusal::NoLength));
/// # Ok::<(), sif::Refusal>(())
/// ```
///
/// # Errors
///
/// Refusal 20 of document 02, for any other length.
pub fn deepest(n: usize) -> Result<Deepest, Refusal> {
    let mut script = vec![0; n.min(LONGEST_DEEPEST)];
    let (said, depth) = call::deepest(n, &mut script);
    answered(said)?;
    Ok(Deepest { script, depth })
}

/// The longest script that [`deepest`] gives.
const LONGEST_DEEPEST: usize = 255;

/// The value of a number literal: digits over a power of ten, rounded to the nearest `f64`, ties to even.
/// None where the bytes are no literal of at most 19 digits, leading zeros counted. [`Token::value`] asks
/// it of a token.
///
/// ```
/// assert_eq!(sif::value(b"0.1"), Some(0.1));
/// assert_eq!(sif::value(b"5."), Some(5.0));
/// assert_eq!(sif::value(b".5"), None);
/// assert_eq!(sif::value(b"1e5"), None);
/// ```
pub fn value(literal: &[u8]) -> Option<f64> {
    call::value(literal)
}

/// The length that memory is lent for: none for a script that is refused at entry.
fn lent(script: &[u8]) -> usize {
    if script.len() > MAX_SCRIPT {
        0
    } else {
        script.len()
    }
}

fn read_with(script: &[u8], rooms: Rooms) -> Result<Reading<'_>, Refusal> {
    let mut arrays = Arrays::new(rooms);
    let (said, summary) = stack::with_room(script, || call::reading(script, &mut arrays));
    answered(said)?;
    Ok(Reading::new(script, arrays, summary))
}

fn answered(said: Said) -> Result<(), Refusal> {
    Refusal::of(said).map_or(Ok(()), Err)
}

#[cfg(test)]
mod replay;
