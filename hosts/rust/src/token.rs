//! The tokens of a script.

use crate::call;
use crate::kind::TokenKind;
use crate::place::Span;
use crate::refusal::Fault;

/// The kind of a last word that stands for a fault which a reading did not come to.
const HIDDEN_FAULT: u32 = 48;

/// A token, with its part of the script.
#[derive(Clone, Copy, Debug, PartialEq, Eq)]
pub struct Token<'s> {
    pub kind: TokenKind,
    pub span: Span,
    /// The bytes of the token in the script; of a string with its quotes, of Eof none.
    pub text: &'s str,
    /// The number of tokens before it.
    pub index: usize,
}

impl<'s> Token<'s> {
    /// The text; of a string without its quotes.
    pub fn spelling(&self) -> &'s str {
        match self.kind {
            TokenKind::Str => &self.text[1..self.text.len() - 1],
            _ => self.text,
        }
    }

    /// The value of a number: the nearest `f64`, ties to even. None of a number of 20 digits or more,
    /// leading zeros counted, and of every other kind of token.
    ///
    /// ```
    /// let tokens = sif::tokens(b"007.50 + \"1\";")?;
    /// let values: Vec<Option<f64>> = tokens.iter().map(|token| token.value()).collect();
    /// assert_eq!(values, [Some(7.5), None, None, None, None]);
    /// # Ok::<(), sif::Refusal>(())
    /// ```
    pub fn value(&self) -> Option<f64> {
        match self.kind {
            TokenKind::Val => call::value(self.text.as_bytes()),
            _ => None,
        }
    }
}

/// Why the tokens end.
#[derive(Clone, Copy, Debug, PartialEq, Eq)]
pub enum Stop {
    /// The whole script was seen.
    End,
    /// A character that begins no token: it and what is behind it are not read, and this is no error of sif.
    UnknownCharacter { offset: usize },
    /// A string that begins here has no end: it is not read, and this is no error of sif.
    OpenString { offset: usize },
    /// A fault that the reading did not come to, since an error ended it before.
    Fault { fault: Fault, offset: usize },
}

impl Stop {
    /// Where the part begins that is not read, if there is one.
    pub fn offset(self) -> Option<usize> {
        match self {
            Stop::End => None,
            Stop::UnknownCharacter { offset }
            | Stop::OpenString { offset }
            | Stop::Fault { offset, .. } => Some(offset),
        }
    }
}

/// The tokens of a script, in order. The last is Eof, but where a fault ends them.
#[derive(Clone, Debug, PartialEq)]
pub struct Tokens<'s> {
    script: &'s str,
    offs: Vec<u32>,
    words: Vec<u32>,
}

impl<'s> Tokens<'s> {
    /// The tokens that a call has put into its two arrays, of the script that it was given.
    pub(crate) fn new(script: &'s [u8], offs: Vec<u32>, words: Vec<u32>) -> Tokens<'s> {
        let script = std::str::from_utf8(script).expect("what a call accepts is ASCII");
        Tokens { script, offs, words }
    }

    /// The script.
    pub fn script(&self) -> &'s str {
        self.script
    }

    /// How many tokens there are, Eof included.
    pub fn len(&self) -> usize {
        self.words.len() - usize::from(self.hidden_fault().is_some())
    }

    /// Never so: there is an Eof or a fault at least.
    pub fn is_empty(&self) -> bool {
        self.len() == 0
    }

    /// The token with so many before it.
    pub fn get(&self, index: usize) -> Option<Token<'s>> {
        let (off, word) = (*self.offs.get(index)? as usize, *self.words.get(index)?);
        let span = Span { start: off, end: off + word as usize / 64 };
        let kind = TokenKind::from_number(word % 64)?;
        Some(Token { kind, span, text: &self.script[span.range()], index })
    }

    /// The token that begins at an offset.
    pub(crate) fn at(&self, offset: usize) -> Option<Token<'s>> {
        self.get(self.offs.binary_search(&u32::try_from(offset).ok()?).ok()?)
    }

    pub fn iter(&self) -> impl Iterator<Item = Token<'s>> + '_ {
        (0..self.len()).filter_map(|index| self.get(index))
    }

    /// The comments of the script as far as it was lexed, without their newlines.
    pub fn comments(&self) -> Vec<Span> {
        let mut found = Vec::new();
        let mut from = 0;
        for (off, word) in self.offs.iter().zip(&self.words) {
            gap(self.script, from, *off as usize, &mut found);
            from = (off + word / 64) as usize;
        }
        found
    }

    /// Why the tokens end.
    pub fn stop(&self) -> Stop {
        if let Some(offset) = self.hidden_fault() {
            let slash = self.script.as_bytes()[offset] == b'/';
            return Stop::Fault {
                fault: if slash { Fault::Comment } else { Fault::Number },
                offset,
            };
        }
        let end = self.script.len();
        let eof = self.offs.last().map_or(end, |off| *off as usize);
        if eof < end {
            return Stop::UnknownCharacter { offset: eof };
        }
        let last = self.len().checked_sub(2).and_then(|index| self.get(index));
        let offset = gap(self.script, last.map_or(0, |token| token.span.end), end, &mut Vec::new());
        if offset < end {
            return Stop::OpenString { offset };
        }
        Stop::End
    }

    fn hidden_fault(&self) -> Option<usize> {
        let hidden = *self.words.last()? % 64 == HIDDEN_FAULT;
        hidden.then(|| *self.offs.last().expect("as many as words") as usize)
    }

    /// The two arrays, with their last entry for a fault that the reading did not come to.
    pub(crate) fn arrays(&self) -> (&[u32], &[u32]) {
        (&self.offs, &self.words)
    }
}

/// Goes over white space and comments, of which it notes the latter: the offset of the first other byte, or `to`.
fn gap(script: &str, from: usize, to: usize, comments: &mut Vec<Span>) -> usize {
    let mut at = from;
    while at < to {
        let rest = &script.as_bytes()[at..to];
        if matches!(rest[0], 9..=13 | b' ') {
            at += 1;
        } else if rest[0] == b'#' || rest.starts_with(b"//") {
            let len = rest.iter().position(|byte| *byte == b'\n').unwrap_or(rest.len());
            comments.push(Span { start: at, end: at + len });
            at += len;
        } else {
            return at;
        }
    }
    to
}
