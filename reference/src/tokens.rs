//! All tokens of a script, as the Rust lexes it, and how the lexing ended.

use crate::kinds::kind_number;
use crate::lines::Lines;
use crate::panics::{caught, PanicPlace};
use sifc_parse::lex::Lexer;
use sifc_parse::token::{self, TokenTy};

/// What the Rust says of a script: its tokens, Eof the last of them unless a panic came first.
#[derive(Clone, Debug, PartialEq)]
pub struct Lexed {
    pub tokens: Vec<Token>,
    pub ending: Ending,
}

#[derive(Clone, Debug, PartialEq)]
pub struct Token {
    /// The place of its kind in `TokenTy`, from 1.
    pub kind: u32,
    pub line: usize,
    pub pos: usize,
    /// The bytes from the token's place to the lexer's place after it; 0 for Eof.
    pub len: usize,
    /// What `Display` writes: the name of an Ident or Str, a sign, a reserved word, `EOF`.
    pub spelling: String,
    /// The value of a Val.
    pub val: Option<f64>,
}

impl Lexed {
    /// The index of the token at a place.
    pub fn at(&self, line: usize, pos: usize) -> Result<usize, String> {
        self.tokens
            .binary_search_by_key(&(line, pos), |token| (token.line, token.pos))
            .map_err(|_| format!("the Rust has no token at line {line}, column {pos}"))
    }
}

#[derive(Clone, Debug, PartialEq)]
pub enum Ending {
    /// Eof came, and a further call of `lex` gave the same Eof again.
    Eof,
    /// A further call of `lex` after Eof gave something else.
    UnsteadyEof,
    /// A lexing panic of document 01, kind 1 or 2, with the offset of its `//` or number.
    Fault { kind: u32, offset: usize },
    /// A panic that document 01 does not know.
    OtherPanic(PanicPlace),
}

/// The tokens of a script of ASCII bytes.
pub fn tokens(script: &[u8]) -> Lexed {
    let lines = Lines::of(script);
    let mut lexer = Lexer::new(script);
    let mut tokens = Vec::new();
    loop {
        let before = lines.offset(lexer.line_num, lexer.line_pos);
        let token = match caught(|| lexer.lex()) {
            Ok(token) => token,
            Err(place) => return Lexed { tokens, ending: after_panic(script, before, place) },
        };
        let after = lines.offset(lexer.line_num, lexer.line_pos);
        tokens.push(as_data(&token, after, &lines));
        if token.ty == TokenTy::Eof {
            let steady = caught(|| lexer.lex()).as_ref() == Ok(&token);
            let ending = if steady { Ending::Eof } else { Ending::UnsteadyEof };
            return Lexed { tokens, ending };
        }
    }
}

/// A token of the Rust, after which the lexer stood at the offset `after`.
fn as_data(token: &token::Token, after: usize, lines: &Lines) -> Token {
    Token {
        kind: kind_number(&token.ty),
        line: token.line,
        pos: token.pos,
        len: after - lines.offset(token.line, token.pos),
        spelling: token.ty.to_string(),
        val: match token.ty {
            TokenTy::Val(val) => Some(val),
            _ => None,
        },
    }
}

/// The ending by a panic at `place`, in a call of `lex` that found the lexer at the offset `before`.
fn after_panic(script: &[u8], before: usize, place: PanicPlace) -> Ending {
    match place.fault_kind() {
        Some(kind) => Ending::Fault { kind, offset: before + begin(&script[before..]) },
        None => Ending::OtherPanic(place),
    }
}

/// Where the comment or number begins that a call of `lex` on these bytes panicked in. Only the Rust
/// is asked: the place is the last one up to which it skips all bytes. A lexer keeps nothing from
/// one token to the next but its place, so a new one on the rest of the script does what the old did.
fn begin(rest: &[u8]) -> usize {
    let mut places = (0..rest.len()).rev();
    places.find(|&at| is_skipped(&rest[..at])).expect("no bytes are skipped at the least")
}

/// Whether the Rust skips these bytes whole, and is then ready for a token: with `;` after them the
/// first token is that `;`. Inside a comment the `;` would be lost, inside a number it would come second.
fn is_skipped(bytes: &[u8]) -> bool {
    let probe = [bytes, b";"].concat();
    let lines = Lines::of(&probe);
    caught(|| Lexer::new(&probe[..]).lex()).is_ok_and(|token| {
        token.ty == TokenTy::Semicolon && lines.offset(token.line, token.pos) == bytes.len()
    })
}

#[cfg(test)]
mod tests {
    use super::*;

    fn fault(script: &str) -> Option<(u32, usize)> {
        match tokens(script.as_bytes()).ending {
            Ending::Fault { kind, offset } => Some((kind, offset)),
            _ => None,
        }
    }

    #[test]
    fn panics_have_the_place_of_their_comment_or_number() {
        assert_eq!(fault("// c"), Some((1, 0)));
        assert_eq!(fault("1.5"), Some((2, 0)));
        assert_eq!(fault("// a\n# b\n\t // c // d"), Some((1, 11)));
        assert_eq!(fault("a # 1.\n \x0b 2.5 .. 30.25"), Some((2, 17)));
        assert_eq!(fault("\"//\"//"), Some((1, 4)));
        assert_eq!(fault("// c\n"), None);
        assert_eq!(fault("15"), None);
    }

    #[test]
    fn tokens_have_place_length_spelling_and_value() {
        let lexed = tokens(b"if\n \"a b\" 1.50;");
        let told: Vec<_> = lexed
            .tokens
            .iter()
            .map(|t| (t.kind, t.line, t.pos, t.len, t.spelling.as_str()))
            .collect();
        let told_first = [(39, 1, 0, 2, "if"), (32, 2, 1, 5, "a b"), (33, 2, 7, 4, "1.5")];
        assert_eq!(told[..3], told_first);
        assert_eq!(told[3..], [(7, 2, 11, 1, ";"), (47, 3, 0, 0, "EOF")]);
        assert_eq!(lexed.tokens[2].val, Some(1.5));
        assert_eq!(lexed.ending, Ending::Eof);
    }
}
