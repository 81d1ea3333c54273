//! Lexing: the tokens of a script into two arrays.

use crate::parse_err::Refusal;
use crate::reserved::word_kind;
use crate::token::*;

/// A part of the script, from the byte at `at` to before the one at `end`.
enum Item {
    Token { kind: u32, at: usize, end: usize },
    Eof { at: usize },
    Fault { kind: u32, at: usize },
}

/// How many tokens there are, and the kind of the lexing panic that ends them, or 0.
pub struct Lexed {
    pub count: usize,
    pub fault: u32,
}

/// Writes all tokens. The last one is Eof, or a lexing panic.
pub fn lex_tokens(script: &[u8], offs: &mut [u32], words: &mut [u32]) -> Result<Lexed, Refusal> {
    let mut from = 0;
    for used in 0..offs.len() {
        let (kind, at, end, fault) = match next(script, from) {
            Item::Token { kind, at, end } => (kind, at, end, 0),
            Item::Eof { at } => (EOF, at, at, 0),
            Item::Fault { kind, at } => (LEX_PANIC, at, at, kind),
        };
        offs[used] = at as u32;
        words[used] = word(kind, end - at);
        from = end;
        if kind >= EOF {
            return Ok(Lexed { count: used + 1, fault });
        }
    }
    Err(Refusal::plain(4))
}

/// What comes next in the script, from an offset on.
fn next(script: &[u8], from: usize) -> Item {
    let mut at = from;
    while let Some(&byte) = script.get(at) {
        match byte {
            b'\t'..=b'\r' | b' ' => at += 1,
            b'#' => at = line_end(script, at),
            b'/' if script.get(at + 1) == Some(&b'/') => {
                let end = line_end(script, at);
                if end == script.len() {
                    return Item::Fault { kind: 1, at };
                }
                at = end;
            }
            _ => return item(script, at, byte),
        }
    }
    Item::Eof { at }
}

/// The offset of the next newline, or else the script's length.
fn line_end(script: &[u8], from: usize) -> usize {
    script[from..].iter().position(|&byte| byte == b'\n').map_or(script.len(), |n| from + n)
}

/// What begins with the byte at an offset, which neither white space nor a comment is.
fn item(script: &[u8], at: usize, byte: u8) -> Item {
    match byte {
        b'"' => string(script, at),
        b'0'..=b'9' => number(script, at),
        b'a'..=b'z' | b'A'..=b'Z' => {
            let end = at + run(&script[at..], |byte| byte.is_ascii_alphanumeric());
            Item::Token { kind: word_kind(&script[at..end]), at, end }
        }
        _ => sign(script, at, byte),
    }
}

/// How many of the first bytes are all of one class.
fn run(bytes: &[u8], class: impl Fn(&u8) -> bool) -> usize {
    bytes.iter().position(|byte| !class(byte)).unwrap_or(bytes.len())
}

fn string(script: &[u8], at: usize) -> Item {
    match script[at + 1..].iter().position(|&byte| byte == b'"') {
        Some(length) => Item::Token { kind: STR, at, end: at + length + 2 },
        None => Item::Eof { at: script.len() },
    }
}

fn number(script: &[u8], at: usize) -> Item {
    let whole = at + run(&script[at..], u8::is_ascii_digit);
    if script.get(whole) != Some(&b'.') {
        return Item::Token { kind: VAL, at, end: whole };
    }
    let end = whole + 1 + run(&script[whole + 1..], u8::is_ascii_digit);
    if end == script.len() {
        return Item::Fault { kind: 2, at };
    }
    Item::Token { kind: VAL, at, end }
}

/// A sign of two bytes if there is one, else of one, else an unknown character.
fn sign(script: &[u8], at: usize, byte: u8) -> Item {
    let pair = script.get(at + 1).map_or(0, |&second| pair_kind(byte, second));
    if pair != 0 {
        return Item::Token { kind: pair, at, end: at + 2 };
    }
    match sign_kind(byte) {
        0 => Item::Eof { at },
        kind => Item::Token { kind, at, end: at + 1 },
    }
}

fn pair_kind(first: u8, second: u8) -> u32 {
    match (first, second) {
        (b'=', b'=') => EQ_EQ,
        (b'<', b'=') => LT_EQ,
        (b'>', b'=') => GT_EQ,
        (b'=', b'>') => EQ_ARROW,
        (b'!', b'=') => BANG_EQ,
        (b'&', b'&') => AMP_AMP,
        (b'|', b'|') => PIPE_PIPE,
        (b'[', b'[') => DOUBLE_LEFT_BRACKET,
        (b']', b']') => DOUBLE_RIGHT_BRACKET,
        _ => 0,
    }
}

fn sign_kind(byte: u8) -> u32 {
    match byte {
        b'(' => LEFT_PAREN,
        b')' => RIGHT_PAREN,
        b'{' => LEFT_BRACE,
        b'}' => RIGHT_BRACE,
        b'[' => LEFT_BRACKET,
        b']' => RIGHT_BRACKET,
        b';' => SEMICOLON,
        b'=' => EQ,
        b'<' => LT,
        b'>' => GT,
        b'.' => PERIOD,
        b',' => COMMA,
        b'!' => BANG,
        b'+' => PLUS,
        b'-' => MINUS,
        b'*' => STAR,
        b'/' => SLASH,
        b'%' => PERCENT,
        b'&' => AMP,
        b'|' => PIPE,
        b'@' => AT,
        _ => 0,
    }
}
