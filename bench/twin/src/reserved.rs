//! The reserved words, and the functions of the standard library.

use crate::token::{ARRAY, ELIF, ELSE, FALSE, FN, FOR, IDENT, IF, IN, RETURN, TABLE, TRUE, VAR};

/// The kind of a word: a reserved one or a name.
pub fn word_kind(word: &[u8]) -> u32 {
    match word {
        b"var" => VAR,
        b"fn" => FN,
        b"return" => RETURN,
        b"table" => TABLE,
        b"array" => ARRAY,
        b"if" => IF,
        b"elif" => ELIF,
        b"else" => ELSE,
        b"for" => FOR,
        b"in" => IN,
        b"true" => TRUE,
        b"false" => FALSE,
        _ => IDENT,
    }
}

pub fn is_std_lib_fn(name: &[u8]) -> bool {
    matches!(name, b"print" | b"range")
}
