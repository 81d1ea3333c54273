//! The spellings that scripts are put together from, with those that just miss being one.

/// Every sign of one byte and of two.
pub const SIGNS: [&str; 30] = [
    "(", ")", "{", "}", "[", "]", ";", "=", "<", ">", ".", ",", "!", "+", "-", "*", "/", "%", "&",
    "|", "@", "==", "<=", ">=", "=>", "!=", "&&", "||", "[[", "]]",
];

/// The reserved words.
pub const WORDS: [&str; 12] =
    ["var", "fn", "return", "table", "array", "if", "elif", "else", "for", "in", "true", "false"];

/// Names: the standard functions, `std`, and ordinary ones.
pub const NAMES: [&str; 9] =
    ["print", "range", "std", "a", "Z", "x9", "elseif", "nominal", "zzzzzzzzzzzz"];

pub const NUMBERS: [&str; 10] =
    ["0", "7", "007", "1.", "1.5", "0.50", "1.2.3", "1..2", "20240615", "99999999999999999999.25"];

pub const STRINGS: [&str; 7] =
    ["\"\"", "\"a\"", "\"a b\"", "\"a\nb\"", "\"//\"", "\"# 1.\"", "\"\n\n\""];

pub const COMMENTS: [&str; 8] =
    ["#\n", "# c\n", "// c\n", "//\n", "# // \" c\n", "// # \" c\n", "/// c\n", "## c\n"];

pub const SPACES: [&str; 9] = [" ", "\n", "\t", "\x0b", "\x0c", "\r", "\r\n", "  ", " \n\t "];

/// What ends the tokens early: unknown characters, and a quote that may stay open.
pub const STOPS: [&str; 13] =
    ["_", "$", "'", ":", "?", "\\", "~", "^", "`", "\x00", "\x1c", "\x7f", "\""];

/// Words that differ a little from a reserved one, or stand close to other text.
pub fn near_misses(word: &str) -> Vec<String> {
    let shorter = &word[..word.len() - 1];
    let capital = word[..1].to_uppercase() + &word[1..];
    let doubled = word[..1].to_string() + word;
    let mut near = vec![shorter.to_string(), capital, doubled, word.to_uppercase()];
    near.extend(["s", "1", "_", ".", "\"", "=", "\n", "//\n"].map(|end| word.to_string() + end));
    near.push(format!("1{word}"));
    near
}
