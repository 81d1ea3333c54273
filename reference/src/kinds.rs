//! The number of a token's kind: its place in `TokenTy`, from 1, read from docs/src itself.

use sifc_parse::token::TokenTy;
use std::collections::HashMap;
use std::sync::OnceLock;

const TOKEN_RS: &str = include_str!("../../docs/src/sifc_parse/src/token.rs");

/// The kinds that are treated apart: a string, a number, and the last token.
pub const STR_KIND: u32 = 32;
pub const VAL_KIND: u32 = 33;
pub const EOF_KIND: u32 = 47;

/// The number of a token's kind. The name of a case is what its derived `Debug` writes first.
pub fn kind_number(ty: &TokenTy) -> u32 {
    static NUMBERS: OnceLock<HashMap<&str, u32>> = OnceLock::new();
    let numbers =
        NUMBERS.get_or_init(|| (1..).zip(case_names()).map(|(n, name)| (name, n)).collect());
    numbers[case_name(&format!("{ty:?}"))]
}

/// The cases of `enum TokenTy` in the order of the source.
fn case_names() -> impl Iterator<Item = &'static str> {
    TOKEN_RS
        .lines()
        .skip_while(|line| !line.starts_with("pub enum TokenTy"))
        .skip(1)
        .take_while(|line| !line.starts_with('}'))
        .map(str::trim)
        .filter(|line| !line.is_empty() && !line.starts_with("//"))
        .map(case_name)
}

/// What stands before the first sign that is no part of a name.
fn case_name(text: &str) -> &str {
    let end = text.find(|c: char| !c.is_alphanumeric()).unwrap_or(text.len());
    &text[..end]
}

#[cfg(test)]
mod tests {
    use super::*;

    #[test]
    fn the_numbers_that_01_names() {
        assert_eq!(case_names().count(), 47);
        assert_eq!(kind_number(&TokenTy::LeftParen), 1);
        assert_eq!(kind_number(&TokenTy::Ident("a".to_string())), 31);
        assert_eq!(kind_number(&TokenTy::Str("a(b".to_string())), STR_KIND);
        assert_eq!(kind_number(&TokenTy::Val(1.5)), VAL_KIND);
        assert_eq!(kind_number(&TokenTy::Eof), EOF_KIND);
    }
}
