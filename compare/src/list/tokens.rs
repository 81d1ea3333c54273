//! The scripts whose tokens are replayed, and the Rust's answers.

use crate::scripts::random::Random;
use crate::scripts::soup::soup;
use crate::scripts::spellings::{
    near_misses, COMMENTS, NAMES, NUMBERS, SIGNS, SPACES, STOPS, STRINGS, WORDS,
};
use crate::scripts::supplier::{self, Shape};
use reference::{tokens, Ending, Token, VAL_KIND};

/// The soups in the list, and the size of its supplier's scripts.
const SOUPS: usize = 60;
const SUPPLIER_BYTES: usize = 1_500;

/// The bytes that follow each sign in the list, so that each pair and each near one is there.
const AFTER_SIGN: &[u8] = b"=>[]/&|;.\"#1a \n$";

/// Written by hand: numbers, strings, comments, places, panics, and the small scripts of document 01.
const BY_HAND: &[&str] = &[
    "5 5;",
    "var 1 = 2;",
    "(true)(1);",
    "if true { } else { } else { }",
    "{ var a = 1; } { a; }",
    "var t = [[]]; t.z = 1; q;",
    "var a=(1+2)*3;",
    "var a = 1;\n",
    "a\n",
    "a\n\n",
    "a\n b\n  c",
    "a\r\nb",
    "\"a\nb\" c",
    "\"a",
    "\"a\n",
    "\"a\nb\nc",
    "a \"b\" \"c",
    "a$",
    "a $ b",
    "a\n $",
    "$ // c",
    "$ 1.",
    "\"// c",
    "# // c",
    "# 1.",
    "# a\n# b\n c",
    "# a\n // b\n# c\nd",
    "// a\n# b\n// c\nd",
    "// a\n// b\n// c\nd",
    "// a\n \x0b// b",
    "a // b\n// c",
    "a // b\n# c",
    "#",
    "#\n",
    "/ /",
    "/ // c\n/",
    "//",
    "// c",
    "///",
    "a\n// c",
    "1.",
    "1.5",
    "007.50",
    "1.5.",
    "1.5 ",
    "1.\n",
    "1..",
    "1...2",
    "1 . 5",
    "a\n 12.25",
    "1.5//",
    "1.//\n",
    "1a 1.a a1 a.1 1.5a",
    "[[[ ]]] [[[[ ]]]]",
    "=== ==> =>= =>> <== >== !== &&& |||",
    "= = & & | | [ [ ] ]",
    "<> >< =< =! &| |&",
    "_a a_ a_b",
    "'a' a?b a:b a\\b",
];

pub fn scripts() -> Vec<Vec<u8>> {
    let mut scripts: Vec<Vec<u8>> = vec![Vec::new()];
    scripts.extend((0..128).map(|byte| vec![byte]));
    for sign in SIGNS {
        scripts.extend(AFTER_SIGN.iter().map(|&byte| [sign.as_bytes(), &[byte]].concat()));
    }
    for word in WORDS {
        scripts.push(word.into());
        scripts.extend(near_misses(word).into_iter().map(String::into_bytes));
    }
    for space in SPACES {
        scripts.extend(
            ["//c", "a//", "2.", "a 2.5"].map(|end| (space.to_string() + end).into_bytes()),
        );
    }
    let spellings = [&NAMES[..], &NUMBERS, &STRINGS, &COMMENTS, &SPACES, &STOPS, BY_HAND].concat();
    scripts.extend(spellings.into_iter().map(Vec::from));
    let mut random = Random::new(4);
    scripts.extend((0..SOUPS).map(|_| soup(&mut random)));
    scripts.extend(Shape::ALL.map(|shape| supplier::script(shape, SUPPLIER_BYTES, 5)));
    scripts
}

/// The Rust's answer on a script, in one line.
pub fn answer(script: &[u8]) -> String {
    let lexed = tokens(script);
    match lexed.ending {
        Ending::Eof => lexed.tokens.iter().map(entry).collect::<Vec<_>>().join(" ") + "\n",
        Ending::Fault { kind, offset } => format!("refused 5 {kind} {offset}\n"),
        other => panic!("the Rust ended in a way that 01 does not know: {other:?}"),
    }
}

/// A token: kind, line, column, and the spelling's bytes in hexadecimal; none for a Val.
fn entry(token: &Token) -> String {
    let spelling = if token.kind == VAL_KIND { "" } else { &token.spelling };
    let digits: String = spelling.bytes().map(|byte| format!("{byte:02x}")).collect();
    format!("{}:{}:{}:{digits}", token.kind, token.line, token.pos)
}

#[cfg(test)]
mod tests {
    use super::*;
    use crate::list::TOKENS;
    use reference::EOF_KIND;

    /// `TokenTy::Std`, which the Rust's lexer never makes.
    const STD_KIND: u32 = 46;

    #[test]
    fn the_list_has_every_kind_and_panic_and_fits() {
        let list = TOKENS.made();
        assert!(list.scripts >= 300);
        assert!(list.stdin.len() < 60_000);
        let answers = String::from_utf8(list.stdout).unwrap();
        assert_eq!(answers.lines().count(), list.scripts);
        let words: Vec<&str> = answers.split_whitespace().collect();
        for kind in (1..=EOF_KIND).filter(|&kind| kind != STD_KIND) {
            let start = format!("{kind}:");
            assert!(words.iter().any(|word| word.starts_with(&start)), "kind {kind}");
        }
        for kind in [1, 2] {
            let start = format!("refused 5 {kind} ");
            assert!(answers.lines().any(|line| line.starts_with(&start)), "panic {kind}");
        }
    }

    #[test]
    fn an_entry_has_kind_place_and_spelling() {
        assert_eq!(answer(b"a\n 1.5;"), "31:1:0:61 33:2:1: 7:2:4:3b 47:3:0:454f46\n");
        assert_eq!(answer(b"a // c"), "refused 5 1 2\n");
    }
}
