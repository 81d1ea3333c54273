//! Scripts at the limits: the greatest length and beyond, bytes that are not ASCII, and the greatest
//! number of parameters.

use crate::tokens::MAX_SCRIPT;

/// What scripts of the greatest length repeat, and the bytes that they end in.
const LONG: [(&[u8], &[u8]); 22] = [
    (b" ", b""),
    (b"\n", b""),
    (b"\x0b", b""),
    (b";", b""),
    (b"=", b""),
    (b"[", b""),
    (b"]", b";"),
    (b"a", b""),
    (b"a ", b""),
    (b"7", b""),
    (b"7 ", b"7."),
    (b"1.5 ", b""),
    (b"1.", b" "),
    (b"\"a\"", b""),
    (b"a", b"\""),
    (b"#", b""),
    (b"# c\n", b""),
    (b"//\n", b""),
    (b" ", b"//"),
    (b";", b"// c"),
    (b" ", b"$"),
    (b"var a = 1;\n", b"\n"),
];

/// Visits scripts of just under the greatest length to just over it, of some more, and the empty one.
pub fn lengths(mut visit: impl FnMut(&[u8])) {
    visit(b"");
    for (unit, end) in LONG {
        for len in [MAX_SCRIPT - 1, MAX_SCRIPT, MAX_SCRIPT + 1, MAX_SCRIPT + 2] {
            visit(&repeated(unit, end, len));
        }
    }
    for len in [70_000, 131_071, 1 << 20] {
        visit(&repeated(b"a;", b"", len));
    }
}

/// A script of `len` bytes: a unit again and again, then the end.
fn repeated(unit: &[u8], end: &[u8], len: usize) -> Vec<u8> {
    let body = unit.iter().copied().cycle().take(len - end.len());
    body.chain(end.iter().copied()).collect()
}

/// Good and bad scripts that get a byte that is not ASCII.
const ASCII: [&[u8]; 4] = [b"a", b"var a = \"b\"; # c\n", b"$ 1. // c\n", b"1.5 // c"];

/// Visits scripts with bytes of 128 and more: each such byte at each place, two of them, one at
/// either end and in the middle of the longest script, and one in a script that is too long.
pub fn not_ascii(mut visit: impl FnMut(&[u8])) {
    for base in ASCII {
        for at in 0..base.len() {
            (128..=255).for_each(|byte| visit(&with_byte(base, at, byte)));
            (at..base.len())
                .for_each(|second| visit(&with_byte(&with_byte(base, at, 0xC3), second, 0xA9)));
        }
    }
    for at in [0, 1, MAX_SCRIPT / 2, MAX_SCRIPT - 2, MAX_SCRIPT - 1] {
        visit(&with_byte(&repeated(b"a;", b"", MAX_SCRIPT), at, 128));
        visit(&with_byte(&repeated(b"a;", b"", MAX_SCRIPT + 1), at, 255));
    }
}

/// Visits scripts whose canonical texts are of about the greatest length: each `1;` becomes four bytes,
/// and the last number has as many digits as are wanted.
pub fn text_lengths(mut visit: impl FnMut(&[u8])) {
    let decls = MAX_SCRIPT / 4 - 3;
    for len in MAX_SCRIPT - 2..=MAX_SCRIPT + 2 {
        let digits = "7".repeat(len - 4 * decls - 3);
        visit(format!("{}{digits};", "1;".repeat(decls)).as_bytes());
    }
    visit("fn f(){}".repeat(MAX_SCRIPT / 8).as_bytes());
}

/// The most parameters or arguments.
const MAX_PARAMS: usize = 64;

/// Visits functions and calls of about the greatest number of parameters, whole and broken off.
pub fn params(mut visit: impl FnMut(&[u8])) {
    for (open, item) in [("fn f(", "a"), ("print(", "1"), ("fn f(a){} f(", "f(1)"), ("(1)(", "1")] {
        for count in MAX_PARAMS - 1..=MAX_PARAMS + 2 {
            let list = vec![item; count].join(",");
            for end in ["", ",", ")", ",)", "){}", ",){}", ");", ",);q;", " 1", ",,", ",1.", "// c"]
            {
                visit(format!("{open}{list}{end}").as_bytes());
            }
        }
    }
}

fn with_byte(base: &[u8], at: usize, byte: u8) -> Vec<u8> {
    let mut script = base.to_vec();
    script[at] = byte;
    script
}

/// Small scripts to be read into arrays of every small length: none to ten tokens, both panics,
/// an unknown character, an open string, and a byte that is not ASCII.
pub const SMALL: [&[u8]; 16] = [
    b"",
    b" ",
    b"a",
    b"a;",
    b"if\n",
    b"[[]]",
    b"1.5 .",
    b"var a = 1;\n",
    b"@print(\"a\", 1);",
    b"// c",
    b"a; // c",
    b"1.",
    b"a == 2.5",
    b"a $ b",
    b"a \"b",
    b"a \xC3",
];
