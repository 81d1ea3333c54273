//! The words that phrases are made of: reduced alphabets of whole tokens, and of statements' parts.

/// What stands before and after an expression: names of each sort, and a name that is not declared,
/// which tells whether names are still checked.
pub const ROUND_EXPRESSION: [&str; 2] = ["var a; fn f(x) { } ", "; q;"];

/// Tokens that reach every arm of the expression functions.
pub const WIDE: [&str; 20] = [
    "1", "a", "q", "\"a\"", "true", "f", "print", "(", ")", "[", "]", ".", ",", "=", "+", "%", "-",
    "!", "@", ";",
];

/// Fewer of them: names, suffixes, groups and assignment.
pub const CORE: [&str; 10] = ["1", "a", "q", "(", ")", "[", "]", ".", "=", "-"];

/// Still fewer: suffixes and assignment.
pub const SUFFIXES: [&str; 6] = ["a", "(", ")", ".", "=", "@"];

/// Brackets of both kinds and what stands in them.
pub const BRACKETS: [&str; 6] = ["a", "(", ")", "[", "]", ","];

/// Operators of five levels between numbers.
pub const OPERATORS: [&str; 6] = ["1", "||", "==", "+", "*", "%"];

/// Parts of statements, whole and broken off.
pub const PARTS: [&str; 28] = [
    "var a;",
    "var a = 1;",
    "var a = [1, 2,];",
    "var a = [[k => 1, k => a]];",
    "var 1",
    "a;",
    "a = 2;",
    "a[0] = 1;",
    "a.k = 1;",
    "a(1);",
    "{",
    "}",
    ";",
    "fn a(x) {",
    "fn a(x, a,) { }",
    "fn a",
    "x;",
    "if a {",
    "else {",
    "elif x {",
    "else { }",
    "for x, a in 1 {",
    "for x",
    "return;",
    "return x;",
    "5 5",
    "// c\n",
    "@a(",
];

/// Fewer of them, for longer sequences.
pub const FEWER_PARTS: [&str; 12] = [
    "var a;",
    "a = a;",
    "a(1);",
    "{",
    "}",
    ";",
    "fn a(x) {",
    "x;",
    "if a {",
    "else {",
    "for x, a in 1 {",
    "return;",
];
