//! Canonical text by document 01 alone: a printer over the Rust's tree that goes from the root down and
//! from left to right. It has nothing in common with the writers that it judges.
//!
//! The Rust's tree has lost some of the script: the digits of numbers, the order of table items and of
//! elif and else branches, and items whose key comes again. `reference` has put the last three back (from
//! its traced copy), and a number is its part of the script from its place on.

use reference::{Node, Token};

/// The bytes of the tokens that the Rust lexed.
pub struct Spellings<'a> {
    script: &'a [u8],
    line_starts: Vec<usize>,
    tokens: &'a [Token],
}

impl<'a> Spellings<'a> {
    pub fn new(script: &'a [u8], tokens: &'a [Token]) -> Spellings<'a> {
        let after_newlines = (1..=script.len()).filter(|&at| script[at - 1] == b'\n');
        let line_starts = std::iter::once(0).chain(after_newlines).collect();
        Spellings { script, line_starts, tokens }
    }

    /// A token's bytes, from its place and its length.
    pub fn of(&self, index: usize) -> &'a [u8] {
        let token = &self.tokens[index];
        let at = self.line_starts[token.line - 1] + token.pos;
        &self.script[at..at + token.len]
    }
}

/// A node with its children.
struct Tree<'a> {
    kind: u32,
    text: &'a [u8],
    children: Vec<Tree<'a>>,
}

/// The words of a text, in order.
type Words<'a> = Vec<&'a [u8]>;

/// The canonical text of a tree whose nodes come children first.
pub fn text(spellings: &Spellings, nodes: &[Node]) -> Vec<u8> {
    let mut text = Vec::new();
    for decl in &tree(spellings, nodes).children {
        let mut words = Vec::new();
        decl.write(&mut words);
        text.extend(words.join(&b' '));
        text.push(b'\n');
    }
    text
}

fn tree<'a>(spellings: &Spellings<'a>, nodes: &[Node]) -> Tree<'a> {
    let mut trees: Vec<Tree> = Vec::new();
    for node in nodes {
        let children = trees.split_off(trees.len() - node.children);
        let text = if has_token(node.kind) { spellings.of(node.load) } else { b"" };
        trees.push(Tree { kind: node.kind, text, children });
    }
    trees.pop().expect("a tree has a Program")
}

/// Whether the payload of a kind of node is a token: VarDecl, FnDecl, TableItem, Table, Array,
/// VarAssignExpr, BinaryExpr, UnaryExpr and PrimaryExpr.
pub fn has_token(kind: u32) -> bool {
    matches!(kind, 8 | 9 | 13 | 14 | 16 | 21..=24)
}

impl<'a> Tree<'a> {
    fn write(&self, words: &mut Words<'a>) {
        let children = &self.children[..];
        match (self.kind, children) {
            // Block, IfStmt, ElifStmt, ForStmt, ReturnStmt, ExprStmt
            (2, decls) => between(b"{", b"}", words, |words| row(decls, words)),
            (3, [condition, block, branches @ ..]) => {
                words.push(b"if");
                condition.write(words);
                block.write(words);
                branches.iter().for_each(|branch| branch.write_branch(words));
            }
            (4, children) => {
                words.push(b"elif");
                row(children, words);
            }
            (5, [names, expr, block]) => {
                words.push(b"for");
                names.write(words);
                words.push(b"in");
                expr.write(words);
                block.write(words);
            }
            (6, value) => between(b"return", b";", words, |words| row(value, words)),
            (7, [expr]) => {
                expr.write(words);
                words.push(b";");
            }
            // VarDecl, FnDecl
            (8, value) => {
                words.extend([b"var", self.text]);
                value.iter().for_each(|value| after(b"=", value, words));
                words.push(b";");
            }
            (9, [params, body]) => {
                words.extend([b"fn", self.text]);
                between(b"(", b")", words, |words| params.write(words));
                body.write(words);
            }
            // FnParams, IdentPair, ItemList, ArrayItems
            (10..=12 | 17, items) => commas(items, words),
            _ => self.write_value(words),
        }
    }

    fn write_value(&self, words: &mut Words<'a>) {
        match (self.kind, &self.children[..]) {
            // TableItem, Table, Array
            (13, [value]) => {
                words.push(self.text);
                after(b"=>", value, words);
            }
            (14, items) => between(b"[[", b"]]", words, |words| row(items, words)),
            (16, items) => between(b"[", b"]", words, |words| row(items, words)),
            // TableAccess, ArrayAccess, ArrayMutExpr, FnCallExpr, VarAssignExpr
            (15, [target, index]) => {
                target.write(words);
                after(b".", index, words);
            }
            (18, [target, index]) => {
                target.write(words);
                between(b"[", b"]", words, |words| index.write(words));
            }
            (19, [target, index, value]) => {
                target.write(words);
                between(b"[", b"]", words, |words| index.write(words));
                after(b"=", value, words);
            }
            (20, [target, arguments @ ..]) => {
                target.write(words);
                between(b"(", b")", words, |words| commas(arguments, words));
            }
            (21, [target, value]) => {
                target.write(words);
                after(b"=", value, words);
            }
            _ => self.write_operation(words),
        }
    }

    /// BinaryExpr, UnaryExpr, PrimaryExpr.
    fn write_operation(&self, words: &mut Words<'a>) {
        match (self.kind, &self.children[..]) {
            (22, [left, right]) => {
                left.write_operand(left.strength() < self.strength(), words);
                words.push(self.text);
                right.write_operand(right.strength() <= self.strength(), words);
            }
            (23, [operand]) => {
                words.push(self.text);
                operand.write_operand(operand.strength() < 8, words);
            }
            (24, []) => words.push(self.text),
            (kind, children) => panic!("node {kind} with {} children", children.len()),
        }
    }

    fn write_operand(&self, in_parens: bool, words: &mut Words<'a>) {
        if in_parens {
            return between(b"(", b")", words, |words| self.write(words));
        }
        self.write(words);
    }

    /// A branch after the first: a Block is an else.
    fn write_branch(&self, words: &mut Words<'a>) {
        if self.kind == 2 {
            words.push(b"else");
        }
        self.write(words);
    }

    /// "assignment and table access 0, `||` 1, `&&` 2, equality 3, comparison 4, `+ -` 5, `* /` 6, `%` 7,
    /// unary 8, the rest 9"
    fn strength(&self) -> u32 {
        match (self.kind, self.text) {
            (15 | 19 | 21, _) => 0,
            (22, b"||") => 1,
            (22, b"&&") => 2,
            (22, b"==" | b"!=") => 3,
            (22, b"<" | b"<=" | b">" | b">=") => 4,
            (22, b"+" | b"-") => 5,
            (22, b"*" | b"/") => 6,
            (22, b"%") => 7,
            (22, other) => panic!("{} is no operator", other.escape_ascii()),
            (23, _) => 8,
            _ => 9,
        }
    }
}

fn row<'a>(trees: &[Tree<'a>], words: &mut Words<'a>) {
    trees.iter().for_each(|tree| tree.write(words));
}

fn commas<'a>(trees: &[Tree<'a>], words: &mut Words<'a>) {
    for (at, tree) in trees.iter().enumerate() {
        if at > 0 {
            words.push(b",");
        }
        tree.write(words);
    }
}

fn after<'a>(sign: &'static [u8], tree: &Tree<'a>, words: &mut Words<'a>) {
    words.push(sign);
    tree.write(words);
}

fn between<'a>(
    open: &'static [u8],
    close: &'static [u8],
    words: &mut Words<'a>,
    inside: impl FnOnce(&mut Words<'a>),
) {
    words.push(open);
    inside(words);
    words.push(close);
}
