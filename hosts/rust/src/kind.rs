//! The kinds of tokens and of nodes, with the numbers of document 01.

use std::fmt::{self, Display, Formatter};

/// An enum of kinds, numbered from 1 in the order written.
macro_rules! kinds {
    ($(#[$doc:meta])* $name:ident { $($(#[$case_doc:meta])* $case:ident),* $(,)? }) => {
        $(#[$doc])*
        #[derive(Clone, Copy, Debug, PartialEq, Eq, Hash, PartialOrd, Ord)]
        pub enum $name { $($(#[$case_doc])* $case),* }

        impl $name {
            /// All kinds, in the order of their numbers.
            pub const ALL: &'static [$name] = &[$($name::$case),*];

            /// The kind of a number, counted from 1.
            pub fn from_number(number: u32) -> Option<$name> {
                let index = usize::try_from(number.checked_sub(1)?).ok()?;
                $name::ALL.get(index).copied()
            }

            /// The number of the kind, counted from 1.
            pub fn number(self) -> u32 {
                self as u32 + 1
            }

            /// The name of the kind in the Rust source of sif.
            pub fn name(self) -> &'static str {
                match self { $($name::$case => stringify!($case)),* }
            }
        }
    };
}

kinds! {
    /// The kind of a token. Its numbers are those of `TokenTy` in the Rust source of sif.
    TokenKind {
        LeftParen, RightParen, LeftBrace, RightBrace, LeftBracket, RightBracket, Semicolon, Eq, Lt, Gt,
        Period, Comma, Bang, Plus, Minus, Star, Slash, Percent, Amp, Pipe, At, EqEq, LtEq, GtEq, EqArrow,
        BangEq, AmpAmp, PipePipe, DoubleLeftBracket, DoubleRightBracket,
        /// A name.
        Ident,
        /// A string.
        Str,
        /// A number.
        Val,
        Var, Fn, Return, Table, Array, If, Elif, Else, For, In, True, False,
        /// No token has this kind.
        Std,
        /// The end of the tokens.
        Eof,
    }
}

kinds! {
    /// The kind of a node. Its numbers are those of `AstNode` in the Rust source of sif.
    NodeKind {
        Program, Block, IfStmt, ElifStmt, ForStmt, ReturnStmt, ExprStmt, VarDecl, FnDecl, FnParams,
        IdentPair, ItemList, TableItem, Table, TableAccess, Array, ArrayItems, ArrayAccess, ArrayMutExpr,
        FnCallExpr, VarAssignExpr, BinaryExpr, UnaryExpr, PrimaryExpr,
    }
}

/// The spellings of the kinds of tokens, in the order of their numbers.
const SPELLINGS: [&str; 47] = [
    "(",
    ")",
    "{",
    "}",
    "[",
    "]",
    ";",
    "=",
    "<",
    ">",
    ".",
    ",",
    "!",
    "+",
    "-",
    "*",
    "/",
    "%",
    "&",
    "|",
    "@",
    "==",
    "<=",
    ">=",
    "=>",
    "!=",
    "&&",
    "||",
    "[[",
    "]]",
    "a name",
    "a string",
    "a number",
    "var",
    "fn",
    "return",
    "table",
    "array",
    "if",
    "elif",
    "else",
    "for",
    "in",
    "true",
    "false",
    "std",
    "the end of the script",
];

impl TokenKind {
    /// How tokens of the kind are spelled, if all are spelled alike.
    pub fn spelling(self) -> Option<&'static str> {
        let varies =
            matches!(self, TokenKind::Ident | TokenKind::Str | TokenKind::Val | TokenKind::Eof);
        (!varies).then_some(SPELLINGS[self as usize])
    }
}

/// The spelling in quotes, or words for a kind that has none.
impl Display for TokenKind {
    fn fmt(&self, f: &mut Formatter<'_>) -> fmt::Result {
        match self.spelling() {
            Some(spelling) => write!(f, "`{spelling}`"),
            None => f.write_str(SPELLINGS[*self as usize]),
        }
    }
}

impl Display for NodeKind {
    fn fmt(&self, f: &mut Formatter<'_>) -> fmt::Result {
        f.write_str(self.name())
    }
}

impl NodeKind {
    /// Whether nodes of the kind carry a token.
    pub(crate) fn has_token(self) -> bool {
        use NodeKind::*;
        matches!(
            self,
            VarDecl
                | FnDecl
                | TableItem
                | Table
                | Array
                | VarAssignExpr
                | BinaryExpr
                | UnaryExpr
                | PrimaryExpr
        )
    }
}

#[cfg(test)]
mod tests {
    use super::*;

    #[test]
    fn numbers_and_kinds_go_both_ways() {
        assert_eq!((TokenKind::ALL.len(), NodeKind::ALL.len()), (47, 24));
        assert!(TokenKind::ALL
            .iter()
            .all(|kind| TokenKind::from_number(kind.number()) == Some(*kind)));
        assert!(NodeKind::ALL
            .iter()
            .all(|kind| NodeKind::from_number(kind.number()) == Some(*kind)));
        assert_eq!((TokenKind::from_number(0), TokenKind::from_number(48)), (None, None));
        assert_eq!((TokenKind::Ident.number(), TokenKind::Eof.number()), (31, 47));
        assert_eq!((NodeKind::Program.number(), NodeKind::PrimaryExpr.number()), (1, 24));
        assert_eq!(TokenKind::EqArrow.to_string(), "`=>`");
        assert_eq!(TokenKind::Ident.to_string(), "a name");
    }

    /// A name as the header has it: `LeftParen` as `LEFT_PAREN`.
    fn in_header(name: &str) -> String {
        let mut said = String::new();
        for char in name.chars() {
            if char.is_uppercase() && !said.is_empty() {
                said.push('_');
            }
            said.push(char.to_ascii_uppercase());
        }
        said
    }

    #[test]
    fn the_header_has_the_same_numbers() {
        let header = concat!(env!("CARGO_MANIFEST_DIR"), "/../../include/sif.h");
        let header = std::fs::read_to_string(header).expect("the header is in the repository");
        let tokens = TokenKind::ALL.iter().map(|kind| ("TOKEN", kind.name(), kind.number()));
        let nodes = NodeKind::ALL.iter().map(|kind| ("NODE", kind.name(), kind.number()));
        for (what, name, number) in tokens.chain(nodes) {
            let wanted = format!("    SIF_{what}_{} = {number}", in_header(name));
            let has = |line: &str| line.strip_prefix(&wanted).is_some_and(ends_number);
            assert!(header.lines().any(has), "{wanted}");
        }
    }

    fn ends_number(rest: &str) -> bool {
        !rest.starts_with(|char: char| char.is_ascii_digit())
    }
}
