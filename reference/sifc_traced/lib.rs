//! The parser of docs/src with statements inserted that report what it does (build.rs lists them),
//! over the lexer, the tokens and the nodes of the unchanged package.

pub use sifc_parse::{ast, lex, reserved, token};

pub mod trace;

pub mod parser {
    include!(concat!(env!("OUT_DIR"), "/parser.rs"));
}

pub mod symtab {
    include!(concat!(env!("OUT_DIR"), "/symtab.rs"));
}
