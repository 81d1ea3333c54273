//! The package sifc_parse of sif: six files of docs/src as they are (the formatter skips them).

#[rustfmt::skip]
#[path = "../../docs/src/sifc_parse/src/ast.rs"]
pub mod ast;
#[rustfmt::skip]
#[path = "../../docs/src/sifc_parse/src/lex.rs"]
pub mod lex;
#[rustfmt::skip]
#[path = "../../docs/src/sifc_parse/src/parser.rs"]
pub mod parser;
#[rustfmt::skip]
#[path = "../../docs/src/sifc_parse/src/reserved.rs"]
pub mod reserved;
#[rustfmt::skip]
#[path = "../../docs/src/sifc_parse/src/symtab.rs"]
pub mod symtab;
#[rustfmt::skip]
#[path = "../../docs/src/sifc_parse/src/token.rs"]
pub mod token;
