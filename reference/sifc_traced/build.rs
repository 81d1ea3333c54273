//! Writes copies of parser.rs and symtab.rs of docs/src that report what they do to trace.rs. The
//! copies differ from the source only in the statements that `PARSER` and `SYMTAB` list.

use std::env::var_os;
use std::fs;
use std::path::Path;

/// What lines begin with, how many such lines there are, and the statement that goes before each, on
/// the same line: so lines keep their numbers.
type Rule = (&'static str, usize, &'static str);

const NODE: &str = "crate::trace::node();";
const ENTER: &str = "let _counted = crate::trace::enter();";
const OPENED: &str = "let _opened = crate::trace::opened(&self.curr_tkn);";
const PARAMS: &str = "if !could_be_expr { crate::trace::node(); }";
const AFTER_UNWRAP: &str = "if ident_tkn.is_some() { crate::trace::node(); }";
const CARRIES: &str = "crate::trace::carries(tkn.line, tkn.pos);";

const PARSER: [Rule; 42] = [
    // the first lines of the four counted functions
    ("self.expect(TokenTy::LeftBrace)?;", 1, ENTER),
    ("let ast = self.or_expr()?;", 1, ENTER),
    ("match self.curr_tkn.ty {\n            TokenTy::Bang | TokenTy::Minus", 1, ENTER),
    ("let ast = self.primary_expr()?;", 1, ENTER),
    // nodes, where they are built
    ("let head = AstNode::Program", 1, NODE),
    ("Ok(AstNode::Block", 1, NODE),
    ("let node = AstNode::VarDecl", 2, NODE),
    ("let node = AstNode::FnDecl", 1, NODE),
    ("let node = AstNode::Table", 1, NODE),
    ("let node = AstNode::Array", 1, NODE),
    ("let len = arr_items.len();", 1, "if !arr_items.is_empty() { crate::trace::node(); }"),
    ("new_decls.push(AstNode::ReturnStmt", 2, NODE),
    ("Ok(AstNode::FnParams", 2, PARAMS),
    ("param_list.push(AstNode::PrimaryExpr", 1, NODE),
    ("let stmt_ast = AstNode::ElifStmt", 1, NODE),
    ("Ok(AstNode::ForStmt", 1, NODE),
    ("idents.push(AstNode::PrimaryExpr", 2, NODE),
    ("Ok(AstNode::IdentPair", 1, NODE),
    ("Ok(AstNode::ReturnStmt", 2, NODE),
    ("Ok(AstNode::ExprStmt", 1, NODE),
    ("ast = AstNode::BinaryExpr", 7, NODE),
    ("return Ok(AstNode::UnaryExpr", 1, NODE),
    ("return Ok(AstNode::FnCallExpr", 1, NODE),
    ("return Ok(AstNode::TableAccess", 1, AFTER_UNWRAP),
    ("return Ok(AstNode::ArrayAccess", 1, AFTER_UNWRAP),
    ("let ast = Ok(AstNode::PrimaryExpr", 2, NODE),
    // what the tree loses
    ("items.insert(String::from", 1, "crate::trace::item(&ident_tkn, &val);"),
    ("Ok(AstNode::ItemList", 1, "crate::trace::item_list();"),
    ("else_ifs.push(stmt_ast);", 1, "crate::trace::branch(crate::trace::Branch::Elif);"),
    ("else_blck.push(blck);", 1, "crate::trace::branch(crate::trace::Branch::Else);"),
    ("Ok(AstNode::IfStmt", 1, "crate::trace::if_stmt(else_ifs.len() + else_blck.len());"),
    ("return Ok(AstNode::VarAssignExpr", 1, "crate::trace::var_assign(tkn.line, tkn.pos);"),
    // errors, and the tokens that they carry where it is not the current one
    ("return Err(self.add_error(ParseErrTy::UndeclSym(name)));", 2, CARRIES),
    ("return Err(self.add_error(ParseErrTy::InvalidAssign(", 1, CARRIES),
    ("return Err(self.add_error_w_pos(", 1, "crate::trace::carries(op.line, op.pos);"),
    (
        "let err = self.add_error(ParseErrTy::UndeclSym(ident_name.to_string()));\n                        self",
        1,
        "crate::trace::carries_token(&ident_tkn);",
    ),
    ("self.errors.push(err.clone());", 2, "crate::trace::error(&self.curr_tkn);"),
    // the opening signs of the three suffixes
    ("self.expect(TokenTy::LeftParen)?;\n                // This is a function call", 1, OPENED),
    ("self.expect(TokenTy::Period)?;", 1, OPENED),
    ("self.expect(TokenTy::LeftBracket)?;\n                let idx", 1, OPENED),
    // the loop of parse
    ("match self.decl() {", 1, "crate::trace::begun();"),
    ("found_err = true;", 1, "crate::trace::failed();"),
];

const SYMTAB: [Rule; 1] = [(
    "self.tab[self.curr_lvl].insert",
    1,
    "if !self.tab[self.curr_lvl].contains_key(key) { crate::trace::symbol(); }",
)];

fn main() {
    write_copy("parser.rs", &PARSER);
    write_copy("symtab.rs", &SYMTAB);
}

fn write_copy(name: &str, rules: &[Rule]) {
    let folder = Path::new(env!("CARGO_MANIFEST_DIR")).join("../../docs/src/sifc_parse/src");
    let source = folder.join(name);
    println!("cargo:rerun-if-changed={}", source.display());
    let text = fs::read_to_string(&source).expect("docs/src can be read");
    let copy = rules.iter().fold(text, with_rule);
    let out = var_os("OUT_DIR").expect("cargo gives a folder");
    fs::write(Path::new(&out).join(name), copy).expect("the copy can be written");
}

/// The text with a rule's statement before each of its lines.
fn with_rule(text: String, (begin, times, inserted): &Rule) -> String {
    let places: Vec<usize> = text
        .match_indices(begin)
        .map(|(at, _)| at)
        .filter(|&at| text[..at].ends_with("  "))
        .collect();
    assert_eq!(places.len(), *times, "lines that begin with {begin}");
    places.iter().rev().fold(text, |mut text, &at| {
        text.insert_str(at, &format!("{inserted} "));
        text
    })
}
