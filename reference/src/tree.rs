//! The Rust's tree in the form of document 01: nodes children first, with numbers for kinds and
//! indices for tokens.

use crate::tokens::Lexed;
use sifc_parse::ast::AstNode;
use sifc_parse::token::Token;
use sifc_traced::trace::{Branch, Lost};
use std::collections::HashMap;

#[derive(Clone, Debug, PartialEq)]
pub struct Node {
    /// The place of its kind in `AstNode`, from 1.
    pub kind: u32,
    /// is_global or is_std.
    pub mark: bool,
    pub children: usize,
    /// The scope of a Block, or the index of a token.
    pub load: usize,
}

const PRIMARY_EXPR: u32 = 24;
const TABLE_ITEM: u32 = 13;

/// The nodes of a tree. The trace says what the tree has lost: the order of branches and of table
/// items, items whose key comes again, and the place of a name that is assigned to. Its lists have
/// the order in which the nodes were built, so they are used from their ends, root first.
pub fn nodes(ast: &AstNode, lexed: &Lexed, lost: Lost) -> Result<Vec<Node>, String> {
    let mut walk = Walk { lexed, lost, nodes: Vec::new() };
    walk.visit(ast)?;
    let Lost { targets, branches, items } = &walk.lost;
    if !(targets.is_empty() && branches.is_empty() && items.is_empty()) {
        return Err("the trace has more than the tree".to_string());
    }
    walk.nodes.reverse();
    Ok(walk.nodes)
}

/// A walk over the tree from its root, the last child first: the nodes in reverse order.
struct Walk<'a> {
    lexed: &'a Lexed,
    lost: Lost,
    nodes: Vec<Node>,
}

impl Walk<'_> {
    fn visit(&mut self, ast: &AstNode) -> Result<(), String> {
        let kind = kind(ast);
        match ast {
            AstNode::Program { blocks: nodes }
            | AstNode::FnParams { params: nodes }
            | AstNode::IdentPair { idents: nodes }
            | AstNode::ArrayItems { items: nodes } => self.parent(kind, 0, nodes.iter()),
            AstNode::Block { decls, scope } => self.parent(kind, *scope, decls.iter()),
            AstNode::ElifStmt { cond_expr, stmts } => {
                self.parent(kind, 0, [&**cond_expr, stmts].into_iter())
            }
            AstNode::ForStmt { var_list, in_expr_list, stmts } => {
                self.parent(kind, 0, [&**var_list, in_expr_list, stmts].into_iter())
            }
            AstNode::ReturnStmt { ret_expr } => {
                self.parent(kind, 0, ret_expr.as_deref().into_iter())
            }
            AstNode::ExprStmt { expr } => self.parent(kind, 0, [&**expr].into_iter()),
            AstNode::IfStmt { .. } => self.if_stmt(kind, ast),
            AstNode::VarDecl { .. } | AstNode::FnDecl { .. } => self.declaration(kind, ast),
            AstNode::ItemList { items } => self.item_list(kind, items),
            AstNode::Table { ident_tkn, items } => {
                let load = self.index(ident_tkn)?;
                self.parent(kind, load, [&**items].into_iter())
            }
            AstNode::Array { ident_tkn, body, len } => {
                self.array(kind, self.index(ident_tkn)?, body.as_deref(), *len)
            }
            _ => self.expression(ast),
        }
    }

    fn expression(&mut self, ast: &AstNode) -> Result<(), String> {
        let kind = kind(ast);
        match ast {
            AstNode::TableAccess { table_tkn: target, index }
            | AstNode::ArrayAccess { array_tkn: target, index } => {
                self.with_target(kind, false, target, [&**index].into_iter())
            }
            AstNode::ArrayMutExpr { array_tkn, index, rhs } => {
                self.with_target(kind, false, array_tkn, [&**index, rhs].into_iter())
            }
            AstNode::FnCallExpr { fn_ident_tkn, fn_params, is_std } => {
                self.with_target(kind, *is_std, fn_ident_tkn, fn_params.iter())
            }
            AstNode::VarAssignExpr { ident_tkn, is_global, rhs } => {
                self.var_assign(kind, *is_global, ident_tkn, rhs)
            }
            AstNode::BinaryExpr { op_tkn, lhs, rhs } => {
                let load = self.index(op_tkn)?;
                self.parent(kind, load, [&**lhs, rhs].into_iter())
            }
            AstNode::UnaryExpr { op_tkn, rhs } => {
                let load = self.index(op_tkn)?;
                self.parent(kind, load, [&**rhs].into_iter())
            }
            AstNode::PrimaryExpr { tkn } => self.primary(self.index(tkn)?),
            other => Err(format!("the Rust's tree has {other:?}")),
        }
    }

    fn parent<'t>(
        &mut self,
        kind: u32,
        load: usize,
        children: impl DoubleEndedIterator<Item = &'t AstNode> + ExactSizeIterator,
    ) -> Result<(), String> {
        self.push(kind, false, children.len(), load);
        children.rev().try_for_each(|child| self.visit(child))
    }

    /// A node whose first child is a single token that the Rust keeps in the node.
    fn with_target<'t>(
        &mut self,
        kind: u32,
        mark: bool,
        target: &Token,
        children: impl DoubleEndedIterator<Item = &'t AstNode> + ExactSizeIterator,
    ) -> Result<(), String> {
        self.push(kind, mark, 1 + children.len(), 0);
        children.rev().try_for_each(|child| self.visit(child))?;
        self.primary(self.index(target)?)
    }

    /// The Rust keeps the declaration's token; the trace has the place of the one assigned to.
    fn var_assign(
        &mut self,
        kind: u32,
        mark: bool,
        declared: &Token,
        rhs: &AstNode,
    ) -> Result<(), String> {
        let (line, pos) = self.lost.targets.pop().ok_or("the trace lacks an assignment")?;
        let target = Token { line, pos, ..declared.clone() };
        self.push(kind, mark, 2, self.index(declared)?);
        self.visit(rhs)?;
        self.primary(self.index(&target)?)
    }

    fn declaration(&mut self, kind: u32, ast: &AstNode) -> Result<(), String> {
        match ast {
            AstNode::VarDecl { ident_tkn, is_global, rhs } => {
                self.push(kind, *is_global, rhs.iter().len(), self.index(ident_tkn)?);
                rhs.as_deref().map_or(Ok(()), |rhs| self.visit(rhs))
            }
            AstNode::FnDecl { ident_tkn, fn_params, fn_body, scope } => {
                let load = self.index(ident_tkn)?;
                self.parent(kind, load, [&**fn_params, fn_body].into_iter())?;
                match &**fn_body {
                    AstNode::Block { scope: inner, .. } if *inner == scope + 1 => Ok(()),
                    other => Err(format!("a function of scope {scope} has as its body {other:?}")),
                }
            }
            other => Err(format!("no declaration: {other:?}")),
        }
    }

    fn array(
        &mut self,
        kind: u32,
        load: usize,
        body: Option<&AstNode>,
        len: usize,
    ) -> Result<(), String> {
        let items = match body {
            Some(AstNode::ArrayItems { items }) => items.len(),
            _ => 0,
        };
        if items != len {
            return Err(format!("an array of length {len} has {items} items"));
        }
        self.parent(kind, load, body.into_iter())
    }

    fn if_stmt(&mut self, kind: u32, ast: &AstNode) -> Result<(), String> {
        let AstNode::IfStmt { cond_expr, if_stmts, elif_exprs, else_stmts } = ast else {
            return Err(format!("no if statement: {ast:?}"));
        };
        let branches = self.lost.branches.pop().ok_or("the trace lacks an if statement")?;
        let (mut elifs, mut elses) = (elif_exprs.iter(), else_stmts.iter());
        let later = branches.iter().filter_map(|branch| match branch {
            Branch::Elif => elifs.next(),
            Branch::Else => elses.next(),
        });
        let children: Vec<&AstNode> = [&**cond_expr, if_stmts].into_iter().chain(later).collect();
        if children.len() != 2 + elif_exprs.len() + else_stmts.len() {
            return Err("the trace has other branches than the tree".to_string());
        }
        self.parent(kind, 0, children.into_iter())
    }

    /// The trace has every item; the tree's map must have the last one of each key.
    fn item_list(&mut self, kind: u32, map: &HashMap<String, AstNode>) -> Result<(), String> {
        let items = self.lost.items.pop().ok_or("the trace lacks a table")?;
        let last: HashMap<String, &AstNode> =
            items.iter().map(|(key, val)| (key.get_name(), val)).collect();
        if last != map.iter().map(|(key, val)| (key.clone(), val)).collect() {
            return Err("the trace has other items than the tree".to_string());
        }
        self.push(kind, false, items.len(), 0);
        for (key, val) in items.iter().rev() {
            self.push(TABLE_ITEM, false, 1, self.index(key)?);
            self.visit(val)?;
        }
        Ok(())
    }

    fn primary(&mut self, index: usize) -> Result<(), String> {
        self.push(PRIMARY_EXPR, false, 0, index);
        Ok(())
    }

    fn push(&mut self, kind: u32, mark: bool, children: usize, load: usize) {
        self.nodes.push(Node { kind, mark, children, load });
    }

    /// The index of a node's token: the token at its place, which must have its spelling.
    fn index(&self, token: &Token) -> Result<usize, String> {
        let index = self.lexed.at(token.line, token.pos)?;
        if self.lexed.tokens[index].spelling != token.ty.to_string() {
            return Err(format!("{token:?} is not what was lexed there"));
        }
        Ok(index)
    }
}

/// The number of a node's kind, in the order of ast.rs.
fn kind(ast: &AstNode) -> u32 {
    match ast {
        AstNode::Program { .. } => 1,
        AstNode::Block { .. } => 2,
        AstNode::IfStmt { .. } => 3,
        AstNode::ElifStmt { .. } => 4,
        AstNode::ForStmt { .. } => 5,
        AstNode::ReturnStmt { .. } => 6,
        AstNode::ExprStmt { .. } => 7,
        AstNode::VarDecl { .. } => 8,
        AstNode::FnDecl { .. } => 9,
        AstNode::FnParams { .. } => 10,
        AstNode::IdentPair { .. } => 11,
        AstNode::ItemList { .. } => 12,
        AstNode::TableItem { .. } => TABLE_ITEM,
        AstNode::Table { .. } => 14,
        AstNode::TableAccess { .. } => 15,
        AstNode::Array { .. } => 16,
        AstNode::ArrayItems { .. } => 17,
        AstNode::ArrayAccess { .. } => 18,
        AstNode::ArrayMutExpr { .. } => 19,
        AstNode::FnCallExpr { .. } => 20,
        AstNode::VarAssignExpr { .. } => 21,
        AstNode::BinaryExpr { .. } => 22,
        AstNode::UnaryExpr { .. } => 23,
        AstNode::PrimaryExpr { .. } => PRIMARY_EXPR,
        AstNode::Null => 25,
    }
}

#[cfg(test)]
mod tests {
    use super::*;

    #[test]
    fn the_numbers_follow_the_source() {
        let source = include_str!("../../docs/src/sifc_parse/src/ast.rs");
        let cases = source
            .lines()
            .filter(|line| line.starts_with("    ") && line[4..].starts_with(char::is_uppercase));
        let names: Vec<&str> =
            cases.map(|line| line.trim().trim_end_matches([' ', '{', ','])).collect();
        assert_eq!(names.len(), 25);
        assert_eq!(
            (names[PRIMARY_EXPR as usize - 1], names[TABLE_ITEM as usize - 1]),
            ("PrimaryExpr", "TableItem")
        );
        let null = AstNode::Null;
        assert_eq!(names[kind(&null) as usize - 1], "Null");
        let params = AstNode::FnParams { params: Vec::new() };
        assert_eq!(names[kind(&params) as usize - 1], "FnParams");
    }
}
