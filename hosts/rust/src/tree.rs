//! The tree of a reading.

use crate::kind::NodeKind;
use crate::place::Span;
use crate::reading::Reading;
use crate::token::Token;
use std::fmt::{self, Debug, Formatter};

/// A node of a reading's tree.
#[derive(Clone, Copy)]
pub struct Node<'r> {
    reading: &'r Reading<'r>,
    index: usize,
}

/// Nodes are equal that are the same node of one reading.
impl PartialEq for Node<'_> {
    fn eq(&self, other: &Self) -> bool {
        std::ptr::eq(self.reading, other.reading) && self.index == other.index
    }
}

impl Debug for Node<'_> {
    fn fmt(&self, f: &mut Formatter<'_>) -> fmt::Result {
        write!(f, "{}#{}", self.kind(), self.index)
    }
}

/// The children of a node, in order.
#[derive(Clone)]
pub struct Children<'r> {
    reading: &'r Reading<'r>,
    indices: std::slice::Iter<'r, u32>,
}

impl Debug for Children<'_> {
    fn fmt(&self, f: &mut Formatter<'_>) -> fmt::Result {
        f.debug_list().entries(self.clone()).finish()
    }
}

/// A node with its parts by name. A part that is called `..s` has any number of nodes.
#[derive(Clone, Debug)]
pub enum View<'r> {
    Program {
        declarations: Children<'r>,
    },
    Block {
        scope: usize,
        declarations: Children<'r>,
    },
    /// Branches are ElifStmt, or Block for an else.
    IfStmt {
        condition: Node<'r>,
        body: Node<'r>,
        branches: Children<'r>,
    },
    ElifStmt {
        condition: Node<'r>,
        body: Node<'r>,
    },
    /// Names is an IdentPair.
    ForStmt {
        names: Node<'r>,
        over: Node<'r>,
        body: Node<'r>,
    },
    ReturnStmt {
        value: Option<Node<'r>>,
    },
    ExprStmt {
        expression: Node<'r>,
    },
    VarDecl {
        name: Token<'r>,
        is_global: bool,
        value: Option<Node<'r>>,
    },
    FnDecl {
        name: Token<'r>,
        params: Children<'r>,
        body: Node<'r>,
    },
    FnParams {
        params: Children<'r>,
    },
    IdentPair {
        first: Node<'r>,
        second: Node<'r>,
    },
    ItemList {
        items: Children<'r>,
    },
    TableItem {
        key: Token<'r>,
        value: Node<'r>,
    },
    Table {
        name: Token<'r>,
        items: Children<'r>,
    },
    TableAccess {
        target: Node<'r>,
        index: Node<'r>,
    },
    Array {
        name: Token<'r>,
        items: Children<'r>,
    },
    ArrayItems {
        items: Children<'r>,
    },
    ArrayAccess {
        target: Node<'r>,
        index: Node<'r>,
    },
    ArrayMutExpr {
        target: Node<'r>,
        index: Node<'r>,
        value: Node<'r>,
    },
    FnCallExpr {
        target: Node<'r>,
        arguments: Children<'r>,
        is_std: bool,
    },
    /// Declaration is the token of the name where it was declared.
    VarAssignExpr {
        target: Node<'r>,
        declaration: Token<'r>,
        is_global: bool,
        value: Node<'r>,
    },
    BinaryExpr {
        operator: Token<'r>,
        left: Node<'r>,
        right: Node<'r>,
    },
    UnaryExpr {
        operator: Token<'r>,
        operand: Node<'r>,
    },
    PrimaryExpr {
        token: Token<'r>,
    },
}

impl<'r> Node<'r> {
    pub(crate) fn new(reading: &'r Reading<'r>, index: usize) -> Node<'r> {
        Node { reading, index }
    }

    fn head(self) -> u32 {
        self.reading.heads[self.index]
    }

    /// The number of nodes before it in [`Reading::nodes`].
    pub fn index(self) -> usize {
        self.index
    }

    pub fn kind(self) -> NodeKind {
        NodeKind::from_number(self.head() % 32).expect("kinds are 1 to 24")
    }

    /// is_global of a VarDecl or VarAssignExpr, is_std of a FnCallExpr.
    pub fn mark(self) -> bool {
        self.head() / 32 % 2 == 1
    }

    /// The children, in order.
    pub fn children(self) -> Children<'r> {
        let from = self.reading.first_child[self.index] as usize;
        let to = from + self.head() as usize / 64;
        Children { reading: self.reading, indices: self.reading.children[from..to].iter() }
    }

    /// The token that the node carries: a declared name or key, an operator, a literal or name; for a
    /// VarAssignExpr that of the declaration.
    pub fn token(self) -> Option<Token<'r>> {
        let load = self.reading.loads[self.index] as usize;
        self.kind().has_token().then(|| {
            self.reading.tokens().get(load).expect("a carried token is one of the script's")
        })
    }

    /// The scope of a Block.
    pub fn scope(self) -> Option<usize> {
        (self.kind() == NodeKind::Block).then(|| self.reading.loads[self.index] as usize)
    }

    /// The part of the script from the first to the last token that this node or one below it carries, of
    /// tokens that stand there: none where there is no such token, as in a Block with no declarations.
    pub fn span(self) -> Option<Span> {
        let nodes = self.reading.first[self.index] as usize..=self.index;
        let here = nodes.map(|index| Node::new(self.reading, index));
        let tokens =
            here.filter(|node| node.kind() != NodeKind::VarAssignExpr).filter_map(Node::token);
        tokens.map(|token| token.span).reduce(Span::to)
    }

    /// The node with its parts by name.
    pub fn view(self) -> View<'r> {
        let mut children = self.children();
        let mut child = || children.next().expect("a node has the children of its kind");
        let token = || self.token().expect("a node of this kind carries a token");
        let mark = self.mark();
        match self.kind() {
            NodeKind::Program => View::Program { declarations: children },
            NodeKind::Block => View::Block {
                scope: self.scope().expect("a block has a scope"),
                declarations: children,
            },
            NodeKind::IfStmt => {
                View::IfStmt { condition: child(), body: child(), branches: children }
            }
            NodeKind::ElifStmt => View::ElifStmt { condition: child(), body: child() },
            NodeKind::ForStmt => View::ForStmt { names: child(), over: child(), body: child() },
            NodeKind::ReturnStmt => View::ReturnStmt { value: children.next() },
            NodeKind::ExprStmt => View::ExprStmt { expression: child() },
            NodeKind::VarDecl => {
                View::VarDecl { name: token(), is_global: mark, value: children.next() }
            }
            NodeKind::FnDecl => {
                View::FnDecl { name: token(), params: child().children(), body: child() }
            }
            NodeKind::FnParams => View::FnParams { params: children },
            NodeKind::IdentPair => View::IdentPair { first: child(), second: child() },
            NodeKind::ItemList => View::ItemList { items: children },
            NodeKind::TableItem => View::TableItem { key: token(), value: child() },
            NodeKind::Table => View::Table { name: token(), items: child().children() },
            NodeKind::TableAccess => View::TableAccess { target: child(), index: child() },
            NodeKind::Array => {
                let items = children.next().map_or(children, Node::children);
                View::Array { name: token(), items }
            }
            NodeKind::ArrayItems => View::ArrayItems { items: children },
            NodeKind::ArrayAccess => View::ArrayAccess { target: child(), index: child() },
            NodeKind::ArrayMutExpr => {
                View::ArrayMutExpr { target: child(), index: child(), value: child() }
            }
            NodeKind::FnCallExpr => {
                View::FnCallExpr { target: child(), arguments: children, is_std: mark }
            }
            NodeKind::VarAssignExpr => {
                let (target, value) = (child(), child());
                View::VarAssignExpr { target, declaration: token(), is_global: mark, value }
            }
            NodeKind::BinaryExpr => {
                View::BinaryExpr { operator: token(), left: child(), right: child() }
            }
            NodeKind::UnaryExpr => View::UnaryExpr { operator: token(), operand: child() },
            NodeKind::PrimaryExpr => View::PrimaryExpr { token: token() },
        }
    }
}

impl<'r> Iterator for Children<'r> {
    type Item = Node<'r>;

    fn next(&mut self) -> Option<Node<'r>> {
        self.indices.next().map(|index| Node::new(self.reading, *index as usize))
    }

    fn size_hint(&self) -> (usize, Option<usize>) {
        self.indices.size_hint()
    }
}

impl DoubleEndedIterator for Children<'_> {
    fn next_back(&mut self) -> Option<Self::Item> {
        self.indices.next_back().map(|index| Node::new(self.reading, *index as usize))
    }
}

impl ExactSizeIterator for Children<'_> {}
