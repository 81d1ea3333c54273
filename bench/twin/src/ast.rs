//! The kinds of nodes, numbered in the order of `AstNode` in the Rust, and the tree's two arrays.

use crate::parse_err::Refusal;

pub const PROGRAM: u32 = 1;
pub const BLOCK: u32 = 2;
pub const IF_STMT: u32 = 3;
pub const ELIF_STMT: u32 = 4;
pub const FOR_STMT: u32 = 5;
pub const RETURN_STMT: u32 = 6;
pub const EXPR_STMT: u32 = 7;
pub const VAR_DECL: u32 = 8;
pub const FN_DECL: u32 = 9;
pub const FN_PARAMS: u32 = 10;
pub const IDENT_PAIR: u32 = 11;
pub const ITEM_LIST: u32 = 12;
pub const TABLE_ITEM: u32 = 13;
pub const TABLE: u32 = 14;
pub const TABLE_ACCESS: u32 = 15;
pub const ARRAY: u32 = 16;
pub const ARRAY_ITEMS: u32 = 17;
pub const ARRAY_ACCESS: u32 = 18;
pub const ARRAY_MUT_EXPR: u32 = 19;
pub const FN_CALL_EXPR: u32 = 20;
pub const VAR_ASSIGN_EXPR: u32 = 21;
pub const BINARY_EXPR: u32 = 22;
pub const UNARY_EXPR: u32 = 23;
pub const PRIMARY_EXPR: u32 = 24;

/// A node to be pushed: its kind, is_global or is_std, how many children it has, and its payload.
#[derive(Clone, Copy)]
pub struct Node {
    pub kind: u32,
    pub mark: bool,
    pub children: usize,
    pub load: usize,
}

/// A node with neither mark nor payload.
pub fn node(kind: u32, children: usize) -> Node {
    Node { kind, mark: false, children, load: 0 }
}

impl Node {
    pub fn marked(self, mark: bool) -> Node {
        Node { mark, ..self }
    }

    pub fn with(self, load: usize) -> Node {
        Node { load, ..self }
    }
}

/// The nodes, children first.
pub struct Tree<'a> {
    pub heads: &'a mut [u32],
    pub loads: &'a mut [u32],
    pub count: usize,
}

impl Tree<'_> {
    pub fn push(&mut self, node: Node) -> Result<(), Refusal> {
        if self.count == self.heads.len() {
            return Err(Refusal::plain(7));
        }
        let Node { kind, mark, children, load } = node;
        self.heads[self.count] = kind + 32 * u32::from(mark) + 64 * children as u32;
        self.loads[self.count] = load as u32;
        self.count += 1;
        Ok(())
    }

    /// Takes a node out. At most as many nodes are moved as stand after it.
    pub fn remove(&mut self, index: usize) {
        self.heads.copy_within(index + 1..self.count, index);
        self.loads.copy_within(index + 1..self.count, index);
        self.count -= 1;
    }

    /// The kind of the node that was built last.
    pub fn top_kind(&self) -> u32 {
        self.heads[self.count - 1] % 32
    }

    /// The payload of the node that was built last.
    pub fn top_load(&self) -> usize {
        self.load(self.count - 1)
    }

    pub fn load(&self, index: usize) -> usize {
        self.loads[index] as usize
    }
}
