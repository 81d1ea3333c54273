//! What the traced parser reports: the events that document 01 counts, in order, and what the tree
//! and the errors of the Rust do not keep.

use crate::ast::AstNode;
use crate::token::Token;
use std::cell::RefCell;

/// The most calls of `block`, `assign_expr`, `unary_expr` and `fn_call_expr` that may be active.
pub const DEPTH_LIMIT: usize = 768;

/// What document 01 has a limit for.
#[derive(Clone, Copy, Debug, PartialEq)]
pub enum Event {
    /// A node is built.
    Node,
    /// A top-level declaration failed: only so many nodes are left.
    Freed(usize),
    /// A name is stored that was not there at its level.
    Symbol,
    /// An error is listed.
    Error,
    /// One call too many is active. The trace ends here.
    TooDeep,
}

#[derive(Clone, Copy, Debug, PartialEq)]
pub enum Branch {
    Elif,
    Else,
}

/// Line and column.
pub type Place = (usize, usize);

/// What is lost in the tree: lists in the order in which their nodes were built.
#[derive(Default)]
pub struct Lost {
    /// For each VarAssignExpr, the token that is assigned to.
    pub targets: Vec<Place>,
    /// For each IfStmt, its branches after the first.
    pub branches: Vec<Vec<Branch>>,
    /// For each ItemList, its keys and values, repeated keys too.
    pub items: Vec<Vec<(Token, AstNode)>>,
}

#[derive(Default)]
pub struct Trace {
    pub events: Vec<Event>,
    pub lost: Lost,
    /// For each listed error, the token that it carries or stands at.
    pub carried: Vec<Place>,
    /// The opening signs of the suffixes that were being read when a panic came.
    pub opened: Vec<Place>,
    /// The most counted calls that were active at once.
    pub most_active: usize,
    depth: usize,
    nodes: usize,
    next_carried: Option<Place>,
    open_branches: Vec<Branch>,
    open_items: Vec<(Token, AstNode)>,
    begun: Begun,
}

/// What there was when the current top-level declaration began.
#[derive(Default)]
struct Begun {
    nodes: usize,
    targets: usize,
    branches: usize,
    items: usize,
}

thread_local! {
    static TRACE: RefCell<Trace> = RefCell::default();
}

fn with<R>(job: impl FnOnce(&mut Trace) -> R) -> R {
    TRACE.with_borrow_mut(job)
}

/// What was reported since the last call of this.
pub fn take() -> Trace {
    TRACE.take()
}

/// A call of a counted function, active until this is dropped.
pub struct Counted;

impl Drop for Counted {
    fn drop(&mut self) {
        with(|trace| trace.depth -= 1);
    }
}

pub fn enter() -> Counted {
    let too_deep = with(|trace| {
        trace.depth += 1;
        trace.most_active = trace.most_active.max(trace.depth);
        trace.depth > DEPTH_LIMIT
    });
    let counted = Counted;
    if too_deep {
        with(|trace| trace.events.push(Event::TooDeep));
        panic!("too deep");
    }
    counted
}

/// A suffix that is being read, until this is dropped. A panic leaves it in the trace.
pub struct Opened;

impl Drop for Opened {
    fn drop(&mut self) {
        if !std::thread::panicking() {
            with(|trace| trace.opened.truncate(trace.opened.len() - 1));
        }
    }
}

pub fn opened(sign: &Token) -> Opened {
    with(|trace| trace.opened.push((sign.line, sign.pos)));
    Opened
}

pub fn node() {
    with(Trace::node);
}

pub fn symbol() {
    with(|trace| trace.events.push(Event::Symbol));
}

pub fn carries(line: usize, pos: usize) {
    with(|trace| trace.next_carried = Some((line, pos)));
}

pub fn carries_token(token: &Option<Token>) {
    with(|trace| trace.next_carried = token.as_ref().map(|token| (token.line, token.pos)));
}

pub fn error(current: &Token) {
    with(|trace| {
        let carried = trace.next_carried.take().unwrap_or((current.line, current.pos));
        trace.carried.push(carried);
        trace.events.push(Event::Error);
    });
}

pub fn var_assign(line: usize, pos: usize) {
    with(|trace| {
        trace.lost.targets.push((line, pos));
        trace.node();
    });
}

pub fn branch(branch: Branch) {
    with(|trace| trace.open_branches.push(branch));
}

/// An if statement with so many branches after the first: the last ones that have no statement yet.
pub fn if_stmt(count: usize) {
    with(|trace| {
        let from = trace.open_branches.len() - count;
        trace.lost.branches.push(trace.open_branches.split_off(from));
        trace.node();
    });
}

pub fn item(key: &Token, val: &AstNode) {
    with(|trace| {
        trace.open_items.push((key.clone(), val.clone()));
        trace.node();
    });
}

pub fn item_list() {
    with(|trace| {
        let items = std::mem::take(&mut trace.open_items);
        trace.lost.items.push(items);
        trace.node();
    });
}

/// A top-level declaration begins.
pub fn begun() {
    with(|trace| {
        let Lost { targets, branches, items } = &trace.lost;
        trace.begun = Begun {
            nodes: trace.nodes,
            targets: targets.len(),
            branches: branches.len(),
            items: items.len(),
        };
    });
}

/// The top-level declaration failed: what it built is gone.
pub fn failed() {
    with(|trace| {
        let begun = &trace.begun;
        trace.nodes = begun.nodes;
        trace.events.push(Event::Freed(begun.nodes));
        trace.lost.targets.truncate(begun.targets);
        trace.lost.branches.truncate(begun.branches);
        trace.lost.items.truncate(begun.items);
        trace.open_branches.clear();
        trace.open_items.clear();
    });
}

impl Trace {
    fn node(&mut self) {
        self.nodes += 1;
        self.events.push(Event::Node);
    }
}
