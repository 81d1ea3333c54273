//! The walk over the tokens: the small steps, declarations and statements of parser.rs of the Rust,
//! under its names.

use crate::ast::*;
use crate::parse_err::{
    Errors, ParseErr, Reason, Refusal, AN_IDENTIFIER, END_OF_FILE, EQ_OR_SEMICOLON,
};
use crate::symtab::{SymTab, What};
use crate::token::{self, Tokens, EOF, IDENT, LEX_PANIC};

/// The most calls of `block`, `assign_expr`, `unary_expr` and `fn_call_expr` that may be active.
const DEPTH_LIMIT: usize = 768;

/// FN_PARAM_MAX_LEN
const MAX_PARAMS: usize = 64;

/// Why a step does not go on: the declaration fails, or the call refuses.
pub enum Stop {
    Failed(ParseErr),
    Refused(Refusal),
}

impl From<Refusal> for Stop {
    fn from(refusal: Refusal) -> Stop {
        Stop::Refused(refusal)
    }
}

pub type Step<T = ()> = Result<T, Stop>;

pub struct Parser<'a> {
    pub tokens: Tokens<'a>,
    /// The kind of the lexing panic that ends the tokens, or 0.
    fault: u32,
    /// The index of the current token.
    pub at: usize,
    pub tree: Tree<'a>,
    pub sym_tab: SymTab<'a>,
    pub errors: Errors<'a>,
    pub should_check_sym_tab: bool,
    /// How many counted calls are active.
    depth: usize,
}

/// The names that are bound in a block: the payloads of so many nodes from an index on.
#[derive(Clone, Copy, Default)]
struct Bindings {
    from: usize,
    count: usize,
}

impl<'a> Parser<'a> {
    pub fn new(
        tokens: Tokens<'a>,
        fault: u32,
        tree: Tree<'a>,
        sym_tab: SymTab<'a>,
        errors: Errors<'a>,
    ) -> Parser<'a> {
        let should_check_sym_tab = true;
        Parser { tokens, fault, at: 0, tree, sym_tab, errors, should_check_sym_tab, depth: 0 }
    }

    /// Reads all declarations; answers has_err, and the error that ended the reading.
    pub fn parse(&mut self) -> Result<(bool, Option<ParseErr>), Refusal> {
        self.check_fault()?;
        let (mut flag, mut blocks) = (false, 0);
        let mut early = None;
        while self.kind() != EOF && early.is_none() {
            match self.top_decl()? {
                None => blocks += 1,
                Some(err) => {
                    flag = true;
                    early = Some(err).filter(|err| !err.reason.continuable());
                }
            }
        }
        self.tree.push(node(PROGRAM, blocks))?;
        Ok((flag, early))
    }

    /// A top-level declaration; if it fails, its nodes are gone, and its error is answered.
    fn top_decl(&mut self) -> Result<Option<ParseErr>, Refusal> {
        let before = self.tree.count;
        match self.decl() {
            Ok(()) => Ok(None),
            Err(Stop::Refused(refusal)) => Err(refusal),
            Err(Stop::Failed(err)) => {
                self.tree.count = before;
                self.depth = 0;
                Ok(Some(err))
            }
        }
    }

    fn decl(&mut self) -> Step {
        match self.kind() {
            token::VAR => self.var_decl(),
            token::FN => self.fn_decl(),
            _ => self.stmt(),
        }
    }

    fn stmt(&mut self) -> Step {
        match self.kind() {
            token::IF => self.if_stmt(),
            token::FOR => self.for_stmt(),
            token::RETURN => self.ret_stmt(),
            token::LEFT_BRACE => self.block(false, Bindings::default()),
            _ => self.expr_stmt(),
        }
    }

    /// A block, which may be a function's body: that ends in a ReturnStmt, if need be an inserted one.
    fn block(&mut self, is_body: bool, bindings: Bindings) -> Step {
        self.enter()?;
        self.expect(token::LEFT_BRACE)?;
        self.sym_tab.level += 1;
        for index in bindings.from..bindings.from + bindings.count {
            self.sym_tab.store(self.tree.load(index), What::Other)?;
        }
        let mut decls = 0;
        while !matches!(self.kind(), token::RIGHT_BRACE | EOF) {
            self.decl()?;
            decls += 1;
        }
        self.expect(token::RIGHT_BRACE)?;
        let scope = self.sym_tab.level;
        self.sym_tab.level -= 1;
        if is_body && (decls == 0 || self.tree.top_kind() != RETURN_STMT) {
            self.push(node(RETURN_STMT, 0))?;
            decls += 1;
        }
        self.push(node(BLOCK, decls).with(scope))?;
        self.leave()
    }

    fn var_decl(&mut self) -> Step {
        self.expect(token::VAR)?;
        let name = self.ident(Reason::ExpectedIdent(self.at))?;
        match self.kind() {
            token::EQ => {
                self.consume()?;
                self.initial(name)?;
                self.declare_var(name, 1)
            }
            token::SEMICOLON => {
                self.consume()?;
                self.declare_var(name, 0)
            }
            _ => self.throw(Reason::InvalidTknMsg(EQ_OR_SEMICOLON)),
        }
    }

    /// What a variable is declared with, and the `;`.
    fn initial(&mut self, name: usize) -> Step {
        match self.kind() {
            token::LEFT_BRACKET => self.array_decl(name),
            token::DOUBLE_LEFT_BRACKET => self.table_decl(name),
            _ => {
                self.expr()?;
                self.expect(token::SEMICOLON)
            }
        }
    }

    fn declare_var(&mut self, name: usize, children: usize) -> Step {
        let is_global = self.sym_tab.is_global();
        self.push(node(VAR_DECL, children).marked(is_global).with(name))?;
        self.store(name, What::Variable { is_global })
    }

    fn fn_decl(&mut self) -> Step {
        self.expect(token::FN)?;
        let name = self.ident(Reason::ExpectedIdent(self.at))?;
        self.store(name, What::Placeholder)?;
        self.expect(token::LEFT_PAREN)?;
        let from = self.tree.count;
        let count = self.param_list(Parser::ident_node)?;
        self.push(node(FN_PARAMS, count))?;
        self.expect(token::RIGHT_PAREN)?;
        self.block(true, Bindings { from, count })?;
        self.push(node(FN_DECL, 2).with(name))?;
        self.store(name, What::Function(count))
    }

    /// The parameters of a function or the arguments of a call; answers how many they are.
    pub fn param_list(&mut self, item: impl Fn(&mut Self) -> Step) -> Step<usize> {
        let mut count = 0;
        while self.kind() != token::RIGHT_PAREN {
            if count == MAX_PARAMS {
                return self.throw(Reason::FnParmCntExceeded(MAX_PARAMS));
            }
            if self.kind() == EOF {
                return self.throw(Reason::InvalidTknMsg(END_OF_FILE));
            }
            item(self)?;
            count += 1;
            if self.kind() != token::RIGHT_PAREN {
                self.expect(token::COMMA)?;
            }
        }
        Ok(count)
    }

    fn table_decl(&mut self, name: usize) -> Step {
        self.expect(token::DOUBLE_LEFT_BRACKET)?;
        let count = self.comma_list(token::DOUBLE_RIGHT_BRACKET, Parser::table_item)?;
        self.push(node(ITEM_LIST, count))?;
        self.expect(token::DOUBLE_RIGHT_BRACKET)?;
        self.push(node(TABLE, 1).with(name))?;
        self.store(name, What::Other)?;
        self.expect(token::SEMICOLON)
    }

    fn table_item(&mut self) -> Step {
        let key = self.ident(Reason::InvalidTknMsg(AN_IDENTIFIER))?;
        self.expect(token::EQ_ARROW)?;
        self.expr()?;
        self.push(node(TABLE_ITEM, 1).with(key))
    }

    fn array_decl(&mut self, name: usize) -> Step {
        self.expect(token::LEFT_BRACKET)?;
        let count = self.comma_list(token::RIGHT_BRACKET, Parser::expr)?;
        self.expect(token::RIGHT_BRACKET)?;
        self.expect(token::SEMICOLON)?;
        if count > 0 {
            self.push(node(ARRAY_ITEMS, count))?;
        }
        self.push(node(ARRAY, count.min(1)).with(name))?;
        self.store(name, What::Other)
    }

    /// Items with commas between them, up to a closing sign; a last comma is optional.
    fn comma_list(&mut self, close: u32, item: impl Fn(&mut Self) -> Step) -> Step<usize> {
        let mut count = 0;
        while self.kind() != close {
            if self.kind() == EOF {
                return self.throw(Reason::InvalidTknMsg(END_OF_FILE));
            }
            item(self)?;
            count += 1;
            if self.kind() != token::COMMA {
                break;
            }
            self.consume()?;
        }
        Ok(count)
    }

    fn if_stmt(&mut self) -> Step {
        self.expect(token::IF)?;
        self.expr()?;
        self.block(false, Bindings::default())?;
        let (mut branches, mut elses) = (0, 0);
        loop {
            match self.kind() {
                token::ELIF => self.elif_stmt()?,
                token::ELSE => {
                    self.consume()?;
                    self.block(false, Bindings::default())?;
                    elses += 1;
                }
                _ => break,
            }
            branches += 1;
        }
        if elses > 1 {
            self.add_error(Reason::InvalidIfStmt)?;
        }
        self.push(node(IF_STMT, 2 + branches))
    }

    fn elif_stmt(&mut self) -> Step {
        self.consume()?;
        self.expr()?;
        self.block(false, Bindings::default())?;
        self.push(node(ELIF_STMT, 2))
    }

    fn for_stmt(&mut self) -> Step {
        self.expect(token::FOR)?;
        let bindings = Bindings { from: self.tree.count, count: 2 };
        self.ident_node()?;
        self.expect(token::COMMA)?;
        self.ident_node()?;
        self.push(node(IDENT_PAIR, 2))?;
        self.expect(token::IN)?;
        self.expr()?;
        self.block(false, bindings)?;
        self.push(node(FOR_STMT, 3))
    }

    /// A parameter's or a loop's name.
    fn ident_node(&mut self) -> Step {
        let name = self.ident(Reason::ExpectedIdent(self.at))?;
        self.push(node(PRIMARY_EXPR, 0).with(name))
    }

    fn ret_stmt(&mut self) -> Step {
        self.expect(token::RETURN)?;
        if self.kind() == token::SEMICOLON {
            self.consume()?;
            return self.push(node(RETURN_STMT, 0));
        }
        self.expr()?;
        self.expect(token::SEMICOLON)?;
        self.push(node(RETURN_STMT, 1))
    }

    fn expr_stmt(&mut self) -> Step {
        self.expr()?;
        self.expect(token::SEMICOLON)?;
        self.push(node(EXPR_STMT, 1))
    }

    /// The current token's kind.
    pub fn kind(&self) -> u32 {
        self.tokens.kind(self.at)
    }

    /// Takes the current token if it is of a kind, else fails without a listed error.
    pub fn expect(&mut self, kind: u32) -> Step {
        if self.kind() == kind {
            return self.consume();
        }
        let reason = Reason::TknMismatch(kind, self.at);
        Err(Stop::Failed(ParseErr { token: self.at, reason }))
    }

    /// match_ident, and what its callers do where there is no name.
    fn ident(&mut self, reason: Reason) -> Step<usize> {
        let name = self.at;
        if self.kind() != IDENT {
            self.add_error(Reason::InvalidIdent(name))?;
            return self.throw(reason);
        }
        self.consume()?;
        Ok(name)
    }

    /// Goes to the next token. Eof stays.
    pub fn consume(&mut self) -> Step {
        if self.kind() == EOF {
            return Ok(());
        }
        self.at += 1;
        Ok(self.check_fault()?)
    }

    /// A lexing panic is met as soon as it is the current token.
    fn check_fault(&self) -> Result<(), Refusal> {
        if self.kind() == LEX_PANIC {
            return Err(Refusal(5, self.fault, self.tokens.offset(self.at)));
        }
        Ok(())
    }

    fn add_error(&mut self, reason: Reason) -> Step<ParseErr> {
        self.add_error_w_pos(self.at, reason)
    }

    pub fn add_error_w_pos(&mut self, token: usize, reason: Reason) -> Step<ParseErr> {
        let err = ParseErr { token, reason };
        self.errors.push(err)?;
        Ok(err)
    }

    /// Lists an error at the current token, and fails with it.
    pub fn throw<T>(&mut self, reason: Reason) -> Step<T> {
        Err(Stop::Failed(self.add_error(reason)?))
    }

    /// The same, with the current token taken before it fails.
    pub fn throw_past<T>(&mut self, reason: Reason) -> Step<T> {
        let err = self.add_error(reason)?;
        self.consume()?;
        Err(Stop::Failed(err))
    }

    pub fn push(&mut self, node: Node) -> Step {
        Ok(self.tree.push(node)?)
    }

    fn store(&mut self, name: usize, what: What) -> Step {
        Ok(self.sym_tab.store(name, what)?)
    }

    /// A counted call begins.
    pub fn enter(&mut self) -> Step {
        if self.depth == DEPTH_LIMIT {
            return Err(Refusal::plain(6).into());
        }
        self.depth += 1;
        Ok(())
    }

    /// A counted call ends well. Where one fails, its whole declaration does.
    pub fn leave(&mut self) -> Step {
        self.depth -= 1;
        Ok(())
    }
}
