//! The walk over the tokens: the expressions of parser.rs of the Rust, under its names.

use crate::ast::*;
use crate::parse_err::{Reason, Refusal};
use crate::parser::{Parser, Step, Stop};
use crate::reserved::is_std_lib_fn;
use crate::symtab::{Symbol, What};
use crate::token::{self, IDENT, STR};

/// The loosest of the seven levels of binary operators: or_expr.
const OR: u32 = 7;

/// The level that reads a binary operator, 1 for mod_expr to 7 for or_expr; 0 for what is none.
pub fn looseness(kind: u32) -> u32 {
    match kind {
        token::PERCENT => 1,
        token::STAR | token::SLASH => 2,
        token::PLUS | token::MINUS => 3,
        token::LT | token::LT_EQ | token::GT | token::GT_EQ => 4,
        token::BANG_EQ | token::EQ_EQ => 5,
        token::AMP_AMP => 6,
        token::PIPE_PIPE => OR,
        _ => 0,
    }
}

/// What a suffix follows: its token, if it is a single one.
type Target = Option<usize>;

impl Parser<'_> {
    pub fn expr(&mut self) -> Step {
        self.enter()?;
        self.assign_expr()?;
        self.leave()
    }

    fn assign_expr(&mut self) -> Step {
        self.unary_expr()?;
        self.binary_expr(OR)?;
        if self.kind() != token::EQ {
            return Ok(());
        }
        let (target, op) = (self.tree.count - 1, self.at);
        let (kind, token) = (self.tree.top_kind(), self.tree.top_load());
        self.consume()?;
        self.expr()?;
        match kind {
            PRIMARY_EXPR => self.assign_token(token),
            ARRAY_ACCESS => {
                self.tree.remove(target);
                self.push(node(ARRAY_MUT_EXPR, 3))
            }
            _ => Err(Stop::Failed(self.add_error_w_pos(op, Reason::InvalidAssign(op))?)),
        }
    }

    /// The target is a single token.
    fn assign_token(&mut self, token: usize) -> Step {
        if self.tokens.kind(token) != IDENT {
            return self.throw(Reason::InvalidAssign(token));
        }
        match self.sym_tab.retrieve(self.tokens.name(token)) {
            Some(Symbol { token: declared, what: What::Variable { is_global } }) => {
                self.push(node(VAR_ASSIGN_EXPR, 2).marked(is_global).with(declared))
            }
            _ => self.throw(Reason::UndeclSym(token)),
        }
    }

    /// A level of binary operators goes on after an operand: it reads the operators that bind within it, and
    /// the operand after each.
    fn binary_expr(&mut self, level: u32) -> Step {
        if !(1..=level).contains(&looseness(self.kind())) {
            return Ok(());
        }
        self.binary_expr(level - 1)?;
        while looseness(self.kind()) == level {
            let op = self.at;
            self.consume()?;
            self.unary_expr()?;
            self.binary_expr(level - 1)?;
            self.push(node(BINARY_EXPR, 2).with(op))?;
        }
        Ok(())
    }

    fn unary_expr(&mut self) -> Step {
        self.enter()?;
        let op = self.at;
        if matches!(self.kind(), token::BANG | token::MINUS) {
            self.consume()?;
            self.unary_expr()?;
            self.push(node(UNARY_EXPR, 1).with(op))?;
        } else {
            self.fn_call_expr()?;
        }
        self.leave()
    }

    /// A primary expression, and one suffix at most.
    fn fn_call_expr(&mut self) -> Step {
        self.enter()?;
        self.primary_expr()?;
        let is_single = self.tree.top_kind() == PRIMARY_EXPR;
        let target = is_single.then(|| self.tree.top_load());
        match self.kind() {
            token::LEFT_PAREN => self.call(target)?,
            token::PERIOD => self.table_access(target)?,
            token::LEFT_BRACKET => self.array_access(target)?,
            _ => (),
        }
        self.leave()
    }

    fn call(&mut self, target: Target) -> Step {
        let open = self.at;
        self.consume()?;
        let count = self.param_list(Parser::expr)?;
        self.expect(token::RIGHT_PAREN)?;
        match target {
            Some(name) if matches!(self.tokens.kind(name), IDENT | STR) => {
                self.call_name(name, count)
            }
            _ => Err(self.panic(3, open)),
        }
    }

    /// A call of the name at a token.
    fn call_name(&mut self, token: usize, count: usize) -> Step {
        let name = self.tokens.name(token);
        let is_std = is_std_lib_fn(name);
        let expected = match self.sym_tab.retrieve(name).map(|symbol| symbol.what) {
            _ if is_std => count,
            None => return self.throw_past(Reason::UndeclSym(token)),
            Some(What::Placeholder) => count,
            Some(What::Function(params)) => params,
            Some(_) => 0,
        };
        if count != expected {
            return self.throw(Reason::WrongFnParmCnt(expected, count));
        }
        self.push(node(FN_CALL_EXPR, 1 + count).marked(is_std))
    }

    fn table_access(&mut self, target: Target) -> Step {
        let open = self.at;
        self.consume()?;
        self.should_check_sym_tab = false;
        self.expr()?;
        self.should_check_sym_tab = true;
        self.access(TABLE_ACCESS, target, 4, open)
    }

    fn array_access(&mut self, target: Target) -> Step {
        let open = self.at;
        self.consume()?;
        self.expr()?;
        self.expect(token::RIGHT_BRACKET)?;
        self.access(ARRAY_ACCESS, target, 5, open)
    }

    /// The node of an access, or the panic if its target is no single token.
    fn access(&mut self, kind: u32, target: Target, fault: u32, open: usize) -> Step {
        match target {
            Some(_) => self.push(node(kind, 2)),
            None => Err(self.panic(fault, open)),
        }
    }

    /// A panic of the Rust, with the opening sign.
    fn panic(&self, kind: u32, open: usize) -> Stop {
        Refusal(5, kind, self.tokens.offset(open)).into()
    }

    fn primary_expr(&mut self) -> Step {
        match self.kind() {
            STR | token::VAL | token::TRUE | token::FALSE => self.literal(),
            IDENT => self.ident_expr(),
            token::LEFT_PAREN => self.group_expr(),
            token::AT => {
                self.consume()?;
                self.fn_call_expr()
            }
            _ => self.throw_past(Reason::InvalidTkn(self.at)),
        }
    }

    fn ident_expr(&mut self) -> Step {
        let name = self.tokens.name(self.at);
        let checked = self.should_check_sym_tab && !is_std_lib_fn(name);
        if checked && self.sym_tab.retrieve(name).is_none() {
            return self.throw_past(Reason::UndeclSym(self.at));
        }
        self.literal()
    }

    fn literal(&mut self) -> Step {
        self.push(node(PRIMARY_EXPR, 0).with(self.at))?;
        self.consume()
    }

    fn group_expr(&mut self) -> Step {
        self.consume()?;
        self.expr()?;
        self.expect(token::RIGHT_PAREN)
    }
}
