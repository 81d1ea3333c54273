//! Canonical text, written backwards: from the last node of the tree and from the end of the buffer.
//! A node's children come before it and the last child is next to it, so the walk over the nodes never
//! looks for one. A left operand is the last thing that its operator writes, so a loop goes down a left
//! spine, and the recursion is no deeper than the script nests.

use crate::ast::*;
use crate::expr::looseness;
use crate::parse_err::Refusal;
use crate::token::Tokens;

/// The binding strengths that are not a binary operator's.
const LEAST: u32 = 0;
const UNARY: u32 = 8;
const GREATEST: u32 = 9;

type Step = Result<(), Refusal>;

/// A node, unpacked from its two words.
struct Taken {
    children: usize,
    load: usize,
}

struct Writer<'a> {
    tokens: Tokens<'a>,
    heads: &'a [u32],
    loads: &'a [u32],
    /// How many nodes are left to be written: the first ones.
    nodes: usize,
    text: &'a mut [u8],
    /// Where the text begins that is written so far. It ends with the buffer.
    at: usize,
    /// What stands after the next word: a newline if it ends a top-level declaration, else a space.
    after: u8,
}

/// Writes the text of a tree to the front of a buffer, and answers its length. Anything may be left
/// behind it.
pub fn write(
    tokens: Tokens,
    heads: &[u32],
    loads: &[u32],
    text: &mut [u8],
) -> Result<usize, Refusal> {
    let end = text.len();
    let nodes = heads.len();
    let mut writer = Writer { tokens, heads, loads, nodes, text, at: end, after: b'\n' };
    writer.program()?;
    let at = writer.at;
    text.copy_within(at.., 0);
    Ok(end - at)
}

impl Writer<'_> {
    fn program(&mut self) -> Step {
        for _ in 0..self.take().children {
            self.after = b'\n';
            self.decl()?;
        }
        Ok(())
    }

    fn decl(&mut self) -> Step {
        match self.kind() {
            VAR_DECL => self.var_decl(),
            FN_DECL => self.fn_decl(),
            IF_STMT => self.if_stmt(),
            FOR_STMT => self.for_stmt(),
            RETURN_STMT => self.ret_stmt(),
            BLOCK => self.block(),
            _ => self.expr_stmt(),
        }
    }

    fn block(&mut self) -> Step {
        let block = self.take();
        self.put(b"}")?;
        for _ in 0..block.children {
            self.decl()?;
        }
        self.put(b"{")
    }

    fn var_decl(&mut self) -> Step {
        let decl = self.take();
        self.put(b";")?;
        if decl.children > 0 {
            self.initial()?;
            self.put(b"=")?;
        }
        self.put_token(decl.load)?;
        self.put(b"var")
    }

    /// What a variable is declared with.
    fn initial(&mut self) -> Step {
        match self.kind() {
            ARRAY => self.array(),
            TABLE => self.table(),
            _ => self.expr(),
        }
    }

    fn array(&mut self) -> Step {
        let array = self.take();
        self.put(b"]")?;
        if array.children > 0 {
            let items = self.take();
            self.commas(items.children, Writer::expr)?;
        }
        self.put(b"[")
    }

    fn table(&mut self) -> Step {
        self.take();
        self.put(b"]]")?;
        let items = self.take();
        self.commas(items.children, Writer::table_item)?;
        self.put(b"[[")
    }

    fn table_item(&mut self) -> Step {
        let item = self.take();
        self.expr()?;
        self.put(b"=>")?;
        self.put_token(item.load)
    }

    fn fn_decl(&mut self) -> Step {
        let decl = self.take();
        self.block()?;
        self.put(b")")?;
        let params = self.take();
        self.commas(params.children, Writer::primary)?;
        self.put(b"(")?;
        self.put_token(decl.load)?;
        self.put(b"fn")
    }

    fn if_stmt(&mut self) -> Step {
        let stmt = self.take();
        for _ in 2..stmt.children {
            self.branch()?;
        }
        self.block()?;
        self.expr()?;
        self.put(b"if")
    }

    /// A branch after the first: a Block is an else.
    fn branch(&mut self) -> Step {
        if self.kind() == BLOCK {
            self.block()?;
            return self.put(b"else");
        }
        self.take();
        self.block()?;
        self.expr()?;
        self.put(b"elif")
    }

    fn for_stmt(&mut self) -> Step {
        self.take();
        self.block()?;
        self.expr()?;
        self.put(b"in")?;
        let pair = self.take();
        self.commas(pair.children, Writer::primary)?;
        self.put(b"for")
    }

    fn ret_stmt(&mut self) -> Step {
        let stmt = self.take();
        self.put(b";")?;
        if stmt.children > 0 {
            self.expr()?;
        }
        self.put(b"return")
    }

    fn expr_stmt(&mut self) -> Step {
        self.take();
        self.put(b";")?;
        self.expr()
    }

    /// Items with commas between them, the last one first.
    fn commas(&mut self, count: usize, item: impl Fn(&mut Self) -> Step) -> Step {
        for done in 0..count {
            if done > 0 {
                self.put(b",")?;
            }
            item(self)?;
        }
        Ok(())
    }

    /// An expression. Where left operands stand in parentheses, all of these open where it begins.
    fn expr(&mut self) -> Step {
        let mut opened = 0;
        while self.kind() == BINARY_EXPR {
            let strength = self.strength();
            let op = self.take();
            self.operand(self.strength() <= strength)?;
            self.put_token(op.load)?;
            if self.strength() < strength {
                self.put(b")")?;
                opened += 1;
            }
        }
        self.suffixed_or_less()?;
        for _ in 0..opened {
            self.put(b"(")?;
        }
        Ok(())
    }

    /// A right operand or a unary one, in parentheses or bare.
    fn operand(&mut self, in_parens: bool) -> Step {
        if !in_parens {
            return self.expr();
        }
        self.put(b")")?;
        self.expr()?;
        self.put(b"(")
    }

    /// An expression that is no binary one.
    fn suffixed_or_less(&mut self) -> Step {
        match self.kind() {
            VAR_ASSIGN_EXPR => self.target_and_value(b"="),
            TABLE_ACCESS => self.target_and_value(b"."),
            ARRAY_ACCESS => self.array_access(),
            ARRAY_MUT_EXPR => self.array_mut_expr(),
            FN_CALL_EXPR => self.fn_call_expr(),
            UNARY_EXPR => self.unary_expr(),
            _ => self.primary(),
        }
    }

    fn unary_expr(&mut self) -> Step {
        let op = self.take();
        self.operand(self.strength() < UNARY)?;
        self.put_token(op.load)
    }

    /// An assignment or a table access.
    fn target_and_value(&mut self, sign: &[u8]) -> Step {
        self.take();
        self.expr()?;
        self.put(sign)?;
        self.primary()
    }

    fn array_access(&mut self) -> Step {
        self.take();
        self.target_and_index()
    }

    fn array_mut_expr(&mut self) -> Step {
        self.take();
        self.expr()?;
        self.put(b"=")?;
        self.target_and_index()
    }

    fn target_and_index(&mut self) -> Step {
        self.put(b"]")?;
        self.expr()?;
        self.put(b"[")?;
        self.primary()
    }

    fn fn_call_expr(&mut self) -> Step {
        let call = self.take();
        self.put(b")")?;
        self.commas(call.children - 1, Writer::expr)?;
        self.put(b"(")?;
        self.primary()
    }

    fn primary(&mut self) -> Step {
        let primary = self.take();
        self.put_token(primary.load)
    }

    /// The kind of the node that is next.
    fn kind(&self) -> u32 {
        self.heads[self.nodes - 1] % 32
    }

    /// The binding strength of the node that is next.
    fn strength(&self) -> u32 {
        match self.kind() {
            VAR_ASSIGN_EXPR | ARRAY_MUT_EXPR | TABLE_ACCESS => LEAST,
            BINARY_EXPR => {
                let op = self.loads[self.nodes - 1] as usize;
                UNARY - looseness(self.tokens.kind(op))
            }
            UNARY_EXPR => UNARY,
            _ => GREATEST,
        }
    }

    fn take(&mut self) -> Taken {
        self.nodes -= 1;
        let (head, load) = (self.heads[self.nodes], self.loads[self.nodes]);
        Taken { children: head as usize / 64, load: load as usize }
    }

    fn put_token(&mut self, index: usize) -> Step {
        self.put(self.tokens.text(index))
    }

    /// Puts a word before what is written, and behind it what separates the two.
    fn put(&mut self, word: &[u8]) -> Step {
        let Some(at) = self.at.checked_sub(word.len() + 1) else {
            return Err(Refusal::plain(11));
        };
        self.text[at..at + word.len()].copy_from_slice(word);
        self.text[at + word.len()] = self.after;
        self.at = at;
        self.after = b' ';
        Ok(())
    }
}
