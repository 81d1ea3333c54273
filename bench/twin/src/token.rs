//! The kinds of tokens, numbered in the order of `TokenTy` in the Rust, and how a token is packed.

pub const LEFT_PAREN: u32 = 1;
pub const RIGHT_PAREN: u32 = 2;
pub const LEFT_BRACE: u32 = 3;
pub const RIGHT_BRACE: u32 = 4;
pub const LEFT_BRACKET: u32 = 5;
pub const RIGHT_BRACKET: u32 = 6;
pub const SEMICOLON: u32 = 7;
pub const EQ: u32 = 8;
pub const LT: u32 = 9;
pub const GT: u32 = 10;
pub const PERIOD: u32 = 11;
pub const COMMA: u32 = 12;
pub const BANG: u32 = 13;
pub const PLUS: u32 = 14;
pub const MINUS: u32 = 15;
pub const STAR: u32 = 16;
pub const SLASH: u32 = 17;
pub const PERCENT: u32 = 18;
pub const AMP: u32 = 19;
pub const PIPE: u32 = 20;
pub const AT: u32 = 21;
pub const EQ_EQ: u32 = 22;
pub const LT_EQ: u32 = 23;
pub const GT_EQ: u32 = 24;
pub const EQ_ARROW: u32 = 25;
pub const BANG_EQ: u32 = 26;
pub const AMP_AMP: u32 = 27;
pub const PIPE_PIPE: u32 = 28;
pub const DOUBLE_LEFT_BRACKET: u32 = 29;
pub const DOUBLE_RIGHT_BRACKET: u32 = 30;
pub const IDENT: u32 = 31;
pub const STR: u32 = 32;
pub const VAL: u32 = 33;
pub const VAR: u32 = 34;
pub const FN: u32 = 35;
pub const RETURN: u32 = 36;
pub const TABLE: u32 = 37;
pub const ARRAY: u32 = 38;
pub const IF: u32 = 39;
pub const ELIF: u32 = 40;
pub const ELSE: u32 = 41;
pub const FOR: u32 = 42;
pub const IN: u32 = 43;
pub const TRUE: u32 = 44;
pub const FALSE: u32 = 45;
pub const EOF: u32 = 47;

/// A lexing panic of the Rust, which ends the tokens in the place of Eof.
pub const LEX_PANIC: u32 = 48;

/// A token's second word.
pub fn word(kind: u32, len: usize) -> u32 {
    kind + 64 * len as u32
}

/// The tokens of a script, in two arrays that hold nothing else.
#[derive(Clone, Copy)]
pub struct Tokens<'a> {
    pub script: &'a [u8],
    pub offs: &'a [u32],
    pub words: &'a [u32],
}

impl<'a> Tokens<'a> {
    pub fn kind(&self, index: usize) -> u32 {
        self.words[index] % 64
    }

    pub fn offset(&self, index: usize) -> usize {
        self.offs[index] as usize
    }

    /// A token's bytes in the script.
    pub fn text(&self, index: usize) -> &'a [u8] {
        let (at, len) = (self.offset(index), self.words[index] as usize / 64);
        &self.script[at..at + len]
    }

    /// get_name: a name, or a string without its quotes.
    pub fn name(&self, index: usize) -> &'a [u8] {
        let text = self.text(index);
        if self.kind(index) == STR {
            return &text[1..text.len() - 1];
        }
        text
    }
}
