//! What is timed: a call of one of the three sides on a script.

use compare::host::{self, Answer, Arrays, Calls, ReadingAnswer, TextAnswer};
use reference::lex::Lexer;
use reference::parser::Parser;
use reference::symtab::SymTab;
use reference::token::TokenTy;
use std::hint::black_box;

#[derive(Clone, Copy, Debug, PartialEq)]
pub enum Side {
    /// The Rust of docs/src.
    Rust,
    /// The proved calls.
    Ours,
    /// The same calls in plain Rust.
    Twin,
}

#[derive(Clone, Copy, Debug, PartialEq)]
pub enum Call {
    Lexing,
    Reading,
    /// The Rust has no such call: it reads.
    Text,
}

impl Side {
    pub const ALL: [Side; 3] = [Side::Rust, Side::Ours, Side::Twin];

    pub fn of(name: &str) -> Option<Side> {
        Side::ALL.into_iter().find(|side| side.name() == name)
    }

    pub fn name(self) -> &'static str {
        ["Rust", "ours", "twin"][self as usize]
    }
}

impl Call {
    pub const ALL: [Call; 3] = [Call::Lexing, Call::Reading, Call::Text];

    pub fn of(name: &str) -> Option<Call> {
        Call::ALL.into_iter().find(|call| call.name() == name)
    }

    pub fn name(self) -> &'static str {
        ["lexing", "reading", "text"][self as usize]
    }
}

/// The memory that a call is lent.
pub struct Memory {
    arrays: [Vec<u32>; 7],
    text: Vec<u8>,
}

impl Memory {
    /// Enough for any script of this length.
    pub fn new(script_len: usize) -> Memory {
        let len = script_len + 1;
        let arrays = [len, len, len, len, 2 * len, len, len].map(|len| vec![0; len]);
        Memory { arrays, text: vec![0; 4 * script_len] }
    }

    pub fn parts(&mut self) -> (Arrays<'_>, &mut [u8]) {
        let [offs, words, heads, loads, symbols, places, reasons] =
            self.arrays.each_mut().map(Vec::as_mut_slice);
        (Arrays { offs, words, heads, loads, symbols, places, reasons }, &mut self.text)
    }
}

/// A call on a script, with the memory that it is lent. What a run leaves there the next one finds.
pub struct Job {
    side: Side,
    call: Call,
    script: Vec<u8>,
    memory: Memory,
}

/// What a call counts: tokens; errors and nodes; or the bytes of a text, where there is one. The Rust
/// counts no nodes and no bytes.
pub type Counts = Vec<u32>;

impl Job {
    pub fn new(side: Side, call: Call, script: Vec<u8>, memory: usize) -> Job {
        Job { side, call, script, memory: Memory::new(memory) }
    }

    pub fn run(&mut self) -> Counts {
        let script = black_box(&self.script[..]);
        match (self.side, self.call) {
            (Side::Rust, Call::Lexing) => vec![lex_by_rust(script)],
            (Side::Rust, Call::Reading) => vec![read_by_rust(script)],
            (Side::Rust, Call::Text) => {
                read_by_rust(script);
                Vec::new()
            }
            (Side::Ours, Call::Lexing) => self.lexed(host::tokens),
            (Side::Twin, Call::Lexing) => self.lexed(tokens_by_twin),
            (Side::Ours, Call::Reading) => self.read(host::READING),
            (Side::Twin, Call::Reading) => self.read(host::TWIN_READING),
            (Side::Ours, Call::Text) => self.written(host::TEXT),
            (Side::Twin, Call::Text) => self.written(host::TWIN_TEXT),
        }
    }

    /// The same by the calls of a library, whichever side the job is of.
    pub fn run_by(&mut self, calls: &Calls) -> Counts {
        let counts = match self.call {
            Call::Lexing => self.lexed(|script, offs, words| calls.tokens(script, offs, words)),
            Call::Reading => self.read(|script, arrays| calls.reading(script, arrays)),
            Call::Text => self.written(|script, arrays, text| calls.text(script, arrays, text)),
        };
        black_box(counts)
    }

    fn lexed(&mut self, call: impl Fn(&[u8], &mut [u32], &mut [u32]) -> Answer) -> Counts {
        let (Arrays { offs, words, .. }, _) = self.memory.parts();
        vec![call(black_box(&self.script), offs, words).count]
    }

    fn read(&mut self, call: impl Fn(&[u8], Arrays<'_>) -> ReadingAnswer) -> Counts {
        let answer = call(black_box(&self.script), self.memory.parts().0);
        vec![answer.errors, answer.nodes]
    }

    fn written(&mut self, call: impl Fn(&[u8], Arrays<'_>, &mut [u8]) -> TextAnswer) -> Counts {
        let (arrays, text) = self.memory.parts();
        let answer = call(black_box(&self.script), arrays, text);
        vec![answer.count, answer.number]
    }
}

/// The number of tokens, Eof included, as the Rust lexes them.
fn lex_by_rust(script: &[u8]) -> u32 {
    let mut lexer = Lexer::new(script);
    let mut count = 1;
    while black_box(lexer.lex()).ty != TokenTy::Eof {
        count += 1;
    }
    count
}

/// The number of listed errors, as the Rust reads the script. All that it builds is dropped.
fn read_by_rust(script: &[u8]) -> u32 {
    let result = Parser::new(&mut Lexer::new(script), &mut SymTab::new()).parse();
    reference::forget_emitted();
    black_box(result).errors.len() as u32
}

fn tokens_by_twin(script: &[u8], offs: &mut [u32], words: &mut [u32]) -> Answer {
    let (mut count, mut kind, mut offset) = (0, 0, 0);
    let number = twin::tokens(script, offs, words, &mut count, &mut kind, &mut offset);
    Answer { number, count, kind, offset }
}
