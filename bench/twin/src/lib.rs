//! The plain twin: the tokens, the reading, the text and the value call written in ordinary Rust, with nothing proved.
//! The benchmark times it beside the proved calls, and the comparison can be run on it. The files are
//! named after those of the Rust. All calls work in the arrays that they are lent.

mod ast;
mod expr;
mod lex;
mod parse_err;
mod parser;
mod reserved;
mod symtab;
mod token;
mod value;
mod writer;

pub use parse_err::Early;
pub use value::value;

use ast::Tree;
use lex::lex_tokens;
use parse_err::{Errors, Refusal};
use parser::Parser;
use symtab::SymTab;
use token::Tokens;

/// The longest script that is read.
const MAX_SCRIPT: usize = 65_535;

/// What a reading call is lent: two arrays for the tokens, two for the tree, the symbol words, and
/// two for the errors.
pub struct Arrays<'a> {
    pub offs: &'a mut [u32],
    pub words: &'a mut [u32],
    pub heads: &'a mut [u32],
    pub loads: &'a mut [u32],
    pub symbols: &'a mut [u32],
    pub places: &'a mut [u32],
    pub reasons: &'a mut [u32],
}

/// What a reading call answers: the refusal's number, kind and offset, or zeros; how many tokens,
/// nodes and errors there are; has_err; and the error that ended the reading.
#[derive(Clone, Copy, Debug, PartialEq)]
pub struct Answer {
    pub number: u32,
    pub kind: u32,
    pub offset: u32,
    pub tokens: u32,
    pub nodes: u32,
    pub errors: u32,
    pub flag: bool,
    pub early: Early,
}

/// What a text call answers: the refusal's number, kind and offset, or zeros; and the text's length.
#[derive(Clone, Copy, Debug, PartialEq)]
pub struct TextAnswer {
    pub number: u32,
    pub kind: u32,
    pub offset: u32,
    pub count: u32,
}

/// The tokens call with the arguments of `sif_tokens` in include/sif.h.
pub fn tokens(
    script: &[u8],
    offs: &mut [u32],
    words: &mut [u32],
    count: &mut u32,
    kind: &mut u32,
    offset: &mut u32,
) -> u32 {
    let even = offs.len() == words.len();
    let result = check_entry(script, even).and_then(|()| fill(script, offs, words));
    let (tokens, Refusal(number, fault, place)) = match result {
        Ok(tokens) => (tokens, Refusal::plain(0)),
        Err(refusal) => (0, refusal),
    };
    (*count, *kind, *offset) = (tokens as u32, fault, place as u32);
    number
}

/// The reading call.
pub fn reading(script: &[u8], mut arrays: Arrays) -> Answer {
    if let Err(refusal) = check_entry(script, arrays.are_even()) {
        return refused(refusal);
    }
    arrays.symbols.fill(0);
    let result = read(script, &mut arrays);
    let answer = result.unwrap_or_else(refused);
    arrays.clear_past(answer);
    answer
}

/// The text call: reads a script, and writes its canonical text to the front of a buffer.
pub fn text(script: &[u8], mut arrays: Arrays, text: &mut [u8]) -> TextAnswer {
    if let Err(refusal) = check_entry(script, arrays.are_even()) {
        return text_refused(refusal);
    }
    arrays.symbols.fill(0);
    let result = read(script, &mut arrays).and_then(|answer| {
        let count = write_read(script, &arrays, answer, text)?;
        Ok((answer, TextAnswer { count: count as u32, ..text_refused(Refusal::plain(0)) }))
    });
    let (answer, told) = result.unwrap_or_else(|refusal| (refused(refusal), text_refused(refusal)));
    arrays.clear_past(answer);
    text[told.count as usize..].fill(0);
    told
}

/// The writing of a script that was read, or refusal 10 if its flag is up; answers the text's length.
fn write_read(
    script: &[u8],
    arrays: &Arrays,
    answer: Answer,
    text: &mut [u8],
) -> Result<usize, Refusal> {
    if answer.flag {
        return Err(Refusal::plain(10));
    }
    let (tokens, nodes) = (answer.tokens as usize, answer.nodes as usize);
    let tokens = Tokens { script, offs: &arrays.offs[..tokens], words: &arrays.words[..tokens] };
    writer::write(tokens, &arrays.heads[..nodes], &arrays.loads[..nodes], text)
}

/// Refusals 1 to 3, which touch nothing.
fn check_entry(script: &[u8], even: bool) -> Result<(), Refusal> {
    if script.len() > MAX_SCRIPT {
        return Err(Refusal::plain(1));
    }
    if !script.is_ascii() {
        let first = script.iter().position(|byte| !byte.is_ascii());
        return Err(Refusal(2, 0, first.unwrap_or(0)));
    }
    if !even {
        return Err(Refusal::plain(3));
    }
    Ok(())
}

/// Writes the tokens and clears the rest of the arrays, or all of them where it refuses.
fn fill(script: &[u8], offs: &mut [u32], words: &mut [u32]) -> Result<usize, Refusal> {
    let result = lex_tokens(script, offs, words).and_then(|lexed| match lexed.fault {
        0 => Ok(lexed.count),
        kind => Err(Refusal(5, kind, offs[lexed.count - 1] as usize)),
    });
    let used = *result.as_ref().unwrap_or(&0);
    offs[used..].fill(0);
    words[used..].fill(0);
    result
}

/// The token list and the walk. Past what the answer counts, anything may be left in the arrays.
fn read(script: &[u8], arrays: &mut Arrays) -> Result<Answer, Refusal> {
    let lexed = lex_tokens(script, arrays.offs, arrays.words)?;
    let (offs, words) = (&arrays.offs[..lexed.count], &arrays.words[..lexed.count]);
    let tokens = Tokens { script, offs, words };
    let tree = Tree { heads: &mut *arrays.heads, loads: &mut *arrays.loads, count: 0 };
    let (places, reasons) = (&mut *arrays.places, &mut *arrays.reasons);
    let errors = Errors { places, reasons, count: 0 };
    let sym_tab = SymTab::new(tokens, arrays.symbols);
    let mut parser = Parser::new(tokens, lexed.fault, tree, sym_tab, errors);
    let (flag, early) = parser.parse()?;
    let early = parser.errors.place_all(tokens, early);
    Ok(Answer {
        tokens: lexed.count as u32,
        nodes: parser.tree.count as u32,
        errors: parser.errors.count as u32,
        flag,
        early,
        ..refused(Refusal::plain(0))
    })
}

/// The answer of a call that refuses.
fn refused(Refusal(number, kind, offset): Refusal) -> Answer {
    let early = Early { place: 0, reason: 0 };
    let offset = offset as u32;
    Answer { number, kind, offset, tokens: 0, nodes: 0, errors: 0, flag: false, early }
}

/// The same of a text call.
fn text_refused(Refusal(number, kind, offset): Refusal) -> TextAnswer {
    TextAnswer { number, kind, offset: offset as u32, count: 0 }
}

impl Arrays<'_> {
    /// Whether the arrays of each pair have one length.
    fn are_even(&self) -> bool {
        self.offs.len() == self.words.len()
            && self.heads.len() == self.loads.len()
            && self.places.len() == self.reasons.len()
    }

    /// Clears all that an answer does not count.
    fn clear_past(&mut self, answer: Answer) {
        self.offs[answer.tokens as usize..].fill(0);
        self.words[answer.tokens as usize..].fill(0);
        self.heads[answer.nodes as usize..].fill(0);
        self.loads[answer.nodes as usize..].fill(0);
        self.symbols.fill(0);
        self.places[answer.errors as usize..].fill(0);
        self.reasons[answer.errors as usize..].fill(0);
    }
}
