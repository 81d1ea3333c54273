//! Judges the tokens call: its answer and every element of both arrays, by what the Rust says.

use crate::host::{self, Answer};
use crate::lent::Lent;
use reference::{tokens, Ending, Lexed, Token, EOF_KIND, STR_KIND};
use std::fmt::Debug;

/// The longest script that is read.
pub const MAX_SCRIPT: usize = 65_535;

/// The lengths of the two arrays that a call is lent.
#[derive(Clone, Copy, Debug)]
pub struct Rooms {
    pub offs: usize,
    pub words: usize,
}

/// A script, and what the Rust says of it.
pub struct Case<'a> {
    pub script: &'a [u8],
    newlines: Vec<usize>,
    pub entry: Option<Answer>,
    pub rust: Lexed,
}

/// What document 01 asks of a call.
enum Wanted<'a> {
    Untouched(Answer),
    Cleared(Answer),
    Tokens(&'a [Token]),
}

impl Case<'_> {
    /// The case of a script. The Rust is not asked where a refusal at entry keeps it from being lexed.
    pub fn new(script: &[u8]) -> Case<'_> {
        let entry = entry_refusal(script);
        let rust = match entry {
            Some(_) => Lexed { tokens: Vec::new(), ending: Ending::Eof },
            None => tokens(script),
        };
        let newlines = (0..script.len()).filter(|&at| script[at] == b'\n').collect();
        Case { script, newlines, entry, rust }
    }

    /// The elements that the arrays need: one for each token, Eof or a panic counted as one.
    pub fn needed(&self) -> usize {
        let fault = matches!(self.rust.ending, Ending::Fault { .. });
        self.rust.tokens.len() + usize::from(fault)
    }

    /// How the Rust's lexing ended, in a word or two for the report.
    pub fn ending(&self) -> &'static str {
        match (self.entry, &self.rust.ending) {
            (Some(_), _) => "refused at entry",
            (None, Ending::Fault { kind: 1, .. }) => "panic 1",
            (None, Ending::Fault { .. }) => "panic 2",
            (None, _) => "Eof",
        }
    }

    /// Ample, exactly full, one too short, none, and unequal in both directions.
    pub fn usual_rooms(&self) -> [Rooms; 6] {
        let full = self.needed();
        let short = full.saturating_sub(1);
        [
            (full + 3, full + 3),
            (full, full),
            (short, short),
            (0, 0),
            (full, full + 1),
            (full + 1, full),
        ]
        .map(|(offs, words)| Rooms { offs, words })
    }

    /// Makes the call with arrays of these lengths, and judges it.
    pub fn check(&self, rooms: Rooms) -> Result<(), String> {
        let salt = self.salt(rooms.offs);
        let mut offs = Lent::new(rooms.offs, salt);
        let mut words = Lent::new(rooms.words, !salt);
        let answer = host::tokens(self.script, offs.elements_mut(), words.elements_mut());
        self.judge(answer, &offs, &words).map_err(|difference| format!("{rooms:?}: {difference}"))
    }

    /// A number that script and room fix, to vary the junk in lent arrays.
    pub fn salt(&self, room: usize) -> u32 {
        let bytes = self.script.iter();
        bytes.fold(room as u32, |salt, &byte| salt.rotate_left(5) ^ u32::from(byte))
    }

    /// Judges an answer and the arrays after the call.
    fn judge(&self, answer: Answer, offs: &Lent, words: &Lent) -> Result<(), String> {
        offs.guards_kept().and(words.guards_kept())?;
        match self.wanted(offs.len(), words.len())? {
            Wanted::Untouched(wanted) => {
                same("answer", answer, wanted)?;
                offs.untouched().and(words.untouched())
            }
            Wanted::Cleared(wanted) => {
                same("answer", answer, wanted)?;
                offs.zero_from(0).and(words.zero_from(0))
            }
            Wanted::Tokens(tokens) => {
                let count = tokens.len() as u32;
                same("answer", answer, Answer { count, ..refusal(0, 0, 0) })?;
                self.judge_tokens(tokens, offs.elements(), words.elements())?;
                offs.zero_from(tokens.len()).and(words.zero_from(tokens.len()))
            }
        }
    }

    /// The outcome by document 01's table, from its first row down.
    fn wanted(&self, offs: usize, words: usize) -> Result<Wanted<'_>, String> {
        if let Some(refusal) = self.entry {
            return Ok(Wanted::Untouched(refusal));
        }
        if offs != words {
            return Ok(Wanted::Untouched(refusal(3, 0, 0)));
        }
        if self.needed() > offs {
            return Ok(Wanted::Cleared(refusal(4, 0, 0)));
        }
        match &self.rust.ending {
            Ending::Eof => Ok(Wanted::Tokens(&self.rust.tokens)),
            Ending::Fault { kind, offset } => Ok(Wanted::Cleared(refusal(5, *kind, *offset))),
            other => Err(format!("the Rust ended in a way that 01 does not know: {other:?}")),
        }
    }

    /// The Rust's tokens beside ours, which stand at the beginning of the arrays.
    pub fn judge_tokens(
        &self,
        tokens: &[Token],
        offs: &[u32],
        words: &[u32],
    ) -> Result<(), String> {
        for (at, token) in tokens.iter().enumerate() {
            self.judge_token(offs[at] as usize, words[at], token)
                .map_err(|difference| format!("token {at}: {difference}"))?;
        }
        Ok(())
    }

    /// A token of ours, unpacked from its two words, beside the Rust's.
    fn judge_token(&self, offset: usize, word: u32, token: &Token) -> Result<(), String> {
        let (kind, len) = (word % 64, (word / 64) as usize);
        same("kind", kind, token.kind)?;
        same("length", len, token.len)?;
        same("place", self.place(offset, kind), (token.line, token.pos))?;
        let text =
            self.script.get(offset..offset + len).ok_or("its text ends outside of the script")?;
        match token.val {
            Some(val) => same("value", value_bits(text), Some(val.to_bits())),
            None => same("spelling", spelling(kind, text), token.spelling.as_bytes()),
        }
    }

    /// Line and column of a token by document 01: newlines before it, and bytes since the last of
    /// them; Eof at the end of a script without a final newline is one line further.
    fn place(&self, offset: usize, kind: u32) -> (usize, usize) {
        let at_end = kind == EOF_KIND && offset == self.script.len();
        if at_end && !self.script.is_empty() && !self.script.ends_with(b"\n") {
            return (self.newlines.len() + 2, 0);
        }
        let before = self.newlines.partition_point(|&newline| newline < offset);
        let line_start = if before == 0 { 0 } else { self.newlines[before - 1] + 1 };
        (before + 1, offset - line_start)
    }
}

/// Checks the tokens call on a script with the usual arrays; answers the name of its ending.
pub fn check_script(script: &[u8]) -> Result<&'static str, String> {
    let case = Case::new(script);
    case.usual_rooms().into_iter().try_for_each(|rooms| case.check(rooms))?;
    Ok(case.ending())
}

/// The same with arrays of every pair of lengths up to four more than the script needs, and with
/// arrays that are much longer.
pub fn check_all_rooms(script: &[u8]) -> Result<&'static str, String> {
    let case = Case::new(script);
    let lengths = || (0..=case.needed() + 4).chain([100_000]);
    for offs in lengths() {
        lengths().try_for_each(|words| case.check(Rooms { offs, words }))?;
    }
    Ok(case.ending())
}

/// Refusal 1 or 2, which are about the script alone.
fn entry_refusal(script: &[u8]) -> Option<Answer> {
    if script.len() > MAX_SCRIPT {
        return Some(refusal(1, 0, 0));
    }
    let first = script.iter().position(|&byte| byte >= 128);
    first.map(|offset| refusal(2, 0, offset))
}

/// The answer of a call that refuses.
fn refusal(number: u32, kind: u32, offset: usize) -> Answer {
    Answer { number, count: 0, kind, offset: offset as u32 }
}

/// A token's spelling, from its text: a Str's text has the quotes that its spelling lacks.
fn spelling(kind: u32, text: &[u8]) -> &[u8] {
    match kind {
        STR_KIND => &text[1..text.len() - 1],
        EOF_KIND => b"EOF",
        _ => text,
    }
}

/// The bits of the f64 that digits stand for.
fn value_bits(text: &[u8]) -> Option<u64> {
    let value: f64 = std::str::from_utf8(text).ok()?.parse().ok()?;
    Some(value.to_bits())
}

/// Whether two values are the same.
pub fn same<T: PartialEq + Debug>(what: &str, ours: T, wanted: T) -> Result<(), String> {
    if ours == wanted {
        return Ok(());
    }
    Err(format!("{what}: ours {ours:?}, wanted {wanted:?}"))
}

#[cfg(test)]
mod tests;
