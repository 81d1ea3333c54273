//! Judges the reading call: its answer and every element of all seven arrays, by what the Rust says.

use crate::host::{Arrays, ReadingAnswer, ReadingCall, NO_ERROR};
use crate::lent::Lent;
use crate::tokens::{self, same};
use reference::{
    reading, tokens as lexed, Carries, End, Ending, Error, Event, Lexed, Node, Read, Reading,
};

/// The kind of a lexing panic that the walk does not reach.
const LEX_PANIC: u32 = 48;

/// The words of a symbol.
const SYMBOL_WORDS: usize = 4;

/// The fixed messages of InvalidTkn, in the order of their numbers.
const MESSAGES: [&str; 3] =
    ["expected either '=' or ';", "unexpected end of file", "expected identifier"];

/// The lengths of the seven arrays that a call is lent: offs, words, heads, loads, symbols, places,
/// reasons.
#[derive(Clone, Copy, Debug, PartialEq)]
pub struct Rooms(pub [usize; 7]);

/// How many tokens, nodes, symbols and errors a script needs room for.
#[derive(Clone, Copy, Debug, PartialEq)]
pub struct Needs {
    pub tokens: usize,
    pub nodes: usize,
    pub symbols: usize,
    pub errors: usize,
}

/// A script, and what the Rust says of it.
pub struct Case<'a> {
    tokens: tokens::Case<'a>,
    rust: Reading,
    filled: Filled,
}

/// What a reading that is not refused leaves in the arrays, but for the tokens.
#[derive(Default)]
struct Filled {
    heads: Vec<u32>,
    loads: Vec<u32>,
    places: Vec<u32>,
    reasons: Vec<u32>,
}

/// What document 01 asks of a call.
pub(crate) enum Wanted<'a> {
    Untouched(ReadingAnswer),
    Cleared(ReadingAnswer),
    Read(&'a Read),
}

impl Rooms {
    /// Room for so many; the symbol words may have a rest that is no whole symbol.
    pub fn for_needs(needs: Needs, rest: usize) -> Rooms {
        let Needs { tokens, nodes, symbols, errors } = needs;
        let words = SYMBOL_WORDS * symbols + rest;
        Rooms([tokens, tokens, nodes, nodes, words, errors, errors])
    }

    fn are_even(self) -> bool {
        let Rooms([offs, words, heads, loads, _, places, reasons]) = self;
        offs == words && heads == loads && places == reasons
    }
}

impl Case<'_> {
    /// The case of a script. The Rust is not asked where a refusal at entry keeps it from being read.
    pub fn new(script: &[u8]) -> Case<'_> {
        let tokens = tokens::Case::new(script);
        let rust = match tokens.entry {
            Some(_) => Reading { events: Vec::new(), end: End::Unknown("not asked".to_string()) },
            None => reading(script, &tokens.rust),
        };
        let filled = match &rust.end {
            End::Read(read) => Filled::of(read),
            _ => Filled::default(),
        };
        Case { tokens, rust, filled }
    }

    pub fn script(&self) -> &[u8] {
        self.tokens.script
    }

    /// The tokens, as the Rust lexes them.
    pub fn lexed(&self) -> &Lexed {
        &self.tokens.rust
    }

    /// How the Rust's reading ended.
    pub fn end(&self) -> &End {
        &self.rust.end
    }

    /// What the Rust read, if the flag is down.
    pub fn flag_down(&self) -> Option<&Read> {
        match &self.rust.end {
            End::Read(read) if !read.flag => Some(read),
            _ => None,
        }
    }

    /// What a reading needs that is refused at most for the script itself.
    pub fn needs(&self) -> Needs {
        let (mut nodes, mut most) = (0, 0);
        for event in &self.rust.events {
            match event {
                Event::Node => nodes += 1,
                Event::Freed(left) => nodes = *left,
                _ => (),
            }
            most = most.max(nodes);
        }
        let count = |wanted| self.rust.events.iter().filter(|&&event| event == wanted).count();
        Needs {
            tokens: self.tokens.needed(),
            nodes: most,
            symbols: count(Event::Symbol),
            errors: count(Event::Error),
        }
    }

    /// How the Rust's reading ended, in a few words for the report.
    pub fn ending(&self) -> &'static str {
        match &self.rust.end {
            _ if self.tokens.entry.is_some() => "refused at entry",
            End::Read(Read { early: Some(_), .. }) => "ended early",
            End::Read(Read { flag: true, .. }) => "flag up",
            End::Read(_) => "flag down",
            End::Fault { kind, .. } => {
                ["panic 1", "panic 2", "panic 3", "panic 4", "panic 5"][*kind as usize - 1]
            }
            End::TooDeep => "too deep",
            End::Unknown(_) => "unknown",
        }
    }

    /// Makes the call with arrays of these lengths, and judges it.
    pub fn check(&self, call: ReadingCall, rooms: Rooms) -> Result<(), String> {
        let (answer, lent) = self.called(call, rooms);
        self.judge(answer, &lent).map_err(|difference| format!("{rooms:?}: {difference}"))
    }

    /// Makes the call; answers what it answers, and the arrays after it.
    pub(crate) fn called(&self, call: ReadingCall, rooms: Rooms) -> (ReadingAnswer, [Lent; 7]) {
        let salt = self.tokens.salt(rooms.0[2]);
        let mut lent = rooms.0.map(|len| Lent::new(len, salt ^ len as u32));
        (call(self.tokens.script, arrays_of(&mut lent)), lent)
    }

    /// Judges an answer and the arrays after the call.
    fn judge(&self, answer: ReadingAnswer, lent: &[Lent; 7]) -> Result<(), String> {
        lent.iter().try_for_each(Lent::guards_kept)?;
        match self.wanted(Rooms(lent.each_ref().map(Lent::len)))? {
            Wanted::Untouched(wanted) => {
                same("answer", answer, wanted)?;
                lent.iter().try_for_each(Lent::untouched)
            }
            Wanted::Cleared(wanted) => {
                same("answer", answer, wanted)?;
                lent.iter().try_for_each(|array| array.zero_from(0))
            }
            Wanted::Read(read) => {
                same("answer", answer, self.answer(read))?;
                self.judge_read(lent)
            }
        }
    }

    /// Judges the arrays after a call that read the script.
    pub(crate) fn judge_read(&self, lent: &[Lent; 7]) -> Result<(), String> {
        self.judge_tokens(&lent[0], &lent[1])?;
        self.judge_rest(lent)
    }

    /// The outcome by document 01's table, from its first row down.
    pub(crate) fn wanted(&self, rooms: Rooms) -> Result<Wanted<'_>, String> {
        if let Some(entry) = self.tokens.entry {
            return Ok(Wanted::Untouched(refusal(entry.number, entry.kind, entry.offset as usize)));
        }
        if !rooms.are_even() {
            return Ok(Wanted::Untouched(refusal(3, 0, 0)));
        }
        let [tokens, _, nodes, _, symbols, errors, _] = rooms.0;
        if self.tokens.needed() > tokens {
            return Ok(Wanted::Cleared(refusal(4, 0, 0)));
        }
        if let Some(number) = first_full(&self.rust.events, nodes, symbols / SYMBOL_WORDS, errors) {
            return Ok(Wanted::Cleared(refusal(number, 0, 0)));
        }
        match &self.rust.end {
            End::Read(read) => Ok(Wanted::Read(read)),
            End::Fault { kind, offset } => Ok(Wanted::Cleared(refusal(5, *kind, *offset))),
            other => Err(format!("the Rust ended in a way that 01 does not know: {other:?}")),
        }
    }

    fn answer(&self, read: &Read) -> ReadingAnswer {
        ReadingAnswer {
            tokens: self.tokens.needed() as u32,
            nodes: read.nodes.len() as u32,
            errors: read.errors.len() as u32,
            flag: read.flag,
            early: read.early.as_ref().map_or(NO_ERROR, |error| error_words(error).into()),
            ..refusal(0, 0, 0)
        }
    }

    /// The tokens, with a lexing panic that the walk did not reach as the last one.
    fn judge_tokens(&self, offs: &Lent, words: &Lent) -> Result<(), String> {
        let tokens = &self.tokens.rust.tokens;
        self.tokens.judge_tokens(tokens, offs.elements(), words.elements())?;
        if let Ending::Fault { offset, .. } = self.tokens.rust.ending {
            let last = tokens.len();
            let ours = (offs.elements()[last], words.elements()[last]);
            same("hidden panic", ours, (offset as u32, LEX_PANIC))?;
        }
        offs.zero_from(self.tokens.needed()).and(words.zero_from(self.tokens.needed()))
    }

    /// The tree, the symbol words and the errors.
    fn judge_rest(&self, lent: &[Lent; 7]) -> Result<(), String> {
        let [_, _, heads, loads, symbols, places, reasons] = lent;
        let Filled { heads: f, loads: s, places: p, reasons: r } = &self.filled;
        let pairs = [
            ("first words", heads, f),
            ("second words", loads, s),
            ("error places", places, p),
            ("error reasons", reasons, r),
        ];
        for (name, array, wanted) in pairs {
            same(name, &array.elements()[..wanted.len()], &wanted[..])?;
            array.zero_from(wanted.len())?;
        }
        symbols.zero_from(0)
    }
}

/// Seven arrays as a call takes them.
pub(crate) fn arrays_of(lent: &mut [Lent; 7]) -> Arrays<'_> {
    let [offs, words, heads, loads, symbols, places, reasons] =
        lent.each_mut().map(Lent::elements_mut);
    Arrays { offs, words, heads, loads, symbols, places, reasons }
}

impl Filled {
    fn of(read: &Read) -> Filled {
        let head = |node: &Node| node.kind + 32 * u32::from(node.mark) + 64 * node.children as u32;
        let (places, reasons) = read.errors.iter().map(error_words).unzip();
        Filled {
            heads: read.nodes.iter().map(head).collect(),
            loads: read.nodes.iter().map(|node| node.load as u32).collect(),
            places,
            reasons,
        }
    }
}

/// The refusal of the first event that does not fit: 6, 7, 8 or 9.
fn first_full(events: &[Event], nodes: usize, symbols: usize, errors: usize) -> Option<u32> {
    let mut left = [nodes, symbols, errors];
    let mut used = 0;
    events.iter().find_map(|event| {
        let (number, room) = match event {
            Event::TooDeep => return Some(6),
            Event::Freed(kept) => {
                left[0] += used - kept;
                used = *kept;
                return None;
            }
            Event::Node => (7, &mut left[0]),
            Event::Symbol => (8, &mut left[1]),
            Event::Error => (9, &mut left[2]),
        };
        if *room == 0 {
            return Some(number);
        }
        *room -= 1;
        used += usize::from(number == 7);
        None
    })
}

/// The two words of an error.
fn error_words(error: &Error) -> (u32, u32) {
    let (carried, second) = match &error.carries {
        Carries::Nothing => (0, 0),
        Carries::Token { index, .. } => (*index, 0),
        Carries::Message(text) => (0, message_number(text)),
        Carries::Mismatch { expected, index, .. } => (*index, kind_of(expected)),
        Carries::Count(count) => (*count, 0),
        Carries::Counts(expected, found) => (*expected, *found as u32),
    };
    let place = 65_536 * (error.line as u32 - 1) + error.pos as u32;
    (place, error.reason + 16 * carried as u32 + 1_048_576 * second)
}

fn message_number(text: &str) -> u32 {
    let index = MESSAGES.iter().position(|message| *message == text);
    index.expect("the Rust's messages are known") as u32 + 1
}

/// The kind with a spelling, which is a sign's or a reserved word's.
fn kind_of(spelling: &str) -> u32 {
    lexed(spelling.as_bytes()).tokens[0].kind
}

/// The answer of a call that refuses.
fn refusal(number: u32, kind: u32, offset: usize) -> ReadingAnswer {
    let (offset, early) = (offset as u32, NO_ERROR);
    ReadingAnswer { number, kind, offset, tokens: 0, nodes: 0, errors: 0, flag: false, early }
}

/// Checks the reading call on a script with the usual arrays.
pub fn check_case(call: ReadingCall, case: &Case) -> Result<(), String> {
    rooms::usual(case).into_iter().try_for_each(|rooms| case.check(call, rooms))
}

/// The same with rooms of every size up to one more than the script needs.
pub fn check_all_rooms(call: ReadingCall, case: &Case) -> Result<(), String> {
    rooms::every(case).into_iter().try_for_each(|rooms| case.check(call, rooms))
}

pub mod listing;
pub mod rooms;
#[cfg(test)]
mod tests;
pub mod vectors;
