//! Judges the text call: its answer, every element of all seven arrays and every byte of the buffer, by
//! what the Rust says and by the printer in `oracle`.

use crate::host::{ReadingAnswer, TextAnswer, TextCall};
use crate::lent::Lent;
use crate::reading::{self, arrays_of, Rooms, Wanted as ReadingWanted};
use crate::tokens::same;
use oracle::Spellings;

/// The refusals of the text call alone.
const FLAGGED: u32 = 10;
const TEXT_FULL: u32 = 11;

/// The lengths of what a text call is lent: the seven arrays of a reading, and the buffer.
#[derive(Clone, Copy, Debug)]
pub struct TextRooms {
    pub arrays: Rooms,
    pub text: usize,
}

/// A script, what the Rust says of it, and its canonical text if the flag is down.
pub struct Case<'a> {
    pub reading: &'a reading::Case<'a>,
    pub text: Option<Vec<u8>>,
}

/// What a call answers, and what it was lent, after it.
#[derive(Clone)]
pub struct Called {
    pub answer: TextAnswer,
    pub arrays: [Lent; 7],
    pub text: Lent<u8>,
}

/// What document 01 asks of a call.
enum Wanted<'a> {
    Untouched(TextAnswer),
    Cleared(TextAnswer),
    Written(&'a [u8]),
}

impl Case<'_> {
    pub fn new<'a>(reading: &'a reading::Case<'a>) -> Case<'a> {
        let (script, tokens) = (reading.script(), &reading.lexed().tokens);
        let text = reading.flag_down().map(|read| {
            let spellings = Spellings::new(script, tokens);
            oracle::text(&spellings, &read.nodes)
        });
        Case { reading, text }
    }

    /// Makes the call with arrays and a buffer of these lengths, and judges it.
    pub fn check(&self, call: TextCall, rooms: TextRooms) -> Result<(), String> {
        let called = called(call, self.reading.script(), rooms);
        self.judge(&called).map_err(|difference| format!("{rooms:?}: {difference}"))
    }

    /// Judges an answer, the arrays and the buffer after the call.
    fn judge(&self, called: &Called) -> Result<(), String> {
        let Called { answer, arrays, text } = called;
        arrays.iter().try_for_each(Lent::guards_kept)?;
        text.guards_kept()?;
        match self.wanted(called.rooms())? {
            Wanted::Untouched(wanted) => {
                same("answer", *answer, wanted)?;
                arrays.iter().try_for_each(Lent::untouched)?;
                text.untouched()
            }
            Wanted::Cleared(wanted) => {
                same("answer", *answer, wanted)?;
                arrays.iter().try_for_each(|array| array.zero_from(0))?;
                text.zero_from(0)
            }
            Wanted::Written(wanted) => {
                let count = wanted.len() as u32;
                same("answer", *answer, TextAnswer { count, ..refusal(0, 0, 0) })?;
                self.reading.judge_read(arrays)?;
                let written = &text.elements()[..wanted.len()];
                same(
                    "text",
                    written.escape_ascii().to_string(),
                    wanted.escape_ascii().to_string(),
                )?;
                text.zero_from(wanted.len())
            }
        }
    }

    /// The outcome by document 01's table: the reading's refusals, then the flag, then the buffer.
    fn wanted(&self, rooms: TextRooms) -> Result<Wanted<'_>, String> {
        match (self.reading.wanted(rooms.arrays)?, &self.text) {
            (ReadingWanted::Untouched(answer), _) => Ok(Wanted::Untouched(as_text(answer))),
            (ReadingWanted::Cleared(answer), _) => Ok(Wanted::Cleared(as_text(answer))),
            (_, None) => Ok(Wanted::Cleared(refusal(FLAGGED, 0, 0))),
            (_, Some(text)) if text.len() > rooms.text => {
                Ok(Wanted::Cleared(refusal(TEXT_FULL, 0, 0)))
            }
            (_, Some(text)) => Ok(Wanted::Written(text)),
        }
    }
}

impl Called {
    fn rooms(&self) -> TextRooms {
        TextRooms { arrays: Rooms(self.arrays.each_ref().map(Lent::len)), text: self.text.len() }
    }

    /// The bytes that the call wrote, as many as it answers.
    pub fn written(&self) -> Result<&[u8], String> {
        let TextAnswer { number, count, .. } = self.answer;
        let written = self.text.elements().get(..count as usize);
        written.filter(|_| number == 0).ok_or(format!("no text: {:?}", self.answer))
    }
}

/// Makes a text call with arrays and a buffer of these lengths.
pub fn called(call: TextCall, script: &[u8], rooms: TextRooms) -> Called {
    let salt = salt(script, rooms.text);
    let mut arrays = rooms.arrays.0.map(|len| Lent::new(len, salt ^ len as u32));
    let mut text = Lent::new(rooms.text, !salt);
    let answer = call(script, arrays_of(&mut arrays), text.elements_mut());
    Called { answer, arrays, text }
}

/// A number that script and room fix, to vary the junk in what is lent.
fn salt(script: &[u8], room: usize) -> u32 {
    let bytes = script.iter();
    bytes.fold(!(room as u32), |salt, &byte| salt.rotate_left(7) ^ u32::from(byte))
}

/// The refusal of a reading as the text call answers it.
fn as_text(ReadingAnswer { number, kind, offset, .. }: ReadingAnswer) -> TextAnswer {
    TextAnswer { number, kind, offset, count: 0 }
}

/// The answer of a call that refuses.
fn refusal(number: u32, kind: u32, offset: u32) -> TextAnswer {
    TextAnswer { number, kind, offset, count: 0 }
}

/// Checks the text call on a script with the usual arrays and buffers.
pub fn check_case(call: TextCall, reading: &reading::Case) -> Result<(), String> {
    let case = Case::new(reading);
    rooms::usual(&case).into_iter().try_for_each(|rooms| case.check(call, rooms))
}

/// The same with arrays of every size up to one more than the script needs, and every short buffer.
pub fn check_all_rooms(call: TextCall, reading: &reading::Case) -> Result<(), String> {
    let case = Case::new(reading);
    rooms::every(&case).into_iter().try_for_each(|rooms| case.check(call, rooms))
}

pub mod oracle;
pub mod rooms;
#[cfg(test)]
mod tests;
pub mod trip;
pub mod vectors;
