//! The static library's calls as safe functions. include/sif.h says what they promise.

use std::ffi::{c_void, CStr};
use std::mem::transmute;

pub use twin::{Answer as ReadingAnswer, Arrays, Early, TextAnswer};

/// A reading call: a script and the arrays that it is lent.
pub type ReadingCall = fn(&[u8], Arrays<'_>) -> ReadingAnswer;

/// The reading call of the static library.
#[cfg(not(feature = "stand-in"))]
pub const READING: ReadingCall = reading;
#[cfg(feature = "stand-in")]
pub const READING: ReadingCall = twin::reading;

/// The reading call of the plain twin.
pub const TWIN_READING: ReadingCall = twin::reading;

/// A text call: a script, the arrays of a reading, and the buffer for the text.
pub type TextCall = fn(&[u8], Arrays<'_>, &mut [u8]) -> TextAnswer;

/// The text call of the plain twin.
pub const TWIN_TEXT: TextCall = twin::text;

/// The text call of the static library.
#[cfg(not(feature = "stand-in"))]
pub const TEXT: TextCall = text;
#[cfg(feature = "stand-in")]
pub const TEXT: TextCall = TWIN_TEXT;

/// What stands where no error ended the reading.
pub const NO_ERROR: Early = Early { place: 0, reason: 0 };

/// What answers the calls, for reports.
#[cfg(not(feature = "stand-in"))]
pub const OURS: &str = "the static library";
#[cfg(feature = "stand-in")]
pub const OURS: &str = "the plain twin, in the place of the static library";

/// What a call answers beside the arrays; number 0 where it does not refuse.
#[derive(Clone, Copy, Debug, PartialEq)]
pub struct Answer {
    pub number: u32,
    pub count: u32,
    pub kind: u32,
    pub offset: u32,
}

/// What stands in each number before a call: no call may leave it there.
const UNWRITTEN: u32 = 0xA5A5_A5A5;

/// A number that no right answer has.
const WRONG: u32 = u32::MAX;

/// The tokens call.
#[cfg(not(feature = "stand-in"))]
pub fn tokens(script: &[u8], offs: &mut [u32], words: &mut [u32]) -> Answer {
    LINKED.tokens(script, offs, words)
}
#[cfg(feature = "stand-in")]
pub fn tokens(script: &[u8], offs: &mut [u32], words: &mut [u32]) -> Answer {
    let (mut count, mut kind, mut offset) = (UNWRITTEN, UNWRITTEN, UNWRITTEN);
    let number = twin::tokens(script, offs, words, &mut count, &mut kind, &mut offset);
    Answer { number, count, kind, offset }
}

/// The reading call.
#[cfg(not(feature = "stand-in"))]
fn reading(script: &[u8], arrays: Arrays<'_>) -> ReadingAnswer {
    LINKED.reading(script, arrays)
}

/// The text call.
#[cfg(not(feature = "stand-in"))]
fn text(script: &[u8], arrays: Arrays<'_>, text: &mut [u8]) -> TextAnswer {
    LINKED.text(script, arrays, text)
}

/// The error that ended a reading, in the numbers of `sif_reading`.
#[derive(Clone, Copy, PartialEq)]
struct Ended {
    line: usize,
    pos: usize,
    number: u32,
    offset: usize,
    value: usize,
}

impl Ended {
    /// The two words that a listed error of these numbers has, where `offs` are the offsets of the
    /// tokens. Numbers that no error has that ends a reading become words that none has.
    fn words(self, offs: &[u32]) -> Early {
        let Ended { line, pos, number, offset, value } = self;
        let token = || offs.iter().position(|&off| off as usize == offset);
        let carried = match number {
            0 if [line, pos, offset, value] == [0; 4] => return NO_ERROR,
            6 => token().and_then(|token| value.checked_mul(65_536)?.checked_add(token)),
            7 if offset == 0 => Some(value),
            _ => None,
        };
        let words = carried.and_then(|carried| {
            let place = line.checked_sub(1)?.checked_mul(65_536)?.checked_add(pos)?;
            let reason = carried.checked_mul(16)?.checked_add(number as usize)?;
            Some((u32::try_from(place).ok()?, u32::try_from(reason).ok()?))
        });
        words.unwrap_or((WRONG, WRONG)).into()
    }
}

/// Declares calls of the static library, each with a name for the type of its address.
macro_rules! declare {
    ($(fn $name:ident: $address:ident($($argument:ident: $type:ty),* $(,)?);)*) => {
        #[cfg(not(feature = "stand-in"))]
        extern "C" {
            $(fn $name($($argument: $type),*) -> u32;)*
        }
        $(type $address = unsafe extern "C" fn($($argument: $type),*) -> u32;)*
    };
}

declare! {
    fn sif_tokens: TokensAddress(
        script: *const u8,
        script_len: usize,
        offs: *mut u32,
        offs_len: usize,
        words: *mut u32,
        words_len: usize,
        count: *mut u32,
        kind: *mut u32,
        offset: *mut u32,
    );

    fn sif_reading: ReadingAddress(
        script: *const u8,
        script_len: usize,
        offs: *mut u32,
        offs_len: usize,
        words: *mut u32,
        words_len: usize,
        heads: *mut u32,
        heads_len: usize,
        loads: *mut u32,
        loads_len: usize,
        symbols: *mut u32,
        symbols_len: usize,
        places: *mut u32,
        places_len: usize,
        reasons: *mut u32,
        reasons_len: usize,
        tokens: *mut usize,
        nodes: *mut usize,
        errors: *mut usize,
        flag: *mut u32,
        early_line: *mut usize,
        early_pos: *mut usize,
        early_number: *mut u32,
        early_offset: *mut usize,
        early_value: *mut usize,
        kind: *mut u32,
        offset: *mut usize,
    );

    fn sif_text: TextAddress(
        script: *const u8,
        script_len: usize,
        offs: *mut u32,
        offs_len: usize,
        words: *mut u32,
        words_len: usize,
        heads: *mut u32,
        heads_len: usize,
        loads: *mut u32,
        loads_len: usize,
        symbols: *mut u32,
        symbols_len: usize,
        places: *mut u32,
        places_len: usize,
        reasons: *mut u32,
        reasons_len: usize,
        text: *mut u8,
        text_len: usize,
        count: *mut usize,
        kind: *mut u32,
        offset: *mut usize,
    );
}

#[cfg(not(feature = "stand-in"))]
extern "C" {
    fn sif_deepest(n: usize, script: *mut u8, script_len: usize, depth: *mut usize) -> u32;
    fn sif_value(literal: *const u8, literal_len: usize, value: *mut f64) -> u32;
}

/// Makes a call with a script, some slices, and the places of what it answers.
macro_rules! lend {
    ($address:expr, $script:ident, [$($slice:ident),*], $($answer:expr),*) => {
        // SAFETY: each pointer comes from a reference and has the length that goes with it, and the call
        // has no further requirement.
        unsafe {
            ($address)(
                $script.as_ptr(), $script.len(),
                $($slice.as_mut_ptr(), $slice.len(),)*
                $($answer),*
            )
        }
    };
}

/// The calls of a library, by their addresses.
#[derive(Clone, Copy)]
pub struct Calls {
    tokens: TokensAddress,
    reading: ReadingAddress,
    text: TextAddress,
}

/// The calls of the library that the program is linked with.
#[cfg(not(feature = "stand-in"))]
const LINKED: Calls = Calls { tokens: sif_tokens, reading: sif_reading, text: sif_text };

impl Calls {
    /// The names of the calls.
    pub const NAMES: [&'static CStr; 3] = [c"sif_tokens", c"sif_reading", c"sif_text"];

    /// The calls at some addresses.
    ///
    /// # Safety
    /// They are the addresses of the calls of `NAMES`, in their order, in a library that stays loaded.
    pub unsafe fn at([tokens, reading, text]: [*const c_void; 3]) -> Calls {
        // SAFETY: include/sif.h declares the calls with these types.
        unsafe {
            Calls {
                tokens: transmute::<*const c_void, TokensAddress>(tokens),
                reading: transmute::<*const c_void, ReadingAddress>(reading),
                text: transmute::<*const c_void, TextAddress>(text),
            }
        }
    }

    /// The tokens call.
    pub fn tokens(&self, script: &[u8], offs: &mut [u32], words: &mut [u32]) -> Answer {
        let [mut count, mut kind, mut offset] = [UNWRITTEN; 3];
        let number = lend!(self.tokens, script, [offs, words], &mut count, &mut kind, &mut offset);
        Answer { number, count, kind, offset }
    }

    /// The reading call.
    pub fn reading(&self, script: &[u8], arrays: Arrays<'_>) -> ReadingAnswer {
        let Arrays { offs, words, heads, loads, symbols, places, reasons } = arrays;
        let unwritten = UNWRITTEN as usize;
        let [mut tokens, mut nodes, mut errors, mut offset] = [unwritten; 4];
        let [mut kind, mut flag] = [UNWRITTEN; 2];
        let (line, pos, value) = (unwritten, unwritten, unwritten);
        let mut early = Ended { line, pos, number: UNWRITTEN, offset: unwritten, value };
        let number = lend!(
            self.reading,
            script,
            [offs, words, heads, loads, symbols, places, reasons],
            &mut tokens,
            &mut nodes,
            &mut errors,
            &mut flag,
            &mut early.line,
            &mut early.pos,
            &mut early.number,
            &mut early.offset,
            &mut early.value,
            &mut kind,
            &mut offset
        );
        ReadingAnswer {
            number: if flag > 1 { WRONG } else { number },
            kind,
            offset: word(offset),
            tokens: word(tokens),
            nodes: word(nodes),
            errors: word(errors),
            flag: flag == 1,
            early: early.words(offs),
        }
    }

    /// The text call.
    pub fn text(&self, script: &[u8], arrays: Arrays<'_>, text: &mut [u8]) -> TextAnswer {
        let Arrays { offs, words, heads, loads, symbols, places, reasons } = arrays;
        let [mut count, mut offset] = [UNWRITTEN as usize; 2];
        let mut kind = UNWRITTEN;
        let number = lend!(
            self.text,
            script,
            [offs, words, heads, loads, symbols, places, reasons, text],
            &mut count,
            &mut kind,
            &mut offset
        );
        TextAnswer { number, kind, offset: word(offset), count: word(count) }
    }
}

/// The value call: number and value.
#[cfg(not(feature = "stand-in"))]
pub fn value(literal: &[u8]) -> (u32, f64) {
    let mut value = f64::NAN;
    // SAFETY: the pointers come from references, the first with its length, and the call has no further
    // requirement.
    let number = unsafe { sif_value(literal.as_ptr(), literal.len(), &mut value) };
    (number, value)
}
#[cfg(feature = "stand-in")]
pub use twin::value;

/// The call that gives the deepest script of a length: the refusal's number, and the depth.
#[cfg(not(feature = "stand-in"))]
pub fn deepest(n: usize, script: &mut [u8]) -> (u32, usize) {
    let mut depth = UNWRITTEN as usize;
    // SAFETY: each pointer comes from a reference and has the length that goes with it, and the call
    // has no further requirement.
    let number = unsafe { sif_deepest(n, script.as_mut_ptr(), script.len(), &mut depth) };
    (number, depth)
}
#[cfg(feature = "stand-in")]
pub use crate::deepest::written as deepest;

/// A count or an offset as an answer has it.
fn word(count: usize) -> u32 {
    u32::try_from(count).unwrap_or(WRONG)
}

#[cfg(test)]
mod tests {
    use super::*;

    const NONE: Ended = Ended { line: 0, pos: 0, number: 0, offset: 0, value: 0 };

    #[test]
    fn the_words_of_an_ending() {
        let mismatch = Ended { line: 2, pos: 5, number: 6, offset: 9, value: 29 };
        let offs = [0, 4, 9, 0];
        let words = Early { place: 65_541, reason: 6 + 16 * 2 + 1_048_576 * 29 };
        assert_eq!(mismatch.words(&offs), words);
        let count = Ended { number: 7, offset: 0, value: 64, ..mismatch };
        assert_eq!(count.words(&offs), Early { place: 65_541, reason: 7 + 16 * 64 });
        assert_eq!(NONE.words(&offs), NO_ERROR);
    }

    #[test]
    fn an_ending_that_cannot_be_is_found() {
        let mismatch = Ended { line: 2, pos: 5, number: 6, offset: 9, value: 29 };
        let wrong = [
            Ended { line: 1, ..NONE },
            Ended { pos: 1, ..NONE },
            Ended { offset: 1, ..NONE },
            Ended { value: 1, ..NONE },
            Ended { line: 0, ..mismatch },
            Ended { offset: 8, ..mismatch },
            Ended { number: 7, ..mismatch },
            Ended { number: 9, ..mismatch },
            Ended { value: usize::MAX / 65_536, ..mismatch },
        ];
        for ended in wrong {
            assert_eq!(ended.words(&[0, 4, 9]), Early { place: WRONG, reason: WRONG });
        }
    }
}
