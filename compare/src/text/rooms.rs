//! The lengths of the arrays and the buffer that a text call is lent.

use super::{Case, TextRooms};
use crate::reading::{rooms, Rooms};

/// The usual arrays of a reading: the first are ample, the second exactly full, and most others too
/// short. With the ample ones a buffer that is longer than the text and one that is a byte too short, with
/// the full ones a buffer that is exactly full and one of no bytes.
pub fn usual(case: &Case) -> Vec<TextRooms> {
    let len = text_len(case);
    let arrays = rooms::usual(case.reading);
    let (ample, full) = (arrays[0], arrays[1]);
    let lengths = [len + 7, len, len / 2, 0].into_iter().cycle();
    let mut rooms: Vec<TextRooms> =
        arrays.into_iter().zip(lengths).map(|(arrays, text)| TextRooms { arrays, text }).collect();
    if let Some(short) = len.checked_sub(1) {
        rooms.push(TextRooms { arrays: ample, text: short });
        rooms.push(TextRooms { arrays: full, text: 0 });
    }
    rooms
}

/// Every size of arrays that a reading is tried with, and every length of the buffer up to four more
/// bytes than the text has.
pub fn every(case: &Case) -> Vec<TextRooms> {
    let len = text_len(case);
    let arrays = rooms::every(case.reading);
    let full = Rooms::for_needs(case.reading.needs(), 0);
    let lengths = [len, len + 1, 0].into_iter().cycle();
    let sized = arrays.into_iter().zip(lengths).map(|(arrays, text)| TextRooms { arrays, text });
    sized.chain((0..=len + 4).map(|text| TextRooms { arrays: full, text })).collect()
}

/// The length of the text; of the script, where there is no text.
fn text_len(case: &Case) -> usize {
    case.text.as_ref().map_or(case.reading.script().len(), Vec::len)
}
