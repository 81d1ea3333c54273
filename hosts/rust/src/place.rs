//! Where things stand in a script.

use std::fmt::{self, Display, Formatter};
use std::ops::Range;

/// A part of a script, in bytes from its front.
#[derive(Clone, Copy, Debug, PartialEq, Eq, Hash)]
pub struct Span {
    pub start: usize,
    pub end: usize,
}

impl Span {
    pub fn range(self) -> Range<usize> {
        self.start..self.end
    }

    /// The least span that has both.
    pub fn to(self, other: Span) -> Span {
        Span { start: self.start.min(other.start), end: self.end.max(other.end) }
    }
}

/// A line, counted from 1, and a column, counted from 0 in bytes: the numbers of document 01. It is shown
/// as people count, `LINE:COLUMN` with the column from 1.
#[derive(Clone, Copy, Debug, PartialEq, Eq, Hash, PartialOrd, Ord)]
pub struct Place {
    pub line: usize,
    pub column: usize,
}

impl Display for Place {
    fn fmt(&self, f: &mut Formatter<'_>) -> fmt::Result {
        write!(f, "{}:{}", self.line, self.column + 1)
    }
}

/// The lines of a script, for the way between offsets and places.
#[derive(Clone, Debug, PartialEq)]
pub struct Lines {
    /// Where each line begins.
    starts: Vec<usize>,
    len: usize,
}

impl Lines {
    pub fn new(script: &[u8]) -> Lines {
        let newlines = script.iter().enumerate().filter(|(_, byte)| **byte == b'\n');
        let starts = std::iter::once(0).chain(newlines.map(|(at, _)| at + 1)).collect();
        Lines { starts, len: script.len() }
    }

    /// The place of an offset by document 01's rule: the end of a script that does not end in a newline is
    /// one line further, in column 0.
    ///
    /// ```
    /// let lines = sif::Lines::new(b"var a;\na;");
    /// assert_eq!(lines.place(7), sif::Place { line: 2, column: 0 });
    /// assert_eq!(lines.place(9), sif::Place { line: 3, column: 0 });
    /// ```
    pub fn place(&self, offset: usize) -> Place {
        let place = self.cursor(offset);
        if offset >= self.len && place.column > 0 {
            return Place { line: place.line + 1, column: 0 };
        }
        place
    }

    /// The place of an offset as an editor has it: the end of a script is behind its last byte.
    pub fn cursor(&self, offset: usize) -> Place {
        let offset = offset.min(self.len);
        let line = self.starts.partition_point(|start| *start <= offset);
        Place { line, column: offset - self.starts[line - 1] }
    }

    /// The offset of a place; a line that the script does not have is its end.
    pub fn offset(&self, place: Place) -> usize {
        let start = place.line.checked_sub(1).and_then(|index| self.starts.get(index));
        start.map_or(self.len, |start| (start + place.column).min(self.len))
    }

    /// The part of the script that a line is, without its newline; lines count from 1.
    pub fn span(&self, line: usize) -> Option<Span> {
        let start = *self.starts.get(line.checked_sub(1)?)?;
        let end = self.starts.get(line).map_or(self.len, |next| next - 1);
        Some(Span { start, end })
    }

    /// How many lines there are; a newline at the end begins one more, which is empty.
    pub fn count(&self) -> usize {
        self.starts.len()
    }
}

#[cfg(test)]
mod tests {
    use super::*;

    #[test]
    fn places_by_01_and_by_editors() {
        let place = |line, column| Place { line, column };
        assert_eq!(Lines::new(b"").place(0), place(1, 0));
        assert_eq!(Lines::new(b"a").place(1), place(2, 0));
        assert_eq!(Lines::new(b"a\n").place(2), place(2, 0));
        assert_eq!(Lines::new(b"a").cursor(1), place(1, 1));
        assert_eq!(Lines::new(b"a\n\nb").place(2), place(2, 0));
        assert_eq!(Lines::new(b"a\n\nb").span(2), Some(Span { start: 2, end: 2 }));
        assert_eq!(Lines::new(b"a\n\nb").offset(place(4, 0)), 4);
        assert_eq!(place(1, 0).to_string(), "1:1");
    }
}
