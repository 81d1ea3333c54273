//! Offsets of the places that the lexer keeps in `line_num` and `line_pos`.

/// The offsets at which the lines of a script begin.
pub struct Lines {
    starts: Vec<usize>,
    end: usize,
}

impl Lines {
    pub fn of(script: &[u8]) -> Lines {
        let after_newlines = (1..=script.len()).filter(|&at| script[at - 1] == b'\n');
        Lines { starts: std::iter::once(0).chain(after_newlines).collect(), end: script.len() }
    }

    /// The offset of a place. Past the end of a last line without a newline the lexer stands on a
    /// line that the script does not have: this is the script's end.
    pub fn offset(&self, line_num: usize, line_pos: usize) -> usize {
        match self.starts.get(line_num - 1) {
            Some(start) => start + line_pos,
            None => self.end,
        }
    }
}
