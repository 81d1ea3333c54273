//! A line of a script with a caret under a place.

use sif::{Lines, Place, Span};

/// How many columns a tab takes.
const TAB: usize = 4;

/// The least and the most columns of a shown line.
const LEAST: usize = 20;
const MOST: usize = 160;

/// The place of an offset as people have it: the end of a script is behind the last byte that is on a line.
pub fn place_for_people(script: &[u8], lines: &Lines, offset: usize) -> Place {
    let ends_line = script.last() == Some(&b'\n');
    let at_end = offset >= script.len() && ends_line;
    lines.cursor(if at_end { script.len() - 1 } else { offset })
}

/// The line of a place, and under it a caret; of a long line a part. Two lines, each with its newline.
pub fn excerpt(script: &[u8], lines: &Lines, place: Place, width: usize) -> String {
    let Some(Span { start, end }) = lines.span(place.line) else { return String::new() };
    let number = place.line.to_string();
    let margin = " ".repeat(number.len());
    let room = width.saturating_sub(number.len() + 5).clamp(LEAST, MOST);
    let line = &script[start..end];
    let line = line.strip_suffix(b"\r").unwrap_or(line);
    let (text, caret) = window(line, place.column, room);
    format!(" {number} | {text}\n {margin} | {}^\n", " ".repeat(caret))
}

/// The part of a line about a column that has so much room, and the column of the caret in it.
fn window(line: &[u8], column: usize, room: usize) -> (String, usize) {
    let column = column.min(line.len());
    // Only bytes that can be seen are looked at: a line may have all bytes of a script.
    let from = column.saturating_sub(room);
    let to = line.len().min(column + room);
    let before = cells(&line[from..column]);
    let behind = cells(&line[column..to]);
    let whole = from == 0 && to == line.len() && before.len() + behind.len() < room;
    if whole {
        return ([before.clone(), behind].concat().into_iter().collect(), before.len());
    }
    // The caret stands at two thirds at most, so that something behind it is seen too.
    let left = before.len().min(room * 2 / 3);
    let cut_left = from > 0 || left < before.len();
    let right = behind.len().min(room - left);
    let cut_right = to < line.len() || right < behind.len();
    let mut shown = [&before[before.len() - left..], &behind[..right]].concat();
    if cut_left {
        dots(shown.iter_mut().take(left));
    }
    if cut_right {
        dots(shown.iter_mut().skip(left + 1).rev());
    }
    (shown.into_iter().collect(), left)
}

/// Puts two points for what is cut off.
fn dots<'a>(cells: impl Iterator<Item = &'a mut char>) {
    cells.take(2).for_each(|cell| *cell = '.');
}

/// One sign for each column that bytes take: spaces for a tab, `?` for what is no sign of ASCII.
fn cells(bytes: &[u8]) -> Vec<char> {
    let cell = |byte: &u8| match byte {
        b'\t' => vec![' '; TAB],
        b' '..=b'~' => vec![char::from(*byte)],
        _ => vec!['?'],
    };
    bytes.iter().flat_map(cell).collect()
}

#[cfg(test)]
mod tests {
    use super::*;

    fn shown(script: &str, offset: usize, width: usize) -> String {
        let lines = Lines::new(script.as_bytes());
        let place = place_for_people(script.as_bytes(), &lines, offset);
        excerpt(script.as_bytes(), &lines, place, width)
    }

    #[test]
    fn a_short_line_is_whole() {
        assert_eq!(shown("var a;\n\tb;\n", 8, 80), " 2 |     b;\n   |     ^\n");
        assert_eq!(shown("a\x1b[1m;", 0, 80), " 1 | a?[1m;\n   | ^\n");
        assert_eq!(shown("a;\r\nb;\r\n", 4, 80), " 2 | b;\n   | ^\n");
    }

    #[test]
    fn the_end_is_behind_the_last_line() {
        assert_eq!(shown("var a", 5, 80), " 1 | var a\n   |      ^\n");
        assert_eq!(shown("var a\n", 6, 80), " 1 | var a\n   |      ^\n");
        assert_eq!(shown("", 0, 80), " 1 | \n   | ^\n");
        assert_eq!(shown("\n", 1, 80), " 1 | \n   | ^\n");
    }

    #[test]
    fn a_long_line_is_cut_about_the_caret() {
        let script = format!("{}X{}", "a".repeat(30_000), "b".repeat(30_000));
        for width in [10, 25, 40, 80, 500] {
            for offset in [0, 1, 30_000, 59_999, 60_000, 60_001] {
                let shown = shown(&script, offset, width);
                let (line, caret) = shown.trim_end().split_once('\n').unwrap();
                let most = width.clamp(LEAST + 6, MOST + 6);
                assert!(line.len() <= most && caret.len() <= most, "{width} {offset}\n{shown}");
                let under = line.as_bytes().get(caret.len() - 1);
                assert_eq!(under, script.as_bytes().get(offset), "{width} {offset}\n{shown}");
            }
        }
    }
}
