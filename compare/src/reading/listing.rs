//! What the listing program of document 01 prints, by what the Rust says of a script.

use super::{error_words, refusal, Case, Needs, Rooms, Wanted};
use crate::host::ReadingAnswer;
use reference::{Carries, Error, Read, Token};
use std::iter::once;

/// The longest script that the program reads, and the room that it has.
const MOST: usize = 4_096;
const ROOM: Needs = Needs { tokens: 4_097, nodes: 4_097, symbols: 2_048, errors: 1_024 };

/// The counts and the flag; the first words; the second words; line, column and reason number of each
/// error. Or the refusal.
pub fn listed(script: &[u8]) -> String {
    told(script, |case, read| {
        let ReadingAnswer { tokens, nodes, errors, flag, .. } = case.answer(read);
        let counts = [tokens, nodes, errors, u32::from(flag)];
        let places = read.errors.iter().map(place);
        let heads = [line(&counts), line(&case.filled.heads), line(&case.filled.loads)];
        heads.into_iter().chain(places).collect()
    })
}

/// The listing, and unless the script is refused two lines more: the second words of the errors, and the
/// error that ended the reading.
pub fn whole(script: &[u8]) -> String {
    let rest = told(script, |case, read| {
        let ended = read.early.as_ref().map(|error| ending(case, error));
        line(&case.filled.reasons) + &ended.unwrap_or("none\n".to_string())
    });
    let listed = listed(script);
    if listed == rest {
        return listed;
    }
    listed + &rest
}

/// What is told of a reading, or its refusal.
fn told(script: &[u8], tell: impl Fn(&Case, &Read) -> String) -> String {
    if script.len() > MOST {
        return refused(refusal(1, 0, 0));
    }
    let case = Case::new(script);
    match case.wanted(Rooms::for_needs(ROOM, 0)) {
        Ok(Wanted::Read(read)) => tell(&case, read),
        Ok(Wanted::Untouched(answer) | Wanted::Cleared(answer)) => refused(answer),
        Err(unknown) => panic!("{unknown}"),
    }
}

fn refused(ReadingAnswer { number, kind, offset, .. }: ReadingAnswer) -> String {
    format!("refused {number} {kind} {offset}\n")
}

fn line(words: &[u32]) -> String {
    words.iter().map(u32::to_string).collect::<Vec<_>>().join(" ") + "\n"
}

fn place(error: &Error) -> String {
    format!("{} {} {}\n", error.line, error.pos, error.reason)
}

/// The place and the reason number of the error that ended a reading, the offset of the token that it
/// carries, else 0, and the kind that it expected or its count.
fn ending(case: &Case, error: &Error) -> String {
    let (offset, value) = match &error.carries {
        Carries::Mismatch { index, .. } => {
            let tokens = &case.tokens;
            (offset(tokens.script, &tokens.rust.tokens[*index]), error_words(error).1 >> 20)
        }
        Carries::Count(count) => (0, *count as u32),
        other => panic!("the Rust ended a reading by what carries {other:?}"),
    };
    format!("{} {} {} {offset} {value}\n", error.line, error.pos, error.reason)
}

/// The offset of a token, from its place.
fn offset(script: &[u8], token: &Token) -> usize {
    let after_newlines = (1..=script.len()).filter(|&at| script[at - 1] == b'\n');
    let start = once(0).chain(after_newlines).nth(token.line - 1);
    start.map_or(script.len(), |start| start + token.pos)
}

#[cfg(test)]
mod tests {
    use super::*;

    #[test]
    fn the_listing_of_01s_example() {
        assert_eq!(listed(b"var a = 1;\n"), "6 3 0 0\n24 104 65\n3 1 0\n");
    }

    #[test]
    fn a_listing_has_errors_and_an_ending() {
        assert_eq!(whole(b"a"), "2 1 1 1\n1\n0\n1 0 9\n9\nnone\n");
        assert_eq!(whole(b"5\n 5;"), "4 1 0 1\n1\n0\n\n2 1 6 3 7\n");
        assert_eq!(whole(b"5"), "2 1 0 1\n1\n0\n\n2 0 6 1 7\n");
    }

    #[test]
    fn the_refusals() {
        assert_eq!(whole(&[b' '; 4_097]), "refused 1 0 0\n");
        assert_eq!(whole(b"a\x80"), "refused 2 0 1\n");
        assert_eq!(whole(b"a // c"), "refused 5 1 2\n");
        assert_eq!(whole(&[b';'; 1_025]), "refused 9 0 0\n");
        assert!(whole(&[b';'; 1_024]).starts_with("1025 1 1024 1\n"));
    }
}
