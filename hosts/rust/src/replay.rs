//! The fixed lists of the Rust's answers (docs/COMPARISON.md), replayed through this crate.

use crate::call::Rooms;
use crate::{
    read, read_with, text, tokens, Lines, ParseError, Reading, Reason, Refusal, TokenKind,
};
use std::fmt::Write;
use std::path::PathBuf;

/// The rooms of the listing program, by which the stored readings were made, and its longest script.
const LISTING: Rooms = Rooms { tokens: 4_097, nodes: 4_097, symbols: 8_192, errors: 1_024 };
const LISTING_MOST: usize = 4_096;

fn file(list: &str, name: &str) -> Vec<u8> {
    let crates = PathBuf::from(env!("CARGO_MANIFEST_DIR")).join("../../crates");
    std::fs::read(crates.join(list).join(name)).expect("the fixed lists are in the repository")
}

/// The scripts of a list: for each its length in decimal, a newline, its bytes, a newline.
fn scripts(list: &str) -> Vec<Vec<u8>> {
    let whole = file(list, "stdin");
    let mut rest = &whole[..];
    let mut found = Vec::new();
    while !rest.is_empty() {
        let digits =
            rest.iter().position(|byte| *byte == b'\n').expect("a length ends in a newline");
        let len: usize = std::str::from_utf8(&rest[..digits]).unwrap().parse().unwrap();
        let from = digits + 1;
        found.push(rest[from..from + len].to_vec());
        rest = &rest[from + len + 1..];
    }
    found
}

fn refused(refusal: Refusal) -> String {
    let kind = refusal.fault().map_or(0, |fault| fault.number());
    format!("refused {} {kind} {}\n", refusal.number(), refusal.offset().unwrap_or(0))
}

fn line(words: &[u32]) -> String {
    words.iter().map(u32::to_string).collect::<Vec<_>>().join(" ") + "\n"
}

/// `KIND:LINE:COLUMN:HEX` for each token, or the refusal.
fn tokens_told(script: &[u8]) -> String {
    let tokens = match tokens(script) {
        Ok(tokens) => tokens,
        Err(refusal) => return refused(refusal),
    };
    let lines = Lines::new(script);
    let told = tokens.iter().map(|token| {
        let place = lines.place(token.span.start);
        let spelling = match token.kind {
            TokenKind::Val => "",
            TokenKind::Eof => "EOF",
            _ => token.spelling(),
        };
        let hex: String = spelling.bytes().map(|byte| format!("{byte:02x}")).collect();
        format!("{}:{}:{}:{hex}", token.kind.number(), place.line, place.column)
    });
    told.collect::<Vec<_>>().join(" ") + "\n"
}

/// The words of a reason, from its typed form.
fn reason_word(error: &ParseError) -> u32 {
    let carried = match error.reason {
        Reason::Expected(message) => (message as usize + 1) << 16,
        Reason::TknMismatch { expected, found } => (expected.number() as usize) << 16 | found.index,
        Reason::FnParmCntExceeded { most } => most,
        Reason::WrongFnParmCnt { expected, found } => found << 16 | expected,
        other => other.token().map_or(0, |token| token.index),
    };
    (carried as u32) << 4 | error.reason.number()
}

/// The first and second words of the tree, from its typed form.
fn tree_words(reading: &Reading) -> (Vec<u32>, Vec<u32>) {
    let head = |node: crate::Node| {
        node.kind().number() + 32 * u32::from(node.mark()) + 64 * node.children().len() as u32
    };
    let load = |node: crate::Node| {
        node.token().map(|token| token.index).or(node.scope()).unwrap_or(0) as u32
    };
    (reading.nodes().map(head).collect(), reading.nodes().map(load).collect())
}

fn ending(error: Option<ParseError>) -> String {
    let Some(ParseError { place, reason }) = error else { return "none\n".to_string() };
    let (offset, value) = match reason {
        Reason::TknMismatch { expected, found } => (found.span.start, expected.number() as usize),
        Reason::FnParmCntExceeded { most } => (0, most),
        other => panic!("{other} cannot end a reading"),
    };
    format!("{} {} {} {offset} {value}\n", place.line, place.column, reason.number())
}

/// What the listing program prints, and what it leaves out.
fn reading_told(script: &[u8]) -> String {
    if script.len() > LISTING_MOST {
        return refused(Refusal::LongScript);
    }
    let reading = match read_with(script, LISTING) {
        Ok(reading) => reading,
        Err(refusal) => return refused(refusal),
    };
    let raw = reading.raw();
    let counts =
        [raw.words.len(), raw.heads.len(), raw.places.len(), usize::from(reading.failed())];
    let (heads, loads) = tree_words(&reading);
    let mut told = line(&counts.map(|count| count as u32)) + &line(&heads) + &line(&loads);
    for error in reading.errors() {
        let (place, number) = (error.place, error.reason.number());
        writeln!(told, "{} {} {number}", place.line, place.column).expect("a string takes all");
    }
    let reasons: Vec<u32> = reading.errors().map(|error| reason_word(&error)).collect();
    told + &line(&reasons) + &ending(reading.ended())
}

/// Holds what is told of each script of a list to the stored answers; says how many scripts there are.
fn replayed(list: &str, told: fn(&[u8]) -> String) -> usize {
    let scripts = scripts(list);
    let stored = String::from_utf8(file(list, "stdout")).expect("answers are ASCII");
    let mut rest = &stored[..];
    for script in &scripts {
        let told = told(script);
        assert!(rest.starts_with(&told), "{}: {told}", script.escape_ascii());
        rest = &rest[told.len()..];
    }
    assert_eq!(rest, "");
    scripts.len()
}

#[test]
fn the_stored_tokens() {
    assert_eq!(replayed("token_replay", tokens_told), 959);
}

#[test]
fn the_stored_readings() {
    assert_eq!(replayed("read_replay", reading_told), 1_167);
}

/// With the rooms of this crate no script is refused for lack of room, and the views have all children.
#[test]
fn no_script_lacks_room() {
    for script in scripts("read_replay").iter().chain(&scripts("token_replay")) {
        match read(script) {
            Ok(reading) => {
                assert!(reading.nodes().all(|node| !format!("{:?}", node.view()).is_empty()))
            }
            Err(refusal) => assert!([2, 5, 6].contains(&refusal.number()), "{refusal:?}"),
        }
    }
}

/// A text is there exactly for scripts that do not fail; read back it has the same tree and the same text.
#[test]
fn texts_read_back() {
    let mut texts = 0;
    for script in scripts("read_replay").iter().chain(&scripts("token_replay")) {
        let reading = match read(script) {
            Ok(reading) => reading,
            Err(refusal) => {
                assert_eq!(text(script), Err(refusal));
                continue;
            }
        };
        if reading.failed() {
            assert_eq!(text(script), Err(Refusal::Flagged));
            continue;
        }
        let written = text(script).expect("a script that does not fail has a text");
        // The text of a script can nest deeper than the script.
        if let Ok(again) = read(&written) {
            assert!(again.same_tree(&reading), "{}", script.escape_ascii());
            assert_eq!(text(&written).as_ref(), Ok(&written));
        }
        texts += 1;
    }
    assert!(texts > 200, "{texts}");
}
