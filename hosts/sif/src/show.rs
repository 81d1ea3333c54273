//! `sif tokens`, `sif tree` and `sif list`.

use crate::check::{refusal_numbers, refused};
use crate::excerpt::place_for_people;
use crate::input::{load, Script};
use crate::output::{note, print};
use crate::Status;
use sif::{Lines, Node, NodeKind, ParseError, Reading, Refusal, Token, TokenKind};
use std::ffi::OsString;
use std::fmt::Write;

/// Nodes that are deeper than this are shown with their depth in the place of more indentation.
const DEEPEST: usize = 40;

/// Shows each file by a function that may be refused. Several files have a line with their name above each.
pub fn run(files: &[OsString], show: impl Fn(&mut String, &[u8]) -> Result<(), Refusal>) -> Status {
    each(files, |script, text| {
        if files.len() > 1 {
            text.push_str(&format!("==> {} <==\n", script.name));
        }
        match show(text, &script.bytes) {
            Ok(()) => Status::Good,
            Err(refusal) => told(script, refusal),
        }
    })
}

/// Loads each file, and prints what is made of it.
fn each(files: &[OsString], make: impl Fn(&Script, &mut String) -> Status) -> Status {
    let one = |file: &OsString| match load(file) {
        Ok(script) => {
            let mut text = String::new();
            let status = make(&script, &mut text);
            print(&text);
            status
        }
        Err(why) => {
            note(&format!("{why}\n"));
            Status::Unusable
        }
    };
    files.iter().map(one).max().unwrap_or(Status::Good)
}

/// Tells why a script is refused, beside the result.
fn told(script: &Script, refusal: Refusal) -> Status {
    let (text, status) = refused(script, refusal);
    note(&text);
    status
}

/// A token a line: place, kind and text, and behind a number its value. Or in numbers: kind, line, column,
/// offset, length.
pub fn tokens(text: &mut String, script: &[u8], machine: bool) -> Result<(), Refusal> {
    let tokens = sif::tokens(script)?;
    let lines = Lines::new(script);
    for token in tokens.iter() {
        let (kind, span) = (token.kind, token.span);
        if machine {
            let place = lines.place(span.start);
            let (kind, len) = (kind.number() as usize, span.end - span.start);
            text.push_str(&(joined(&[kind, place.line, place.column, span.start, len]) + "\n"));
        } else {
            let place = place_for_people(script, &lines, span.start).to_string();
            let value = token.value().map_or(String::new(), |value| format!("  value {value}"));
            let line = format!("{place:<9} {:<18} {}{value}", kind.name(), plain(token.text));
            text.push_str(&(line.trim_end().to_string() + "\n"));
        }
    }
    Ok(())
}

/// Numbers with a space between.
fn joined(numbers: &[impl ToString]) -> String {
    numbers.iter().map(|number| number.to_string()).collect::<Vec<_>>().join(" ")
}

/// A text on one line.
fn plain(text: &str) -> String {
    text.chars()
        .flat_map(
            |char| if char.is_control() { char.escape_default().collect() } else { vec![char] },
        )
        .collect()
}

/// A node a line, indented by its depth: kind, carried token, mark, scope and place.
pub fn tree(text: &mut String, script: &[u8]) -> Result<(), Refusal> {
    let reading = sif::read(script)?;
    let lines = reading.lines();
    let mut waiting = vec![(0, reading.root())];
    while let Some((depth, node)) = waiting.pop() {
        let indent = "  ".repeat(depth.min(DEEPEST));
        let deep = if depth > DEEPEST { format!("[{depth}] ") } else { String::new() };
        text.push_str(&format!("{indent}{deep}{}\n", described(node, &lines)));
        waiting.extend(node.children().rev().map(|child| (depth + 1, child)));
    }
    if reading.failed() {
        text.push_str("(the script has errors: declarations that failed are not in the tree)\n");
    }
    Ok(())
}

fn described(node: Node, lines: &Lines) -> String {
    let mut said = node.kind().name().to_string();
    if let Some(token) = node.token() {
        said += &format!(" {}", plain(token.text));
    }
    if node.mark() {
        said += if node.kind() == NodeKind::FnCallExpr { " std" } else { " global" };
    }
    if let Some(scope) = node.scope() {
        said += &format!(" scope {scope}");
    }
    if let Some(token) = node.token() {
        said += &format!("  {}", lines.place(token.span.start));
    }
    said
}

/// The trees as JSON, an object on a line for each file, or one with its refusal.
pub fn run_json(files: &[OsString]) -> Status {
    each(files, |script, text| {
        let (object, status) = match sif::read(&script.bytes) {
            Ok(reading) => (json(&script.name, &reading), Status::Good),
            Err(refusal) => {
                let status = told(script, refusal);
                (json_refusal(&script.name, refusal), status)
            }
        };
        text.push_str(&(object + "\n"));
        status
    })
}

/// Nodes refer to their children by index: a chain of operands can be 32,769 nodes high, and few readers of
/// JSON take so deep a nesting.
fn json(name: &str, reading: &Reading) -> String {
    let lines = reading.lines();
    let nodes: Vec<String> = reading.nodes().map(|node| json_node(node, &lines)).collect();
    let errors: Vec<String> = reading.errors().map(|error| json_error(&error)).collect();
    let ended = reading.ended().map_or("null".to_string(), |error| json_error(&error));
    format!(
        "{{\"file\":{},\"tokens\":{},\"failed\":{},\"root\":{},\"nodes\":[{}],\"errors\":[{}],\"ended\":{ended}}}",
        quoted(name),
        reading.raw().words.len(),
        reading.failed(),
        reading.root().index(),
        nodes.join(","),
        errors.join(","),
    )
}

fn json_refusal(name: &str, refusal: Refusal) -> String {
    let [number, kind, offset] = refusal_numbers(refusal);
    format!(
        "{{\"file\":{},\"refused\":{{\"number\":{number},\"kind\":{kind},\"offset\":{offset},\"reason\":{}}}}}",
        quoted(name),
        quoted(&refusal.to_string()),
    )
}

fn json_node(node: Node, lines: &Lines) -> String {
    let children: Vec<String> = node.children().map(|child| child.index().to_string()).collect();
    let mut said = format!("{{\"kind\":\"{}\",\"number\":{}", node.kind(), node.kind().number());
    if node.mark() {
        said += ",\"mark\":true";
    }
    if let Some(scope) = node.scope() {
        said += &format!(",\"scope\":{scope}");
    }
    if let Some(token) = node.token() {
        said += &format!(",\"token\":{}", json_token(&token, lines));
    }
    said + &format!(",\"children\":[{}]}}", children.join(","))
}

fn json_token(token: &Token, lines: &Lines) -> String {
    let (place, offset) = (lines.place(token.span.start), token.span.start);
    let (kind, text) = (token.kind.name(), quoted(token.text));
    let where_it_is =
        format!("\"line\":{},\"column\":{},\"offset\":{offset}", place.line, place.column);
    let value = json_value(token);
    format!(
        "{{\"index\":{},\"kind\":\"{kind}\",\"text\":{text},{where_it_is}{value}}}",
        token.index
    )
}

/// The value of a number, null where it has too many digits; nothing for other tokens.
fn json_value(token: &Token) -> String {
    match (token.kind, token.value()) {
        (TokenKind::Val, Some(value)) => format!(",\"value\":{value}"),
        (TokenKind::Val, None) => ",\"value\":null".to_string(),
        _ => String::new(),
    }
}

fn json_error(error: &ParseError) -> String {
    let ParseError { place, reason } = error;
    let (number, reason) = (reason.number(), quoted(&reason.to_string()));
    format!(
        "{{\"line\":{},\"column\":{},\"number\":{number},\"reason\":{reason}}}",
        place.line, place.column
    )
}

/// A string of JSON.
fn quoted(text: &str) -> String {
    let mut said = String::from("\"");
    for char in text.chars() {
        match char {
            '"' | '\\' => said.extend(['\\', char]),
            control if control < ' ' || control == '\x7f' => {
                write!(said, "\\u{:04x}", u32::from(control)).expect("a string takes all")
            }
            other => said.push(other),
        }
    }
    said + "\""
}

/// The listings of document 01.
pub fn run_list(files: &[OsString]) -> Status {
    each(files, |script, text| {
        if files.len() > 1 {
            text.push_str(&format!("==> {} <==\n", script.name));
        }
        match sif::read(&script.bytes) {
            Ok(reading) => {
                text.push_str(&listing(&reading));
                Status::Good
            }
            Err(refusal) => {
                text.push_str(&format!("refused {}\n", joined(&refusal_numbers(refusal))));
                refused(script, refusal).1
            }
        }
    })
}

fn listing(reading: &Reading) -> String {
    let raw = reading.raw();
    let counts = [raw.words.len(), raw.heads.len(), raw.places.len(), usize::from(raw.flag)];
    let mut text = format!("{}\n{}\n{}\n", joined(&counts), joined(raw.heads), joined(raw.loads));
    for error in reading.errors() {
        let (place, number) = (error.place, error.reason.number());
        text.push_str(&format!("{} {} {number}\n", place.line, place.column));
    }
    text
}

#[cfg(test)]
mod tests {
    use super::*;

    #[test]
    fn the_listing_of_01s_example() {
        let reading = sif::read(b"var a = 1;\n").unwrap();
        assert_eq!(listing(&reading), "6 3 0 0\n24 104 65\n3 1 0\n");
    }

    #[test]
    fn strings_of_json() {
        assert_eq!(quoted("a\"b\\\n\x7f"), "\"a\\\"b\\\\\\u000a\\u007f\"");
    }
}
