//! `sif check`: reports the errors of scripts.

use crate::excerpt::{excerpt, place_for_people};
use crate::input::{load, Script};
use crate::output::{counted, grouped, note, print};
use crate::terminal::{width, Progress};
use crate::Status;
use sif::{Lines, Reading, Refusal, Stop};
use std::ffi::OsString;

/// How many errors of a file are shown, unless all are asked for.
const SHOWN: usize = 100;

/// What is reported: what to print, how many errors it has, and the status.
pub struct Report {
    pub text: String,
    pub errors: usize,
    pub status: Status,
}

/// The counts of a run.
#[derive(Default)]
struct Totals {
    files: usize,
    bad: usize,
    unusable: usize,
    errors: usize,
}

pub fn run(files: &[OsString], machine: bool, all: bool) -> Status {
    let mut totals = Totals::default();
    let mut worst = Status::Good;
    let mut progress = Progress::new(files.len());
    let most = if all { usize::MAX } else { SHOWN };
    for file in files {
        let status = match load(file) {
            Ok(script) => {
                let report =
                    if machine { machine_report(&script) } else { people_report(&script, most) };
                if !report.text.is_empty() {
                    progress.clear();
                    print(&report.text);
                }
                totals.errors += report.errors;
                report.status
            }
            Err(why) => {
                progress.clear();
                note(&format!("{why}\n"));
                Status::Unusable
            }
        };
        totals.files += 1;
        totals.bad += usize::from(status == Status::Bad);
        totals.unusable += usize::from(status == Status::Unusable);
        worst = worst.max(status);
        progress.step();
    }
    progress.clear();
    if !machine {
        note(&summary(&totals));
    }
    worst
}

/// One line: how many files there were, and what was found. It says how columns count where some were shown.
fn summary(totals: &Totals) -> String {
    let Totals { files, bad, unusable, errors } = *totals;
    let mut said = format!("{} checked", counted(files, "file"));
    if bad + unusable == 0 {
        return said + ", no errors\n";
    }
    if bad > 0 {
        said += &format!(", {} in {}", counted(errors, "error"), counted(bad, "file"));
    }
    if unusable > 0 {
        said += &format!(", {unusable} not read");
    }
    said + if bad > 0 { " (lines and columns count from 1)\n" } else { "\n" }
}

/// The errors of a script for people.
pub fn people_report(script: &Script, most: usize) -> Report {
    let Script { name, bytes } = script;
    let lines = Lines::new(bytes);
    let reading = match sif::read(bytes) {
        Ok(reading) => reading,
        Err(refusal) => {
            let (text, status) = refused(script, refusal);
            return Report { text, errors: usize::from(status == Status::Bad), status };
        }
    };
    let mut text = String::new();
    let mut errors = 0;
    let width = width();
    for (offset, why) in found(&reading, &lines) {
        if errors < most {
            text += &pointed(script, &lines, offset, &why, width);
        }
        errors += 1;
    }
    if errors > most {
        text +=
            &format!("{name}: and {} more; --all shows them\n", counted(errors - most, "error"));
    }
    Report { text, errors, status: if errors > 0 { Status::Bad } else { Status::Good } }
}

/// What is wrong in a script that is read, with the offset of each.
fn found<'r>(reading: &'r Reading, lines: &'r Lines) -> impl Iterator<Item = (usize, String)> + 'r {
    let problems =
        reading.problems().map(|error| (lines.offset(error.place), error.reason.to_string()));
    problems.chain(unread(reading.stop()))
}

/// What was not read of a script, if a part was not. The Rust of sif goes over it in silence.
fn unread(stop: Stop) -> Option<(usize, String)> {
    let why = match stop {
        Stop::End => return None,
        Stop::UnknownCharacter { .. } => {
            "unknown character: nothing from here on is read".to_string()
        }
        Stop::OpenString { .. } => "a string with no end: nothing from here on is read".to_string(),
        Stop::Fault { fault, .. } => fault.to_string(),
    };
    Some((stop.offset()?, why))
}

/// A message with the line that it is about, and a caret.
fn pointed(script: &Script, lines: &Lines, offset: usize, why: &str, width: usize) -> String {
    let place = place_for_people(&script.bytes, lines, offset);
    format!("{}:{place}: {why}\n{}", script.name, excerpt(&script.bytes, lines, place, width))
}

/// A refusal as people see it, and what it means for the status.
pub fn refused(script: &Script, refusal: Refusal) -> (String, Status) {
    let (why, status) = match refusal {
        Refusal::LongScript => (too_long(), Status::Unusable),
        Refusal::NotAscii { offset } => (not_ascii(script.bytes[offset]), Status::Unusable),
        other => (other.to_string(), Status::Bad),
    };
    let lines = Lines::new(&script.bytes);
    let text = match refusal.offset() {
        Some(offset) => pointed(script, &lines, offset, &why, width()),
        None => format!("{}: {why}\n", script.name),
    };
    (text, status)
}

fn too_long() -> String {
    format!("is too long: a script has at most {} bytes", grouped(sif::MAX_SCRIPT as u64))
}

fn not_ascii(byte: u8) -> String {
    format!("the byte {byte} (0x{byte:02X}) is not ASCII: a script has bytes below 128 only")
}

/// The errors of a script in document 01's numbers, a line each, tabs between: file; `error` or `ended`;
/// line, column, reason. Then file, `unread` and an offset, where nothing is read from there on. Last comes
/// file, `read`, tokens, nodes, errors, flag. Or there is one line only: file, `refused`, number, kind, offset.
fn machine_report(script: &Script) -> Report {
    let Script { name, bytes } = script;
    let reading = match sif::read(bytes) {
        Ok(reading) => reading,
        Err(refusal) => {
            let [number, kind, offset] = refusal_numbers(refusal);
            let text = format!("{name}\trefused\t{number}\t{kind}\t{offset}\n");
            return Report { text, errors: 1, status: refused(script, refusal).1 };
        }
    };
    let mut text = String::new();
    let listed = reading.errors().map(|error| ("error", error));
    for (what, error) in listed.chain(reading.ended().map(|error| ("ended", error))) {
        let (place, number) = (error.place, error.reason.number());
        text += &format!("{name}\t{what}\t{}\t{}\t{number}\n", place.line, place.column);
    }
    let unread = reading.stop().offset();
    if let Some(offset) = unread {
        text += &format!("{name}\tunread\t{offset}\n");
    }
    let raw = reading.raw();
    let (tokens, nodes, errors) = (raw.words.len(), raw.heads.len(), raw.places.len());
    let flag = u8::from(reading.failed());
    text += &format!("{name}\tread\t{tokens}\t{nodes}\t{errors}\t{flag}\n");
    let bad = reading.failed() || errors > 0 || unread.is_some();
    Report { text, errors, status: if bad { Status::Bad } else { Status::Good } }
}

/// Number, kind and offset of a refusal, 0 where it has none.
pub fn refusal_numbers(refusal: Refusal) -> [usize; 3] {
    let kind = refusal.fault().map_or(0, |fault| fault.number() as usize);
    [refusal.number() as usize, kind, refusal.offset().unwrap_or(0)]
}
