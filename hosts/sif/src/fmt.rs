//! `sif fmt`: the canonical text of scripts.

use crate::args::Mode;
use crate::check::{people_report, refused};
use crate::input::{load, Script};
use crate::output::{counted, note, print, print_bytes};
use crate::terminal::Progress;
use crate::Status;
use sif::{Refusal, Stop};
use std::ffi::{OsStr, OsString};
use std::fs::{canonicalize, metadata, remove_file, rename, set_permissions, File};
use std::io::Write;
use std::path::Path;

/// How many errors of a file are shown.
const SHOWN: usize = 10;

/// Why a file has no text that is written, and what that means for the status.
type Fault = (Status, String);

pub fn run(files: &[OsString], mode: Mode) -> Status {
    let mut worst = Status::Good;
    let mut progress = Progress::new(if mode == Mode::Print { 1 } else { files.len() });
    for file in files {
        let status = match one(file, mode, &mut progress) {
            Ok(status) => status,
            Err((status, why)) => {
                progress.clear();
                note(&why);
                status
            }
        };
        worst = worst.max(status);
        progress.step();
    }
    progress.clear();
    worst
}

fn one(file: &OsString, mode: Mode, progress: &mut Progress) -> Result<Status, Fault> {
    let script = load(file).map_err(|why| (Status::Unusable, why + "\n"))?;
    let text = canonical(&script)?;
    match mode {
        Mode::Print => print_bytes(&text),
        Mode::Check if text == script.bytes => {}
        Mode::Check => {
            progress.clear();
            print(&format!("{}\n", script.name));
            return Ok(Status::Bad);
        }
        Mode::Write { drop_comments } => write(file, &script, &text, drop_comments)?,
    }
    Ok(Status::Good)
}

/// The canonical text of a script, all of which was read without failure.
fn canonical(script: &Script) -> Result<Vec<u8>, Fault> {
    let text = match sif::text(&script.bytes) {
        Ok(text) => text,
        Err(Refusal::Flagged) => return Err((Status::Bad, people_report(script, SHOWN).text)),
        Err(refusal) => {
            let (text, status) = refused(script, refusal);
            return Err((status, text));
        }
    };
    let tokens = sif::tokens(&script.bytes).expect("a script with a text has no fault");
    match tokens.stop() {
        Stop::End => Ok(text),
        _ => Err((Status::Bad, people_report(script, SHOWN).text)),
    }
}

/// Replaces a file by a text, if it is another one, nothing is lost, and the text has the script's tree.
fn write(file: &OsStr, script: &Script, text: &[u8], drop_comments: bool) -> Result<(), Fault> {
    if text == script.bytes {
        return Ok(());
    }
    let name = &script.name;
    let fault = |why: String| (Status::Bad, format!("{name}: not replaced: {why}\n"));
    let reading = sif::read(&script.bytes).expect("a script with a text is read");
    let comments = reading.tokens().comments().len();
    if comments > 0 && !drop_comments {
        let comments = counted(comments, "comment");
        return Err(fault(format!("{comments} would be lost; --drop-comments allows it")));
    }
    let again =
        sif::read(text).map_err(|refusal| fault(format!("its text is refused: {refusal}")))?;
    if again.failed() || !again.same_tree(&reading) {
        return Err(fault("its text has another tree".to_string()));
    }
    replace(Path::new(file), text)
        .map_err(|error| (Status::Unusable, format!("{name}: not replaced: {error}\n")))
}

/// Writes a new file beside the old one, and puts it in its place in one step, so that there is a whole
/// file at any moment. Where the file is a link, what it leads to is replaced.
fn replace(file: &Path, text: &[u8]) -> std::io::Result<()> {
    let file = canonicalize(file)?;
    let rights = metadata(&file)?.permissions();
    if rights.readonly() {
        return Err(std::io::Error::other("it is write-protected"));
    }
    let mut name = OsString::from(".");
    name.push(file.file_name().expect("a file has a name"));
    name.push(format!(".{}.new", std::process::id()));
    let new = file.with_file_name(name);
    let written = File::create_new(&new).and_then(|mut opened| {
        opened.write_all(text)?;
        opened.sync_all()?;
        set_permissions(&new, rights)?;
        rename(&new, &file)
    });
    if written.is_err() {
        // The first error is what is told.
        let _ = remove_file(&new);
    }
    written
}
