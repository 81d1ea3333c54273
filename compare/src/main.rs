//! `compare` runs the short form, `compare --long` the long one; with `--twin` not the library's calls are
//! compared but the reading and the text call of the plain twin; with `--only NAME` only the groups run
//! whose names have NAME in them. `compare --write-list DIR` writes the fixed list of the program in DIR,
//! and `compare --check-list DIR` says whether it is still what the Rust says.

use compare::{groups, list};
use std::env::args;
use std::path::Path;
use std::process::ExitCode;

const USAGE: &str =
    "usage: compare [[--long] [--twin] [--only NAME] | --write-list DIR | --check-list DIR]";

fn main() -> ExitCode {
    let words: Vec<String> = args().skip(1).collect();
    let words: Vec<&str> = words.iter().map(String::as_str).collect();
    let good = reference::run(|| match words[..] {
        ["--write-list", folder] => Some(list::write(Path::new(folder))),
        ["--check-list", folder] => Some(list::check(Path::new(folder))),
        _ => run(&words).map(groups::run),
    });
    match good {
        Some(true) => ExitCode::SUCCESS,
        Some(false) => ExitCode::FAILURE,
        None => {
            eprintln!("{USAGE}");
            ExitCode::from(2)
        }
    }
}

/// The run that the words ask for.
fn run(words: &[&str]) -> Option<groups::Run> {
    let mut run = groups::Run::default();
    let mut words = words.iter();
    while let Some(word) = words.next() {
        match *word {
            "--long" => run.is_long = true,
            "--twin" => run.is_twin = true,
            "--only" => run.only = words.next()?.to_string(),
            _ => return None,
        }
    }
    Some(run)
}
