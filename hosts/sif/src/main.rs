//! The command `sif`: checks, formats and shows sif scripts. `sif --help` says how it is used.

#![deny(unsafe_code)]

mod args;
mod check;
mod excerpt;
mod fmt;
mod input;
mod output;
mod show;
mod terminal;

use args::{Action, Asked};
use std::env::args_os;
use std::process::ExitCode;

/// How a run ended; of several files the worst counts.
#[derive(Clone, Copy, Debug, PartialEq, Eq, PartialOrd, Ord)]
pub enum Status {
    /// 0: nothing to report.
    Good = 0,
    /// 1: a script has errors, or is not in the form that was asked for.
    Bad = 1,
    /// 2: the command line is wrong, or a file is not a script that can be read.
    Unusable = 2,
}

fn main() -> ExitCode {
    let asked = match args::parse(args_os().skip(1)) {
        Ok(asked) => asked,
        Err(wrong) => {
            output::note(&format!("sif: {wrong}\nTry `sif --help`.\n"));
            return ExitCode::from(Status::Unusable as u8);
        }
    };
    ExitCode::from(run(asked) as u8)
}

fn run(asked: Asked) -> Status {
    match asked.action {
        Action::Help(text) => {
            output::print(text);
            Status::Good
        }
        Action::Check { machine, all } => check::run(&asked.files, machine, all),
        Action::Fmt(mode) => fmt::run(&asked.files, mode),
        Action::Tokens { machine } => {
            show::run(&asked.files, |name, script| show::tokens(name, script, machine))
        }
        Action::Tree { json: true } => show::run_json(&asked.files),
        Action::Tree { json: false } => show::run(&asked.files, show::tree),
        Action::List => show::run_list(&asked.files),
    }
}
