//! Times the calls: the Rust of docs/src, the proved calls, and their plain twins, each in a process of its
//! own, on scripts as suppliers write them and on shapes that a reader can be slow at, in one run. `bench`
//! prints all tables, the instructions for each byte, the stack that calls take, and whether the goals are
//! met; `bench --instructions [NAME..]` (of the scripts of these names), `bench --stack` and `bench --values`
//! print those alone; `bench --against OTHER.a [NAME..]` times the archive that it is linked with beside
//! another. All these say first which archive that is, and refuse one of another checkout. `bench --write DIR`
//! writes the scripts. `bench --side SIDE` is a side's process, and `bench --run SIDE CALL SCRIPT TIMES` makes
//! a call some times.

mod against;
mod goals;
mod inputs;
mod instructions;
mod library;
mod process;
mod sides;
mod stack;
mod tables;
mod timing;
mod values;

use compare::archive::told;
use sides::Side;
use std::process::ExitCode;

const USAGE: &str =
    "usage: bench [--instructions [NAME..] | --stack | --values | --against OTHER.a [NAME..] | \
    --write DIR | --side SIDE | --run SIDE CALL SCRIPT TIMES]";

fn main() -> ExitCode {
    let words: Vec<String> = std::env::args().skip(1).collect();
    match words.iter().map(String::as_str).collect::<Vec<_>>()[..] {
        [] => reported(all),
        ["--instructions"] => reported(|| {
            instructions::table();
            ExitCode::SUCCESS
        }),
        ["--instructions", ref names @ ..] => reported(|| {
            instructions::table_of_named(names);
            ExitCode::SUCCESS
        }),
        ["--stack"] => reported(|| {
            stack::measure_all();
            ExitCode::SUCCESS
        }),
        ["--values"] => reported(|| verdict(values::table())),
        ["--against", other, ref names @ ..] => {
            reported(|| reference::run(|| against(other, names)))
        }
        ["--write", folder] => inputs::write_all(folder),
        ["--side", side] => served(side),
        ["--run", side, call, script, times] => {
            reference::run(|| instructions::run(side, call, script, times))
        }
        _ => usage(),
    }
}

/// A report, after the line that says which archive is measured.
fn reported(report: impl FnOnce() -> ExitCode) -> ExitCode {
    match told() {
        Ok(archive) => {
            println!("{archive}");
            report()
        }
        Err(fault) => failed(&fault),
    }
}

fn against(other: &str, names: &[&str]) -> ExitCode {
    match against::table(other, names) {
        Ok(met) => verdict(met),
        Err(fault) => failed(&fault),
    }
}

fn failed(fault: &str) -> ExitCode {
    eprintln!("bench: {fault}");
    ExitCode::from(2)
}

/// Everything, and the verdicts last.
fn all() -> ExitCode {
    let mut bench = tables::Bench::start();
    bench.tables();
    instructions::table();
    println!();
    stack::measure_all();
    println!();
    let values = values::table();
    verdict(bench.verdicts() && values)
}

fn verdict(met: bool) -> ExitCode {
    if met {
        return ExitCode::SUCCESS;
    }
    ExitCode::FAILURE
}

fn served(side: &str) -> ExitCode {
    match Side::of(side) {
        Some(side) => reference::run(|| process::serve(side)),
        None => usage(),
    }
}

fn usage() -> ExitCode {
    eprintln!("{USAGE}");
    ExitCode::from(2)
}
