//! Instructions for each byte of a script, by callgrind: a run of the program makes one call on one script
//! a number of times, and two runs differ by nothing but that number.

use crate::inputs::{named, suppliers, Input};
use crate::sides::{Call, Job, Side};
use std::process::{Command, ExitCode};

/// The scripts that are counted: those of 8 KB.
const SIZE: &str = "-8K";

/// How many calls the two runs make.
const FEW: u32 = 1;
const MORE: u32 = 3;

/// Makes a call on the script of a name some times.
pub fn run(side: &str, call: &str, name: &str, times: &str) -> ExitCode {
    let (Some(side), Some(call), Some(input), Ok(times)) =
        (Side::of(side), Call::of(call), named(name), times.parse())
    else {
        return ExitCode::from(2);
    };
    let mut job = Job::new(side, call, input.script, input.memory);
    (0..times).for_each(|_: u32| drop(job.run()));
    ExitCode::SUCCESS
}

/// Prints the table of the scripts of 8 KB.
pub fn table() {
    table_of(suppliers().filter(|input| input.name.ends_with(SIZE)));
}

/// Prints the table of the scripts with these names.
pub fn table_of_named(names: &[&str]) {
    table_of(names.iter().filter_map(|name| named(name)));
}

/// Prints the table of some scripts, if valgrind can be run.
fn table_of(inputs: impl Iterator<Item = Input>) {
    println!(
        "\nInstructions for each byte, by `valgrind --tool=callgrind`: what two calls more take."
    );
    if Command::new("valgrind").arg("--version").output().is_err() {
        println!("valgrind is not there: left out");
        return;
    }
    print!("{:<36}{:>9}{:>9}{:>9}", "script, call", "Rust", "ours", "twin");
    println!("{:>8}{:>8}", "x Rust", "x twin");
    for input in inputs {
        Call::ALL.into_iter().for_each(|call| line(&input, call));
    }
}

fn line(input: &Input, call: Call) {
    let bytes = input.script.len() as f64;
    let [rust, ours, twin] = Side::ALL.map(|side| {
        let [few, more] = [FEW, MORE].map(|times| collected(side, call, &input.name, times));
        (more - few) / f64::from(MORE - FEW) / bytes
    });
    let name = format!("{}, {}", input.name, call.name());
    println!("{name:<36}{rust:>9.1}{ours:>9.1}{twin:>9.1}{:>8.1}{:>8.2}", rust / ours, ours / twin);
}

/// The instructions of a run, which callgrind prints at its end.
fn collected(side: Side, call: Call, name: &str, times: u32) -> f64 {
    let program = std::env::current_exe().expect("the program has a name");
    let output = Command::new("valgrind")
        .args(["--tool=callgrind", "--callgrind-out-file=/dev/null"])
        .arg(program)
        .args(["--run", side.name(), call.name(), name, &times.to_string()])
        .output()
        .expect("valgrind can be run");
    let told = String::from_utf8_lossy(&output.stderr).into_owned();
    told_count(&told).unwrap_or_else(|| panic!("callgrind counted nothing: {told}"))
}

/// The number behind `Collected :`.
fn told_count(told: &str) -> Option<f64> {
    let line = told.lines().find(|line| line.contains("Collected"))?;
    line.split(':').nth(1)?.trim().parse().ok()
}

#[cfg(test)]
mod tests {
    use super::*;

    #[test]
    fn the_count_is_found() {
        let told = "==1== Events    : Ir\n==1== Collected : 2387301\n==1== \n";
        assert_eq!(told_count(told), Some(2_387_301.0));
        assert_eq!(told_count("==1== Events : Ir"), None);
    }
}
