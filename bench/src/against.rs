//! Two archives of ours in one run: the one that the program is linked with, and another. Both are loaded in
//! the same way, work on the same memory, and are timed in turn.

use crate::goals::{Bound, Goal};
use crate::inputs::{self, Input, MOST};
use crate::library;
use crate::sides::{Call, Job, Side};
use crate::timing::{filling, seconds};
use compare::archive::{self, Archive};
use compare::host::Calls;
use std::path::Path;

/// How many times the other's time a line may take.
const BOUND: f64 = 1.03;

/// How many rounds are timed; the least time of each archive counts. Where the two differ by more than the
/// bound, either way, there are more rounds for both as long as they do.
const ROUNDS: usize = 20;
const MOST_ROUNDS: usize = 60;

const HEADING: &str = "\
Rates in MB/s (1 MB = 1,000,000 bytes), by the least time of all rounds, the two archives in turn in one
process and on the same memory. times: our time over that of OTHER.";

/// Prints the table of the scripts of these names, or of all; true if no line is slower than it may be.
pub fn table(other: &str, names: &[&str]) -> Result<bool, String> {
    let (ours, other) = (archive::linked()?, Archive::at(Path::new(other))?);
    println!("OTHER:   {other}");
    if ours.sha256 == other.sha256 {
        println!("The two have the same bytes.");
    }
    let calls = library::load([&ours.path, &other.path])?;
    let mut goal =
        Goal::new("no line slower than OTHER by more than 3 in a hundred", Bound::AtMost(BOUND))
            .in_full();
    println!("{HEADING}");
    for call in Call::ALL {
        println!("\n{}", call.name());
        println!("{:<36}{:>7}{:>9}{:>9}{:>8}", "script", "bytes", "ours", "OTHER", "times");
        for input in inputs_of(call, names)? {
            goal.see(line(&calls, call, &input), format!("{}, {}", input.name, call.name()));
        }
    }
    println!("\ngoal: {}", goal.verdict());
    Ok(goal.is_met())
}

/// The scripts of some names; if there are none, all that a call is timed on.
fn inputs_of(call: Call, names: &[&str]) -> Result<Vec<Input>, String> {
    if !names.is_empty() {
        let named = |name: &&str| inputs::named(name).ok_or(format!("no script is named {name}"));
        return names.iter().map(named).collect();
    }
    let laden = inputs::error_laden().filter(|_| call == Call::Reading);
    let some = inputs::suppliers().chain(laden).chain([inputs::tiny()]);
    Ok(some.chain(inputs::worst(MOST)).collect())
}

/// Times a script and prints its line; answers our time over the other's.
fn line(calls: &[Calls; 2], call: Call, input: &Input) -> f64 {
    let mut job = Job::new(Side::Ours, call, input.script.clone(), input.memory);
    let [ours, other] = calls.map(|calls| job.run_by(&calls));
    assert_eq!(ours, other, "the counts on {}", input.name);
    let [ours, other] = timed(calls, &mut job);
    let bytes = input.script.len();
    let [our_rate, rate] = [ours, other].map(|seconds| bytes as f64 / seconds / 1e6);
    println!("{:<36}{bytes:>7}{our_rate:>9.1}{rate:>9.1}{:>8.3}", input.name, ours / other);
    ours / other
}

/// The least seconds that a run takes by each archive. Each is the first in every other round.
fn timed(calls: &[Calls; 2], job: &mut Job) -> [f64; 2] {
    let repeats = calls.map(|calls| filling(|| drop(job.run_by(&calls))));
    let repeats = repeats[0].max(repeats[1]);
    let mut least = [f64::INFINITY; 2];
    for round in 0..MOST_ROUNDS {
        if round >= ROUNDS && are_near(least) {
            break;
        }
        for at in [round % 2, 1 - round % 2] {
            let once = seconds(repeats, || drop(job.run_by(&calls[at])));
            least[at] = least[at].min(once);
        }
    }
    least
}

/// Whether neither time is above the other by more than a line may be.
fn are_near([ours, other]: [f64; 2]) -> bool {
    ours.max(other) <= BOUND * ours.min(other)
}

#[cfg(test)]
mod tests {
    use super::*;

    #[test]
    fn times_that_differ_either_way_are_not_near() {
        assert!(are_near([1.0, 1.0]) && are_near([1.02, 1.0]) && are_near([1.0, 1.02]));
        assert!(!are_near([1.04, 1.0]) && !are_near([1.0, 1.04]));
    }

    #[test]
    fn a_name_that_no_script_has_is_told() {
        assert_eq!(inputs_of(Call::Text, &["Schedules-1K"]).map(|some| some.len()), Ok(1));
        let refused = inputs_of(Call::Text, &["nobody"]).map(|some| some.len());
        assert_eq!(refused, Err("no script is named nobody".to_string()));
    }

    #[test]
    fn every_script_of_the_tables_has_a_line() {
        let lines = |call| inputs_of(call, &[]).map_or(0, |some| some.len());
        assert_eq!(lines(Call::Reading), lines(Call::Lexing) + 9);
        assert_eq!(lines(Call::Text), 10 + inputs::worst(MOST).len());
    }
}
