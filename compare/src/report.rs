//! Counts what passed and failed, group by group, and shows the first difference.

use std::collections::BTreeMap;
use std::time::Instant;

#[derive(Default)]
pub struct Report {
    passed: u64,
    failed: u64,
    only: String,
}

/// The counts of one group: the scripts that passed, by how the Rust's lexing or reading of them ended,
/// and those that failed.
#[derive(Default)]
pub struct Tally {
    passed: BTreeMap<&'static str, u64>,
    failed: u64,
    first: Option<String>,
}

/// A shown script ends after this many bytes.
const SHOWN_BYTES: usize = 2_000;

impl Report {
    /// A report of the groups whose names have this in them.
    pub fn only(only: String) -> Report {
        Report { only, ..Report::default() }
    }

    /// Runs a group and prints its line.
    pub fn group(&mut self, name: &str, run: impl FnOnce(&mut Tally)) {
        if !name.contains(&self.only) {
            return;
        }
        let start = Instant::now();
        let mut tally = Tally::default();
        run(&mut tally);
        let seconds = start.elapsed().as_secs_f64();
        let passed: u64 = tally.passed.values().sum();
        let endings: Vec<String> =
            tally.passed.iter().map(|(name, count)| format!("{name} {count}")).collect();
        println!(
            "{name}: {passed} passed, {} failed ({}), {seconds:.1} s",
            tally.failed,
            endings.join(", ")
        );
        if let Some(first) = tally.first.filter(|_| self.failed == 0) {
            println!("first difference: {first}");
        }
        self.passed += passed;
        self.failed += tally.failed;
    }

    /// Prints the last line; true if nothing failed.
    pub fn finish(&self) -> bool {
        println!("compare: {} passed, {} failed", self.passed, self.failed);
        self.failed == 0
    }
}

impl Tally {
    /// Counts one script, whose check answers the name of its ending or a difference.
    pub fn add(&mut self, script: &[u8], result: Result<&'static str, String>) {
        match result {
            Ok(ending) => *self.passed.entry(ending).or_default() += 1,
            Err(difference) => {
                self.failed += 1;
                let first = || format!("{difference}\n  script: {}", shown(script));
                self.first.get_or_insert_with(first);
            }
        }
    }
}

/// A script's length, and its bytes escaped.
fn shown(script: &[u8]) -> String {
    let part = &script[..script.len().min(SHOWN_BYTES)];
    let more = if part.len() < script.len() { " .." } else { "" };
    format!("{} bytes, \"{}\"{more}", script.len(), part.escape_ascii())
}

#[cfg(test)]
mod tests {
    use super::*;

    #[test]
    fn a_difference_makes_the_run_fail() {
        let mut report = Report::default();
        report.group("right", |tally| tally.add(b"a", Ok("Eof")));
        assert!(report.finish());
        report.group("wrong", |tally| tally.add(b"b\n", Err("kind".to_string())));
        assert!(!report.finish());
    }

    #[test]
    fn groups_of_other_names_do_not_run() {
        let mut report = Report::only("text:".to_string());
        report.group("reading: a", |_| panic!("it runs"));
        report.group("text: a", |tally| tally.add(b"a", Ok("Eof")));
        assert_eq!((report.passed, report.failed), (1, 0));
    }

    #[test]
    fn a_shown_script_is_escaped() {
        assert_eq!(shown(b"a\n\"\x00\xff"), "5 bytes, \"a\\n\\\"\\x00\\xff\"");
    }
}
