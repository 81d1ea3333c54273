//! Two archives are compared in one run. Which of them is faster is not tested: that goes by the load.
#![cfg(not(feature = "stand-in"))]

use compare::archive::linked;
use std::path::PathBuf;
use std::process::{Command, Output};

fn against(other: &str, names: &[&str]) -> Output {
    let program = env!("CARGO_BIN_EXE_bench");
    let run = Command::new(program).args(["--against", other]).args(names).output();
    run.expect("it can be run")
}

/// A copy of the archive that the program is linked with, under a name of its own.
fn copied(name: &str) -> PathBuf {
    let copy = PathBuf::from(env!("CARGO_TARGET_TMPDIR")).join(name);
    let ours = linked().expect("the archive is there");
    std::fs::copy(ours.path, &copy).expect("it can be copied");
    copy
}

#[test]
fn an_archive_against_its_copy() {
    let copy = copied("copy.a");
    let run = against(&copy.display().to_string(), &["Schedules-1K", "comments"]);
    let told = String::from_utf8(run.stdout).expect("the report is text");
    assert!(matches!(run.status.code(), Some(0 | 1)), "{told}");
    let ours = linked().expect("the archive is there");
    let lines: Vec<&str> = told.lines().collect();
    assert_eq!(lines[0], format!("archive: {ours}"));
    assert_eq!(lines[1], format!("OTHER:   {}, SHA-256 {}", copy.display(), ours.sha256));
    assert_eq!(lines[2], "The two have the same bytes.");
    for name in ["Schedules-1K ", "comments "] {
        assert_eq!(lines.iter().filter(|line| line.starts_with(name)).count(), 3, "{told}");
    }
    let goal = "goal: no line slower than OTHER by more than 3 in a hundred: ";
    assert!(lines.last().is_some_and(|last| last.starts_with(goal)), "{told}");
}

#[test]
fn what_cannot_be_compared_is_told() {
    let told = |other: &str, name: &str| {
        let run = against(other, &[name]);
        assert_eq!(run.status.code(), Some(2));
        String::from_utf8(run.stderr).expect("the message is text")
    };
    assert!(told("no/such.a", "Schedules-1K").contains("no/such.a"));
    assert!(told("/dev/null", "Schedules-1K").contains("/dev/null"));
    let copy = copied("named.a").display().to_string();
    assert!(told(&copy, "nobody").contains("no script is named nobody"));
}
