//! The process of each side answers what it is asked, and the same counts as the others.

use std::io::Write;
use std::process::{Command, Stdio};

/// What a side's process answers to some requests.
fn answered(side: &str, requests: &str) -> String {
    let mut process = Command::new(env!("CARGO_BIN_EXE_bench"))
        .args(["--side", side])
        .stdin(Stdio::piped())
        .stdout(Stdio::piped())
        .spawn()
        .expect("the process can be started");
    let mut input = process.stdin.take().expect("its input is a pipe");
    input.write_all(requests.as_bytes()).expect("the process listens");
    drop(input);
    let output = process.wait_with_output().expect("the process ends");
    assert!(output.status.success());
    String::from_utf8(output.stdout).expect("the answers are text")
}

/// The words behind the seconds.
fn counts(answer: &str) -> Vec<&str> {
    answer.split_whitespace().skip(1).collect()
}

#[test]
fn each_side_counts_and_times() {
    for (call, wanted) in [
        ("lexing", ["6", "6", "6"]),
        ("reading", ["0", "0 3", "0 3"]),
        ("text", ["", "12 0", "12 0"]),
    ] {
        for (side, wanted) in ["Rust", "ours", "twin"].into_iter().zip(wanted) {
            let requests = format!("job {call} 10 10\nvar a = 1;go 0\nclear\n");
            let answers = answered(side, &requests);
            let lines: Vec<&str> = answers.lines().collect();
            assert_eq!(counts(lines[0]).join(" "), wanted, "{side}, {call}");
            let seconds: f64 = lines[1].parse().expect("seconds are a number");
            assert!(seconds > 0.0 && seconds < 1.0, "{side}, {call}: {seconds}");
            assert_eq!(lines.len(), 2);
        }
    }
}

#[test]
fn a_call_is_made_some_times() {
    let run = |words: [&str; 4]| {
        let program = env!("CARGO_BIN_EXE_bench");
        Command::new(program).arg("--run").args(words).status().expect("it can be run").code()
    };
    assert_eq!(run(["ours", "reading", "Schedules-1K", "2"]), Some(0));
    assert_eq!(run(["ours", "reading", "no such script", "2"]), Some(2));
    assert_eq!(run(["nobody", "reading", "Schedules-1K", "2"]), Some(2));
}
