//! The calls on threads with little stack. One that has too little would end this program.

use sif::Refusal;
use std::thread::{scope, Builder};

/// What nests: before, inside and after, and how many of its bytes count as opening.
const NESTING: [(&str, &str, &str, usize); 14] = [
    ("{", "", "}", 1),
    ("(", "1", ")", 1),
    ("-", "1", "", 1),
    ("!", "1", "", 1),
    ("@", "a", "", 1),
    ("a=", "1", "", 1),
    ("a.", "1", "", 1),
    ("a[", "1", "]", 1),
    ("print(", "1", ")", 1),
    ("-(", "1", ")", 2),
    ("@(", "a", ")", 2),
    ("if 1 {", "", "}", 1),
    ("fn f() {", "", "}", 2),
    ("for i, j in a {", "", "}", 1),
];

/// The script `var a;` and something nested so many times.
fn nested(before: &str, inside: &str, after: &str, times: usize) -> String {
    let end = if after == "}" { "" } else { ";" };
    format!("var a; {}{inside}{}{end}", before.repeat(times), after.repeat(times))
}

/// Reads and writes a script on a thread with so many bytes of stack.
fn on_stack(bytes: usize, script: &str) -> (Option<Refusal>, Option<Refusal>) {
    let both = || (sif::read(script.as_bytes()).err(), sif::text(script.as_bytes()).err());
    scope(|scope| {
        let thread = Builder::new().stack_size(bytes).spawn_scoped(scope, both);
        thread.expect("a thread").join().expect("no panic")
    })
}

/// The most that is read on the caller's stack: half a megabyte is enough for it.
#[test]
fn few_opening_bytes_take_little_stack() {
    for (before, inside, after, opening) in NESTING {
        for times in 0..=64 / opening {
            let script = nested(before, inside, after, times);
            assert_eq!(on_stack(512 << 10, &script).0, None, "{script}");
        }
    }
}

/// The deepest scripts of each length that is read on the caller's stack, and all that are longer.
#[test]
fn the_deepest_scripts_of_a_length() {
    for n in 1..=255 {
        let script = String::from_utf8(sif::deepest(n).unwrap().script).unwrap();
        let stack = if n <= 64 { 512 << 10 } else { 64 << 10 };
        assert_eq!(on_stack(stack, &script), (None, Some(Refusal::Flagged)), "{n} bytes");
    }
    assert_eq!(on_stack(64 << 10, &"(".repeat(256)).0, Some(Refusal::TooDeep));
}

/// Scripts about the deepest, and far beyond it, on a thread with the least stack.
#[test]
fn deep_scripts_need_no_stack_of_the_caller() {
    for (before, inside, after, _) in NESTING {
        for times in [65, 100, 254, 255, 256, 380, 384, 760, 768, 769, 3_000] {
            let script = nested(before, inside, after, times);
            let (read, _) = on_stack(64 << 10, &script);
            assert!(matches!(read, None | Some(Refusal::TooDeep)), "{script}");
            assert!(times < 3_000 || read == Some(Refusal::TooDeep), "{script}");
        }
    }
}

/// A chain of left operands is as high as it is long, and is read and written without deep recursion.
#[test]
fn a_long_chain_takes_little_stack() {
    let script = format!("1{};", "+1".repeat(32_700));
    assert_eq!(on_stack(512 << 10, &script).0, None);
}
