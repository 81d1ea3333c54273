//! include/sif.h is C11 and declares the calls with the arguments that src/host.rs gives them.

use std::process::Command;

#[test]
fn the_header_compiles() {
    let warnings = ["-std=c11", "-Wall", "-Wextra", "-pedantic", "-Werror"];
    let source = concat!(env!("CARGO_MANIFEST_DIR"), "/tests/header.c");
    let run = Command::new("cc")
        .args(warnings)
        .args(["-fsyntax-only", source])
        .output()
        .expect("cc can be run");
    assert!(run.status.success(), "{}", String::from_utf8_lossy(&run.stderr));
}
