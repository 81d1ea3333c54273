//! The digest of a file. build.rs has this file too.

use std::fs::File;
use std::path::Path;
use std::process::Command;

/// A file's SHA-256 in hexadecimal digits, by `sha256sum`; or why there is none.
pub fn sha256(file: &Path) -> Result<String, String> {
    let opened = File::open(file).map_err(|error| format!("{}: {error}", file.display()))?;
    let run = Command::new("sha256sum").stdin(opened).output();
    let run = run.map_err(|error| format!("sha256sum cannot be run: {error}"))?;
    let told = String::from_utf8_lossy(&run.stdout);
    match told.split_whitespace().next() {
        Some(digest) if run.status.success() => Ok(digest.to_string()),
        _ => Err(format!("sha256sum failed on {}", file.display())),
    }
}
