//! The files of the command line.

use std::ffi::{OsStr, OsString};
use std::fs::File;
use std::io::{stdin, Read};

/// A script of the command line: its name as it is shown, and its bytes.
pub struct Script {
    pub name: String,
    pub bytes: Vec<u8>,
}

/// The name of a file as it is shown: what would not show on a line is escaped.
pub fn shown(file: &OsStr) -> String {
    if file == "-" {
        return "standard input".to_string();
    }
    file.to_string_lossy().chars().flat_map(escaped).collect()
}

fn escaped(char: char) -> Vec<char> {
    if char.is_control() {
        return char.escape_default().collect();
    }
    vec![char]
}

/// The bytes of a file, one more than a script has at most where it is too long.
pub fn load(file: &OsString) -> Result<Script, String> {
    let name = shown(file);
    let bytes = bytes(file).map_err(|why| format!("{name}: {why}"))?;
    Ok(Script { name, bytes })
}

fn bytes(file: &OsString) -> Result<Vec<u8>, String> {
    if file == "-" {
        return most(stdin().lock());
    }
    let opened = File::open(file).map_err(said)?;
    if opened.metadata().map_err(said)?.is_dir() {
        return Err("is a directory, not a script".to_string());
    }
    most(opened)
}

fn most(from: impl Read) -> Result<Vec<u8>, String> {
    let mut bytes = Vec::new();
    from.take(sif::MAX_SCRIPT as u64 + 1).read_to_end(&mut bytes).map_err(said)?;
    Ok(bytes)
}

fn said(error: std::io::Error) -> String {
    match error.kind() {
        std::io::ErrorKind::NotFound => "there is no such file".to_string(),
        std::io::ErrorKind::PermissionDenied => "cannot be read: permission denied".to_string(),
        _ => format!("cannot be read: {error}"),
    }
}
