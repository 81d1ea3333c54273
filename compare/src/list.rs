//! The fixed lists: scripts with the Rust's answers, in two files that a program replays with no Rust
//! at hand. docs/COMPARISON.md has their format.

mod readings;
mod tokens;

use crate::reading::listing;
use std::collections::BTreeSet;
use std::fs;
use std::path::Path;

/// A list: its program, its scripts, and the Rust's answer on one of them.
struct Kind {
    program: &'static str,
    scripts: fn() -> Vec<Vec<u8>>,
    answer: fn(&[u8]) -> String,
    /// Whether the program reads many scripts, each after its length, or one as it stands.
    many: bool,
}

const TOKENS: Kind =
    Kind { program: "token_replay", scripts: tokens::scripts, answer: tokens::answer, many: true };

const READINGS: Kind =
    Kind { program: "read_replay", scripts: readings::scripts, answer: listing::whole, many: true };

/// Document 01's example, for the listing program.
const EXAMPLE: Kind = Kind {
    program: "sif_list",
    scripts: || vec![b"var a = 1;\n".to_vec()],
    answer: listing::listed,
    many: false,
};

/// The list that the program in a folder replays.
fn of(folder: &Path) -> List {
    let program = folder.file_name().unwrap_or_default();
    let kind = [TOKENS, READINGS, EXAMPLE].into_iter().find(|kind| program == kind.program);
    kind.unwrap_or_else(|| panic!("no list is for {}", folder.display())).made()
}

/// Writes the two files of a folder's list.
pub fn write(folder: &Path) -> bool {
    let list = of(folder);
    for (name, bytes) in list.files() {
        fs::write(folder.join(name), bytes)
            .unwrap_or_else(|error| panic!("{name} cannot be written: {error}"));
    }
    println!("compare: wrote a list of {} scripts", list.scripts);
    true
}

/// Says whether the stored files are what the Rust says now.
pub fn check(folder: &Path) -> bool {
    let list = of(folder);
    let [stdin, stdout] = list.files().map(|(name, _)| stored(&folder.join(name)));
    let failed = if stdin == list.stdin {
        differing_lines(&stdout, &list.stdout)
    } else {
        println!("stdin has other scripts than the list");
        list.scripts
    };
    println!("compare: {} passed, {failed} failed", list.scripts.saturating_sub(failed));
    failed == 0
}

fn stored(file: &Path) -> Vec<u8> {
    fs::read(file).unwrap_or_else(|error| panic!("{} cannot be read: {error}", file.display()))
}

/// How many lines two files do not share; prints the first of them.
fn differing_lines(stored: &[u8], now: &[u8]) -> usize {
    let lines = |file| <[u8]>::split_inclusive(file, |&byte| byte == b'\n').collect::<Vec<_>>();
    let (stored, now) = (lines(stored), lines(now));
    let all = 0..stored.len().max(now.len());
    let differing: Vec<usize> = all.filter(|&at| stored.get(at) != now.get(at)).collect();
    if let Some(at) = differing.first() {
        println!("stdout is not what the Rust says, first in line {}", at + 1);
    }
    differing.len()
}

struct List {
    scripts: usize,
    stdin: Vec<u8>,
    stdout: Vec<u8>,
}

impl List {
    fn files(&self) -> [(&'static str, &[u8]); 2] {
        [("stdin", &self.stdin), ("stdout", &self.stdout)]
    }
}

impl Kind {
    /// The scripts, by length and then by their bytes, and the answers.
    fn made(&self) -> List {
        let scripts: BTreeSet<(usize, Vec<u8>)> =
            (self.scripts)().into_iter().map(|script| (script.len(), script)).collect();
        let mut list = List { scripts: scripts.len(), stdin: Vec::new(), stdout: Vec::new() };
        for (len, script) in scripts {
            list.stdout.extend((self.answer)(&script).bytes());
            if self.many {
                list.stdin.extend([format!("{len}\n").as_bytes(), &script, b"\n"].concat());
            } else {
                list.stdin.extend(&script);
            }
        }
        list
    }
}

#[cfg(test)]
mod tests {
    use super::*;

    #[test]
    fn a_changed_line_is_found() {
        assert_eq!(differing_lines(b"1\na\n", b"1\na\n"), 0);
        assert_eq!(differing_lines(b"1\na\n", b"1\nb\n"), 1);
        assert_eq!(differing_lines(b"1\na\n2\n", b"1\na\n"), 1);
        assert_eq!(differing_lines(b"", b"1\na\n"), 2);
        assert_eq!(differing_lines(b"1\na", b"1\na\n"), 1);
    }
}
