//! What goes to standard output and to standard error.

use std::io::{stderr, stdout, ErrorKind, Write};
use std::process::exit;

/// The status of a program that ends by SIGPIPE, as shells count it.
const BROKEN_PIPE: i32 = 141;

/// Prints a part of the result. Where nobody reads it any more the program ends; where it cannot be
/// written the program says so and ends.
pub fn print(text: &str) {
    print_bytes(text.as_bytes())
}

pub fn print_bytes(bytes: &[u8]) {
    let mut out = stdout().lock();
    let Err(error) = out.write_all(bytes).and_then(|()| out.flush()) else { return };
    if error.kind() == ErrorKind::BrokenPipe {
        exit(BROKEN_PIPE);
    }
    note(&format!("sif: standard output: {error}\n"));
    exit(crate::Status::Unusable as i32);
}

/// Prints beside the result.
pub fn note(text: &str) {
    // There is nowhere left to say that this failed.
    let _ = stderr().lock().write_all(text.as_bytes());
}

/// A count with its noun.
pub fn counted(count: usize, noun: &str) -> String {
    format!("{count} {noun}{}", if count == 1 { "" } else { "s" })
}

/// A count with commas, as people write it.
pub fn grouped(count: u64) -> String {
    let digits = count.to_string();
    let groups = digits.as_bytes().rchunks(3).rev();
    let groups = groups.map(|group| std::str::from_utf8(group).expect("digits are ASCII"));
    groups.collect::<Vec<_>>().join(",")
}

#[cfg(test)]
mod tests {
    use super::*;

    #[test]
    fn counts_as_people_write_them() {
        assert_eq!(grouped(65_536), "65,536");
        assert_eq!(grouped(999), "999");
        assert_eq!(grouped(1_000_000), "1,000,000");
        assert_eq!(counted(1, "error"), "1 error");
        assert_eq!(counted(0, "error"), "0 errors");
    }
}
