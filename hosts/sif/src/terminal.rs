//! The terminal: its width, and the progress of a run over many files.

use crate::output::note;
use std::io::{stderr, stdout, IsTerminal};
use std::time::{Duration, Instant};

/// The columns of a terminal that does not say how many it has, and of what is no terminal.
const USUAL: usize = 80;
const NO_TERMINAL: usize = 160;

/// Between two states of the progress line.
const PAUSE: Duration = Duration::from_millis(50);

/// The columns of standard output.
pub fn width() -> usize {
    match stdout().is_terminal() {
        true => columns(1).unwrap_or(USUAL),
        false => NO_TERMINAL,
    }
}

#[cfg(target_os = "linux")]
#[allow(unsafe_code)]
fn columns(descriptor: i32) -> Option<usize> {
    use std::ffi::{c_int, c_ulong};
    const TIOCGWINSZ: c_ulong = 0x5413;
    extern "C" {
        fn ioctl(descriptor: c_int, request: c_ulong, ...) -> c_int;
    }
    // Rows, columns, and two that are not used: `struct winsize`.
    let mut size = [0u16; 4];
    // SAFETY: this request writes one `struct winsize`, which is four `unsigned short`.
    let status = unsafe { ioctl(descriptor, TIOCGWINSZ, size.as_mut_ptr()) };
    (status == 0 && size[1] > 0).then_some(usize::from(size[1]))
}

#[cfg(not(target_os = "linux"))]
fn columns(_descriptor: i32) -> Option<usize> {
    None
}

/// A line on the terminal that says how far a run is. Where standard error is no terminal, or one that cannot
/// take a line back, or there is one file only, there is none.
pub struct Progress {
    shown: bool,
    files: usize,
    done: usize,
    last: Option<Instant>,
}

impl Progress {
    pub fn new(files: usize) -> Progress {
        let plain = std::env::var_os("TERM").is_some_and(|name| name == "dumb");
        let shown = files > 1 && stderr().is_terminal() && !plain;
        Progress { shown, files, done: 0, last: None }
    }

    /// One more file is done.
    pub fn step(&mut self) {
        self.done += 1;
        let soon = self.last.is_some_and(|last| last.elapsed() < PAUSE);
        if self.shown && !soon {
            note(&format!("\r\x1b[K{} of {} files", self.done, self.files));
            self.last = Some(Instant::now());
        }
    }

    /// Takes the line away, before something else is printed.
    pub fn clear(&mut self) {
        if self.last.take().is_some() {
            note("\r\x1b[K");
        }
    }
}
