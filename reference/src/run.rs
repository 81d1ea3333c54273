//! Runs the reference as document 01 says: on a stack of 256 MiB.

use std::thread::{scope, Builder};

/// The stack that document 01 gives the reference.
const STACK_BYTES: usize = 256 << 20;

/// Runs a job on the reference's stack. A job that panics ends the process.
pub fn run<R: Send>(job: impl FnOnce() -> R + Send) -> R {
    scope(|threads| {
        let thread = Builder::new().stack_size(STACK_BYTES).spawn_scoped(threads, job);
        thread.expect("a thread can be started").join()
    })
    .unwrap_or_else(|_| std::process::exit(2))
}
