//! The stack of a call. A reading recurses as its script nests, and takes up to 2.4 MB: more than the
//! 2 MiB that a Rust thread has by default.
//!
//! How much a script can take goes by how many of the parser's counted calls can be active at once. In a
//! script in which n of the bytes of [`opens`] stand that is at most [`depth`] of n: proved
//! (`none-deeper-signs`, docs/PROOFS.md), and reached by [`deepest`](crate::deepest). A script in which few
//! calls can be active is read on the caller's stack. Any other is read on a thread of its own, with room
//! for the deepest that is read.

use std::thread::{scope, Builder};

/// The bytes that nest: blocks, groups, calls and indices, table accesses, assignments, unary operators,
/// and `@` (`opens` of sifc_deepest/specs/Signs.antt). In comments, strings and numbers they are counted
/// too, which only makes a thread more often.
fn opens(byte: u8) -> bool {
    matches!(byte, b'{' | b'(' | b'[' | b'.' | b'=' | b'-' | b'!' | b'@')
}

/// The limit of refusal 6: so many counted calls are active at most.
const MOST: usize = 768;

/// The most counted calls that are active at once where so many bytes nest.
pub const fn depth(bytes: usize) -> usize {
    if bytes < 255 {
        3 * bytes + 3
    } else {
        MOST
    }
}

/// With at most so many opening bytes a call takes less than half a megabyte of stack (tests/stack.rs).
pub const FEW: usize = 64;

/// The stack of a thread of its own, in bytes. It is reserved and not used: a page counts once it is touched.
const STACK: usize = 8 << 20;

/// Runs a call on a script with enough stack.
///
/// # Panics
///
/// Where the system gives no thread.
pub fn with_room<T: Send>(script: &[u8], call: impl FnOnce() -> T + Send) -> T {
    if !nests(script) {
        return call();
    }
    scope(|scope| {
        let thread = Builder::new().name("sif".to_string()).stack_size(STACK);
        let thread = thread.spawn_scoped(scope, call).expect("a thread for the reading");
        thread.join().expect("the calls do not panic")
    })
}

/// Whether more counted calls may be active in a script than half a megabyte has room for. One that is
/// too long is refused at entry.
fn nests(script: &[u8]) -> bool {
    let opening = script.iter().filter(|byte| opens(**byte)).take(FEW + 1);
    script.len() > FEW && depth(opening.count()) > depth(FEW)
}

#[cfg(test)]
mod tests {
    use super::*;
    use std::thread;

    #[test]
    fn the_depth_is_that_of_the_deepest_script() {
        for n in 1..=255 {
            assert_eq!(crate::deepest(n).unwrap().depth, depth(n));
        }
        assert_eq!((depth(0), depth(256), depth(1 << 40)), (3, MOST, MOST));
    }

    #[test]
    fn few_opening_bytes_stay_on_the_callers_thread() {
        let here = thread::current().id();
        for byte in (0..128).filter(|byte| opens(*byte)) {
            let few = vec![byte; FEW];
            assert_eq!(with_room(&few, || thread::current().id()), here);
            let many = vec![byte; FEW + 1];
            assert_ne!(with_room(&many, || thread::current().id()), here);
        }
    }
}
