//! Measures the stack that a reading and a text call take: each runs in a thread whose stack lies in memory
//! of ours, which is full of a pattern beforehand.

use crate::sides::{Call, Job, Side};
use compare::host::deepest;
use compare::scripts::nesting;
use std::ffi::{c_int, c_void};

/// What fills the stack beforehand, and its length in words.
const PATTERN: u64 = 0xA5A5_5A5A_A5A5_5A5A;
const STACK_WORDS: usize = 1 << 20;

/// A shown script ends after this many bytes.
const SHOWN_BYTES: usize = 30;

/// Enough for `pthread_attr_t` on 64-bit Linux.
#[repr(C, align(16))]
struct Attributes([u8; 64]);

extern "C" {
    fn pthread_attr_init(attributes: *mut Attributes) -> c_int;
    fn pthread_attr_setstack(attributes: *mut Attributes, at: *mut c_void, len: usize) -> c_int;
    fn pthread_create(
        thread: *mut usize,
        attributes: *const Attributes,
        start: extern "C" fn(*mut c_void) -> *mut c_void,
        argument: *mut c_void,
    ) -> c_int;
    fn pthread_join(thread: usize, result: *mut *mut c_void) -> c_int;
}

/// Prints the most stack that each call takes on scripts that nest as deep as is read, and deeper.
pub fn measure_all() {
    println!("The most stack that a call takes, in bytes, on scripts nested about the limit.");
    for call in [Call::Reading, Call::Text] {
        for side in [Side::Ours, Side::Twin] {
            let mut most = (0, String::new());
            nesting::around_limit(false, |script| {
                most = (taken(side, call, script), shown(script)).max(most.clone())
            });
            println!("{}, {}: {}, on {}..", call.name(), side.name(), most.0, most.1);
        }
    }
    measure_deepest();
}

/// The lengths of the deepest scripts that are measured.
const LENGTHS: [usize; 9] = [1, 2, 4, 8, 16, 32, 64, 128, 255];

/// Prints the stack of a reading of the deepest script of some lengths, how much that is for each of the calls
/// that are active, and the most that any way to nest takes in as many bytes.
fn measure_deepest() {
    println!("The stack of a reading of the deepest script of n bytes: n, calls, bytes, bytes for a call;");
    println!("and the most that a script of n bytes takes that nests in one of 16 ways.");
    for n in LENGTHS {
        let mut script = vec![0; n];
        let (_, calls) = deepest(n, &mut script);
        let bytes = taken(Side::Ours, Call::Reading, &script);
        let mut most = (0, String::new());
        nesting::in_bytes(n, |script| {
            most = (taken(Side::Ours, Call::Reading, script), shown(script)).max(most.clone())
        });
        println!("{n} {calls} {bytes} {}; {}, on {}", bytes.div_ceil(calls), most.0, most.1);
    }
}

/// How a script begins.
fn shown(script: &[u8]) -> String {
    script[..script.len().min(SHOWN_BYTES)].escape_ascii().to_string()
}

/// The bytes that a call takes beyond those of a thread that does nothing.
fn taken(side: Side, call: Call, script: &[u8]) -> usize {
    let job = Job::new(side, call, script.to_vec(), script.len());
    used(Some(job)) - used(None)
}

/// The bytes of the stack that a thread with this job, or none, has written to.
fn used(mut job: Option<Job>) -> usize {
    let mut stack = vec![PATTERN; STACK_WORDS];
    let mut attributes = Attributes([0; 64]);
    let mut thread = 0;
    // SAFETY: the stack and the job outlive the thread, which has ended before either is looked at.
    unsafe {
        assert_eq!(pthread_attr_init(&mut attributes), 0);
        let (at, len) = (stack.as_mut_ptr().cast(), 8 * STACK_WORDS);
        assert_eq!(pthread_attr_setstack(&mut attributes, at, len), 0);
        let job: *mut Option<Job> = &mut job;
        assert_eq!(pthread_create(&mut thread, &attributes, start, job.cast()), 0);
        assert_eq!(pthread_join(thread, std::ptr::null_mut()), 0);
    }
    let untouched = stack.iter().position(|&word| word != PATTERN).unwrap_or(STACK_WORDS);
    assert!(untouched > 0, "the stack is too short");
    8 * (STACK_WORDS - untouched)
}

extern "C" fn start(job: *mut c_void) -> *mut c_void {
    // SAFETY: `used` hands over its job, and waits for the end of the thread.
    if let Some(job) = unsafe { &mut *job.cast::<Option<Job>>() } {
        job.run();
    }
    std::ptr::null_mut()
}
