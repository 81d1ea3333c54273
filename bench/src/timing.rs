//! Timing of a job.

use crate::sides::Job;
use std::hint::black_box;
use std::time::{Duration, Instant};

/// The least time that a job gets in a round: a short one is repeated.
const JOB_TIME: Duration = Duration::from_millis(2);

/// How many runs fill the time of a round. To find that out takes runs, which warm the job up.
pub fn filling(mut run: impl FnMut()) -> u32 {
    let mut repeats = 1;
    while seconds(repeats, &mut run) * f64::from(repeats) < JOB_TIME.as_secs_f64() {
        repeats *= 2;
    }
    repeats
}

/// The seconds that a run takes, by so many of them.
pub fn seconds(repeats: u32, mut run: impl FnMut()) -> f64 {
    let start = Instant::now();
    (0..repeats).for_each(|_| run());
    start.elapsed().as_secs_f64() / f64::from(repeats)
}

/// A job, and how often a round repeats it, once that is known.
pub struct Timed {
    job: Job,
    repeats: Option<u32>,
}

impl Timed {
    pub fn new(job: Job) -> Timed {
        Timed { job, repeats: None }
    }

    /// The seconds that one run takes, by one round. The first round begins with runs that warm the job up.
    pub fn seconds(&mut self) -> f64 {
        let mut run = || drop(black_box(self.job.run()));
        let repeats = *self.repeats.get_or_insert_with(|| filling(&mut run));
        seconds(repeats, run)
    }
}

#[cfg(test)]
mod tests {
    use super::*;
    use crate::sides::{Call, Side};

    #[test]
    fn a_job_fills_its_time() {
        let script = b"var a = 1;".to_vec();
        let mut timed = Timed::new(Job::new(Side::Twin, Call::Reading, script, 10));
        assert!(timed.seconds() > 0.0);
        assert!(timed.repeats > Some(1));
    }
}
