//! The tables: each call on scripts as suppliers write them, and on shapes that a reader can be slow at,
//! by the three sides in turn.

use crate::goals::{Bound, Goal};
use crate::inputs::{self, Input, MOST};
use crate::process::Process;
use crate::sides::{Call, Counts, Side};
use compare::host::OURS;
use std::time::{Duration, Instant};

/// How many rounds are timed; the least time of a job counts, which other work on the machine disturbs
/// least.
const ROUNDS: usize = 15;

/// A line of a table has this many rounds at the least, and ends when it has taken so long.
const LEAST_ROUNDS: usize = 3;
const LINE_TIME: Duration = Duration::from_secs(3);

/// The Rust is timed on the longest script of a shape that it is likely to read within a second: sizes
/// double as long as a run takes less than this.
const RUST_SECONDS: f64 = 0.2;
const RUST_SIZES: [usize; 5] = [4_096, 8_192, 16_384, 32_767, MOST];

const HEADING: &str = "\
Rates in MB/s (1 MB = 1,000,000 bytes), by the least time of all rounds. x Rust: how many times as fast as the Rust. x twin: how
many times the time of the plain twin. The Rust lexes by `Lexer::new` and `lex` until Eof, and reads by
`Parser::parse` over `Lexer::new` and `SymTab::new`, all built and dropped; it has no canonical text, and
stands there with its reading. Our calls and the twin's find their arrays as the call before left them,
each as long as a script of this size can need.";

const SHAPES_HEADING: &str = "\
Shapes that a reader can be slow at, of up to 65,535 bytes. at: the bytes on which the Rust is timed, fewer
where it would take long; x Rust is on these. doubling: how much more time twice the script takes.";

/// The processes of all sides, and the goals.
pub struct Bench {
    sides: [Process; 3],
    lexing: Goal,
    reading: Goal,
    never_slower: Goal,
    twin: Goal,
    doubling: Goal,
}

/// A job of a side.
#[derive(Clone, Copy)]
struct Asked {
    side: Side,
    number: usize,
    bytes: usize,
}

/// A job that was timed: the bytes of its script, and the seconds that a run takes.
#[derive(Clone, Copy)]
struct Time {
    bytes: usize,
    seconds: f64,
}

impl Time {
    /// MB/s.
    fn rate(self) -> f64 {
        self.bytes as f64 / self.seconds / 1e6
    }

    /// How many times as long as another job it takes for a byte.
    fn over(self, other: Time) -> f64 {
        other.rate() / self.rate()
    }
}

impl Bench {
    pub fn start() -> Bench {
        Bench {
            sides: Side::ALL.map(Process::start),
            lexing: Goal::new(
                "lexing at least 30 times as fast as the Rust, supplier-like scripts of 64 KB",
                Bound::AtLeast(30.0),
            ),
            reading: Goal::new(
                "reading at least 30 times as fast as the Rust, supplier-like scripts of 64 KB",
                Bound::AtLeast(30.0),
            ),
            never_slower: Goal::new("never slower than the Rust", Bound::AtLeast(1.0)),
            twin: Goal::new("at most 1.25 times the plain twin's time", Bound::AtMost(1.25)),
            doubling: Goal::new(
                "twice the script in at most 2.2 times the time",
                Bound::AtMost(2.2),
            ),
        }
    }

    /// Prints all tables.
    pub fn tables(&mut self) {
        println!("{HEADING}\nOur side: {OURS}.");
        for call in Call::ALL {
            println!("\n{} of scripts as suppliers write them", call.name());
            print!("{:<36}{:>7}{:>8}", "script", "bytes", counted(call));
            println!("{:>9}{:>9}{:>9}{:>8}{:>8}", "Rust", "ours", "twin", "x Rust", "x twin");
            inputs::suppliers().for_each(|input| self.supplier(call, &input));
            if call == Call::Reading {
                inputs::error_laden().for_each(|input| self.supplier(call, &input));
            }
            self.supplier(call, &inputs::tiny());
        }
        println!("\n{SHAPES_HEADING}");
        for call in Call::ALL {
            println!("\n{} of shapes", call.name());
            print!("{:<36}{:>7}{:>9}{:>9}{:>9}", "shape", "at", "Rust", "ours", "twin");
            println!("{:>8}{:>8}{:>10}{:>8}", "x Rust", "x twin", "doubling", "twin");
            let sized = inputs::worst(MOST).into_iter().zip(inputs::worst(MOST / 2));
            sized.enumerate().for_each(|(at, (whole, half))| self.shape(call, at, &whole, &half));
        }
    }

    /// Prints the verdicts; true if all goals are met.
    pub fn verdicts(&self) -> bool {
        let goals = [&self.lexing, &self.reading, &self.never_slower, &self.twin, &self.doubling];
        println!();
        goals.iter().for_each(|goal| println!("goal: {}", goal.verdict()));
        let met = goals.iter().filter(|goal| goal.is_met()).count();
        println!("bench: {met} goals met, {} missed", goals.len() - met);
        met == goals.len()
    }

    /// Times a supplier's script and prints its line.
    fn supplier(&mut self, call: Call, input: &Input) {
        let name = &input.name;
        let (jobs, counts): (Vec<Asked>, Vec<Counts>) =
            Side::ALL.map(|side| self.job(side, call, input)).into_iter().unzip();
        check_counts(name, &counts);
        let times = self.timed(&jobs);
        let [rust, ours, twin] = [0, 1, 2].map(|job| times[job]);
        print!("{name:<36}{:>7}{:>8}", rust.bytes, shown(call, &counts[1]));
        print!("{:>9.1}{:>9.1}{:>9.1}", rust.rate(), ours.rate(), twin.rate());
        println!("{:>8.1}{:>8.2}", rust.over(ours), ours.over(twin));
        self.see(call, name, rust.over(ours), ours.over(twin));
        if name.ends_with("-64K") {
            match call {
                Call::Lexing => self.lexing.see(rust.over(ours), name),
                Call::Reading => self.reading.see(rust.over(ours), name),
                Call::Text => (),
            }
        }
    }

    /// Times a shape and prints its line: ours and the twin on the whole script, on half of it and on what
    /// the Rust is timed on.
    fn shape(&mut self, call: Call, at: usize, whole: &Input, half: &Input) {
        let (rust, small, mut rust_counts) = self.rust_job(call, at);
        let mut jobs = vec![rust];
        for input in [&small, whole, half] {
            let (ours, twin) =
                (self.job(Side::Ours, call, input), self.job(Side::Twin, call, input));
            check_counts(&input.name, &[std::mem::take(&mut rust_counts), ours.1, twin.1]);
            jobs.extend([ours.0, twin.0]);
        }
        jobs[1..].rotate_left(2);
        if small.script == whole.script {
            jobs.truncate(5);
        }
        let times = self.timed(&jobs);
        let (rust, ours, twin) = (times[0], times[1], times[2]);
        let beside_rust = *times.get(5).unwrap_or(&ours);
        let doubling = [ours.over(times[3]), twin.over(times[4])].map(|growth| 2.0 * growth);
        let name = &whole.name;
        print!("{name:<36}{:>7}{:>9.1}", rust.bytes, rust.rate());
        print!("{:>9.1}{:>9.1}{:>8.1}", ours.rate(), twin.rate(), rust.over(beside_rust));
        println!("{:>8.2}{:>10.2}{:>8.2}", ours.over(twin), doubling[0], doubling[1]);
        self.see(call, name, rust.over(beside_rust), ours.over(twin));
        self.doubling.see(doubling[0], format!("{name}, {}", call.name()));
    }

    fn see(&mut self, call: Call, name: &str, by_rust: f64, by_twin: f64) {
        let of = format!("{name}, {}", call.name());
        self.never_slower.see(by_rust, of.clone());
        self.twin.see(by_twin, of);
    }

    /// The Rust's job on a shape, on the longest script that it reads soon enough, that script, and what it
    /// counts.
    fn rust_job(&mut self, call: Call, at: usize) -> (Asked, Input, Counts) {
        let mut found = None;
        for bytes in RUST_SIZES {
            let input = inputs::worst(bytes).swap_remove(at);
            let (number, seconds, counts) = self.sides[0].job(call, &input);
            let bytes = input.script.len();
            found = Some((Asked { side: Side::Rust, number, bytes }, input, counts));
            if seconds > RUST_SECONDS {
                break;
            }
        }
        found.expect("there is a size")
    }

    fn job(&mut self, side: Side, call: Call, input: &Input) -> (Asked, Counts) {
        let (number, _, counts) = self.sides[side as usize].job(call, input);
        (Asked { side, number, bytes: input.script.len() }, counts)
    }

    /// Times jobs in turn, so that a change in the machine's load meets all of them, and forgets them.
    fn timed(&mut self, jobs: &[Asked]) -> Vec<Time> {
        let time = |job: &Asked| Time { bytes: job.bytes, seconds: f64::INFINITY };
        let mut times: Vec<Time> = jobs.iter().map(time).collect();
        let start = Instant::now();
        for round in 0..ROUNDS {
            if round >= LEAST_ROUNDS && start.elapsed() > LINE_TIME {
                break;
            }
            for (job, time) in jobs.iter().zip(&mut times) {
                time.seconds = time.seconds.min(self.sides[job.side as usize].go(job.number));
            }
        }
        self.sides.iter_mut().for_each(Process::clear);
        times
    }
}

/// What is counted in the table.
fn counted(call: Call) -> &'static str {
    ["tokens", "nodes", "text"][call as usize]
}

fn shown(call: Call, counts: &Counts) -> u32 {
    match call {
        Call::Reading => counts[1],
        Call::Lexing | Call::Text => counts[0],
    }
}

/// All sides must count the same, where they count.
fn check_counts(name: &str, counts: &[Counts]) {
    for pair in counts.windows(2) {
        let both = pair[0].len().min(pair[1].len());
        assert_eq!(pair[0][..both], pair[1][..both], "the counts on {name}");
    }
}

#[cfg(test)]
mod tests {
    use super::*;

    #[test]
    fn ratios_are_for_each_byte() {
        let time = |bytes, seconds| Time { bytes, seconds };
        assert_eq!(time(2_000_000, 1.0).rate(), 2.0);
        assert_eq!(time(100, 2.0).over(time(100, 1.0)), 2.0);
        assert_eq!(time(200, 2.0).over(time(100, 1.0)), 1.0);
    }

    #[test]
    fn counts_that_differ_are_found() {
        check_counts("", &[vec![3], vec![3, 1], vec![3, 1]]);
        let differ = || check_counts("", &[vec![3], vec![3, 1], vec![3, 2]]);
        assert!(std::panic::catch_unwind(differ).is_err());
    }
}
