//! A process for each side: one that times the jobs of its side, and the end by which it is asked.
//!
//! The process reads lines. `job CALL BYTES MEMORY`, with the script's bytes behind it, makes a job, runs it
//! once, and is answered by the seconds that took and what the call counts. `go NUMBER` is answered by the
//! seconds of a run, by one round of that job. `clear` forgets all jobs, and is not answered.

use crate::inputs::Input;
use crate::sides::{Call, Counts, Job, Side};
use crate::timing::Timed;
use std::io::{self, BufRead, BufReader, Read, Write};
use std::process::{Child, ChildStdin, ChildStdout, Command, ExitCode, Stdio};
use std::time::Instant;

/// Serves a side until its input ends.
pub fn serve(side: Side) -> ExitCode {
    let mut input = io::stdin().lock();
    let mut jobs = Vec::new();
    let mut line = String::new();
    while input.read_line(&mut line).expect("a line comes") > 0 {
        match line.split_whitespace().collect::<Vec<_>>()[..] {
            ["job", call, bytes, memory] => {
                let mut script = vec![0; number(bytes)];
                input.read_exact(&mut script).expect("a script comes");
                let call = Call::of(call).expect("the call is known");
                jobs.push(begun(Job::new(side, call, script, number(memory))));
            }
            ["go", at] => println!("{:e}", jobs[number(at)].seconds()),
            ["clear"] => jobs.clear(),
            _ => panic!("{line} is no request"),
        }
        line.clear();
    }
    ExitCode::SUCCESS
}

fn number(word: &str) -> usize {
    word.parse().expect("a number comes")
}

/// Runs a job once, and says what came of it.
fn begun(mut job: Job) -> Timed {
    let start = Instant::now();
    let counts = job.run();
    let counts: String = counts.iter().map(|count| format!(" {count}")).collect();
    println!("{:e}{counts}", start.elapsed().as_secs_f64());
    Timed::new(job)
}

/// The process of a side, as it is asked.
pub struct Process {
    child: Child,
    requests: Option<ChildStdin>,
    answers: BufReader<ChildStdout>,
    jobs: usize,
}

impl Process {
    pub fn start(side: Side) -> Process {
        let program = std::env::current_exe().expect("the program has a name");
        let mut child = Command::new(program)
            .args(["--side", side.name()])
            .stdin(Stdio::piped())
            .stdout(Stdio::piped())
            .spawn()
            .expect("a process can be started");
        let requests = child.stdin.take();
        let answers = BufReader::new(child.stdout.take().expect("its output is a pipe"));
        Process { child, requests, answers, jobs: 0 }
    }

    /// Makes a job; answers its number, the seconds that its first run took, and what it counts.
    pub fn job(&mut self, call: Call, input: &Input) -> (usize, f64, Counts) {
        let head = format!("job {} {} {}\n", call.name(), input.script.len(), input.memory);
        self.send(head.as_bytes());
        self.send(&input.script);
        let answer = self.answer();
        let mut words = answer.split_whitespace();
        let seconds = words.next().expect("seconds come").parse().expect("seconds are a number");
        self.jobs += 1;
        (self.jobs - 1, seconds, words.map(|word| number(word) as u32).collect())
    }

    /// The seconds that a run of a job takes, by one more round.
    pub fn go(&mut self, job: usize) -> f64 {
        self.send(format!("go {job}\n").as_bytes());
        self.answer().trim().parse().expect("seconds are a number")
    }

    pub fn clear(&mut self) {
        self.send(b"clear\n");
        self.jobs = 0;
    }

    fn send(&mut self, bytes: &[u8]) {
        let requests = self.requests.as_mut().expect("the process runs");
        requests.write_all(bytes).expect("the process listens");
        requests.flush().expect("the process listens");
    }

    fn answer(&mut self) -> String {
        let mut line = String::new();
        self.answers.read_line(&mut line).expect("the process answers");
        assert!(!line.is_empty(), "a process ended");
        line
    }
}

impl Drop for Process {
    /// A process ends when its input does.
    fn drop(&mut self) {
        self.requests = None;
        let _ = self.child.wait();
    }
}
