//! The value call beside `str::parse::<f64>`, on the same literals in one process.

use crate::goals::{Bound, Goal};
use compare::host;
use compare::scripts::literals::{self, long, of_script};
use compare::scripts::random::Random;
use compare::scripts::supplier::{script, Shape};
use std::hint::black_box;
use std::time::Instant;

/// How many rounds are timed; the least time of each side counts.
const ROUNDS: usize = 200;

/// About how many literals a round goes through.
const CALLS: usize = 30_000;

/// The literals of a line.
const LITERALS: usize = 1_000;

/// Literals that have a line of their own: short ones, and those of the longest ways.
const SINGLE: [&str; 8] = [
    "0",
    "0.25",
    "4.125",
    "20271231",
    "0.000000000000000001",
    "9007199254740993.001",
    "0.900719925474099301",
    "36.028797018963968",
];

const HEADING: &str = "\
Values: nanoseconds for a literal, by the least time of all rounds, both sides in turn in one process. times: our time
over that of `str::parse::<f64>`.";

/// Prints the table and whether its goals are met; true if they are.
pub fn table() -> bool {
    let mut short = Goal::new(
        "values: no slower than str::parse on the numbers of supplier-like scripts, 1 to 8 digits",
        Bound::AtMost(1.0),
    );
    let mut most =
        Goal::new("values: at most 4 times str::parse on any literal", Bound::AtMost(4.0));
    println!("{HEADING}\n{:<44}{:>8}{:>8}{:>8}", "literals", "parse", "ours", "times");
    let lines = lines();
    for (Line { name, is_supplier, .. }, [rust, ours]) in lines.iter().zip(timed(&lines)) {
        println!("{name:<44}{rust:>8.1}{ours:>8.1}{:>8.2}", ours / rust);
        if *is_supplier {
            short.see(ours / rust, name);
        }
        most.see(ours / rust, name);
    }
    [&short, &most].iter().for_each(|goal| println!("goal: {}", goal.verdict()));
    short.is_met() && most.is_met()
}

/// A line of the table: name, literals, and whether they are those of supplier-like scripts.
struct Line {
    name: String,
    literals: Vec<String>,
    is_supplier: bool,
}

fn line(name: impl Into<String>, literals: Vec<String>, is_supplier: bool) -> Line {
    Line { name: name.into(), literals, is_supplier }
}

fn lines() -> Vec<Line> {
    let mut lines = supplier_lines();
    let mut random = Random::new(7);
    for digits in [1, 4, 8, 12, 15, 16, 17, 18, 19] {
        let some = (0..LITERALS).map(|_| text(long(&mut random, digits, digits))).collect();
        lines.push(line(format!("random, {digits} digits"), some, false));
    }
    let mut ties = Vec::new();
    literals::ties(8, 3, |literal| ties.push(text(literal.to_vec())));
    lines.push(line("ties and near ties, every exponent", ties, false));
    lines.extend(SINGLE.map(|one| line(one, vec![one.to_string(); LITERALS], false)));
    lines
}

/// All numbers of each shape of scripts, and those of all shapes with so many digits.
fn supplier_lines() -> Vec<Line> {
    let mut lines =
        Vec::from(Shape::ALL.map(|shape| line(format!("{shape:?}"), numbers(shape), true)));
    let all: Vec<String> = lines.iter().flat_map(|line| line.literals.clone()).collect();
    for digits in 1..=8 {
        let some =
            all.iter().filter(|literal| count(literal) == digits).cloned().collect::<Vec<_>>();
        if !some.is_empty() {
            lines.push(line(format!("of these, {digits} digits"), some, true));
        }
    }
    lines
}

fn count(literal: &str) -> usize {
    literal.bytes().filter(u8::is_ascii_digit).count()
}

fn numbers(shape: Shape) -> Vec<String> {
    of_script(&script(shape, 65_535, 6)).into_iter().map(text).collect()
}

fn text(literal: Vec<u8>) -> String {
    String::from_utf8(literal).expect("digits and a point")
}

/// Nanoseconds for a literal of each line: by `str::parse`, and by our call. A round goes over all lines, so
/// that a change in the machine's load meets all of them.
fn timed(lines: &[Line]) -> Vec<[f64; 2]> {
    let mut least = vec![[f64::INFINITY; 2]; lines.len()];
    for _ in 0..ROUNDS {
        for (Line { literals, .. }, [rust, ours]) in lines.iter().zip(&mut least) {
            *rust = rust.min(round(literals, |literal| literal.parse().unwrap_or(0.0)));
            *ours = ours.min(round(literals, |literal| host::value(literal.as_bytes()).1));
        }
    }
    least
}

fn round(literals: &[String], value: impl Fn(&str) -> f64) -> f64 {
    let repeats = CALLS.div_ceil(literals.len());
    let start = Instant::now();
    for _ in 0..repeats {
        for literal in literals {
            black_box(value(black_box(literal)));
        }
    }
    start.elapsed().as_secs_f64() * 1e9 / (repeats * literals.len()) as f64
}
