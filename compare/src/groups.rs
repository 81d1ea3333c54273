//! The groups of scripts that a run goes through, in the short and in the long form.

mod checks;
mod deepest;
mod reading;
mod text;
mod value;

use crate::archive::{told, IS_NAMED};
use crate::host::OURS;
use crate::report::{Report, Tally};
use crate::scripts::random::Random;
use crate::scripts::short::{self, ARMS, FEWER};
use crate::scripts::{damaged, limits, soup};
use crate::tokens::{check_all_rooms, check_script};
use checks::Checks;

/// How much of each group a form has.
pub struct Form {
    /// Lengths of the exhaustive groups over all ASCII bytes, over `ARMS` and over `FEWER`.
    pub ascii_len: usize,
    pub arms_len: usize,
    pub fewer_len: usize,
    pub soups: usize,
    pub damaged: usize,
    pub damaged_large: usize,
    pub reading: reading::Form,
    pub text: text::Form,
    pub deepest: deepest::Form,
    pub value: value::Form,
}

pub const SHORT: Form = Form {
    ascii_len: 2,
    arms_len: 4,
    fewer_len: 5,
    soups: 40_000,
    damaged: 20_000,
    damaged_large: 40,
    reading: reading::SHORT,
    text: text::SHORT,
    deepest: deepest::SHORT,
    value: value::SHORT,
};

pub const LONG: Form = Form {
    ascii_len: 3,
    arms_len: 4,
    fewer_len: 6,
    soups: 1_000_000,
    damaged: 500_000,
    damaged_large: 2_000,
    reading: reading::LONG,
    text: text::LONG,
    deepest: deepest::LONG,
    value: value::LONG,
};

/// The sizes of damaged scripts.
const DAMAGED_BYTES: usize = 900;
const DAMAGED_LARGE_BYTES: usize = 65_000;

/// What a run goes through.
#[derive(Default)]
pub struct Run {
    pub is_long: bool,
    /// Whether the plain twin is compared; then the tokens and the value call are left out.
    pub is_twin: bool,
    /// What the names of its groups have in them.
    pub only: String,
}

/// Runs the groups of all calls; true if nothing failed.
pub fn run(run: Run) -> bool {
    let form = if run.is_long { &LONG } else { &SHORT };
    let mut report = Report::only(run.only);
    if run.is_twin {
        println!("our side: the plain twin");
        walk(&mut report, form, &Checks::of_twin());
        return report.finish();
    }
    let named = if IS_NAMED { ", named by SIF_LIB_DIR" } else { "" };
    println!("our side: {OURS}{named}");
    match told() {
        Ok(archive) => println!("{archive}"),
        Err(fault) => {
            println!("compare: {fault}");
            return false;
        }
    }
    tokens(&mut report, form);
    value::run(&mut report, &form.value);
    walk(&mut report, form, &Checks::of_library());
    deepest::run(&mut report, &form.deepest);
    report.finish()
}

/// The groups of the reading and the text call. Both are checked on every script of either.
fn walk(report: &mut Report, form: &Form, checks: &Checks) {
    reading::run(report, &form.reading, checks);
    text::run(report, &form.text, checks);
    checks.tell();
}

/// The groups of the tokens call.
fn tokens(report: &mut Report, form: &Form) {
    short_scripts(report, form);
    random_scripts(report, form);
    report.group("greatest length, just under and over it", |tally| {
        limits::lengths(|script| tally.add(script, check_script(script)));
    });
    report.group("bytes of 128 and more", |tally| {
        limits::not_ascii(|script| tally.add(script, check_script(script)));
    });
    report.group("arrays of every small length, and long ones", |tally| {
        limits::SMALL.iter().for_each(|script| tally.add(script, check_all_rooms(script)));
    });
}

fn short_scripts(report: &mut Report, form: &Form) {
    let mut every = |name: &str, alphabet: &[u8], longest: usize| {
        let name =
            format!("every script of up to {longest} bytes over {name} ({})", alphabet.len());
        report.group(&name, |tally| {
            short::every(alphabet, longest, |script| tally.add(script, check_script(script)));
        });
    };
    every("all ASCII bytes", &short::ascii(), form.ascii_len);
    every("bytes that reach every arm", ARMS, form.arms_len);
    every("fewer of these", FEWER, form.fewer_len);
}

fn random_scripts(report: &mut Report, form: &Form) {
    let mut group = |name: &str, count: usize, seed: u64, make: Maker| {
        report.group(name, |tally| repeat(tally, count, seed, make, check_script));
    };
    group("token soup", form.soups, 1, &soup::soup);
    group("damaged scripts", form.damaged, 2, &|random| damaged::damaged(random, DAMAGED_BYTES));
    group("damaged large scripts", form.damaged_large, 3, &|random| {
        damaged::damaged(random, DAMAGED_LARGE_BYTES)
    });
}

/// What makes a random script.
type Maker<'a> = &'a dyn Fn(&mut Random) -> Vec<u8>;

/// Makes and checks a number of scripts from one seed.
fn repeat(
    tally: &mut Tally,
    count: usize,
    seed: u64,
    make: Maker,
    check: impl Fn(&[u8]) -> Result<&'static str, String>,
) {
    let mut random = Random::new(seed);
    for _ in 0..count {
        let script = make(&mut random);
        tally.add(&script, check(&script));
    }
}
