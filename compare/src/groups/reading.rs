//! The groups of scripts on which the reading call is compared; the text call is checked on them too.

use super::checks::Checks;
use super::{repeat, Maker};
use crate::reading::vectors;
use crate::report::Report;
use crate::scripts::phrases::{
    BRACKETS, CORE, FEWER_PARTS, OPERATORS, PARTS, ROUND_EXPRESSION, SUFFIXES, WIDE,
};
use crate::scripts::short::{self, every_phrase, ARMS};
use crate::scripts::{damaged, grammar, limits, nesting, shapes, soup};

/// How much of each group a form has.
pub struct Form {
    /// The most words in phrases of `WIDE`, `CORE`, `SUFFIXES`, `BRACKETS`, `OPERATORS`, `PARTS` and
    /// `FEWER_PARTS`.
    pub phrases: [usize; 7],
    /// The most bytes in scripts over `ARMS`.
    pub arms_len: usize,
    pub random: usize,
    pub large: usize,
    /// How many random nestings there are, and whether most of the fixed ones are left out.
    pub nested: usize,
    pub few_nested: bool,
    /// The size of scripts of shapes that take time.
    pub shape_bytes: usize,
    /// How many random scripts are read with rooms of every size.
    pub all_rooms: usize,
}

pub const SHORT: Form = Form {
    phrases: [3, 4, 6, 5, 5, 2, 3],
    arms_len: 2,
    random: 6_000,
    large: 5,
    nested: 100,
    few_nested: true,
    shape_bytes: 2_500,
    all_rooms: 100,
};

pub const LONG: Form = Form {
    phrases: [4, 6, 7, 7, 7, 4, 5],
    arms_len: 3,
    random: 200_000,
    large: 100,
    nested: 4_000,
    few_nested: false,
    shape_bytes: 8_000,
    all_rooms: 3_000,
};

/// What the random scripts of each group begin from.
const SEED: u64 = 7;

/// The sizes of scripts by suppliers.
const DAMAGED_BYTES: usize = 700;
const LARGE_BYTES: usize = 30_000;

pub fn run(report: &mut Report, form: &Form, checks: &Checks) {
    report.group("reading: worked cases", |tally| {
        for vector in vectors::VECTORS {
            let told = vectors::check(checks.calls.reading, vector);
            tally.add(vector.0, told.and_then(|()| checks.script(vector.0)));
        }
    });
    phrases(report, form, checks);
    random_scripts(report, form, checks);
    at_limits(report, form, checks);
}

/// Every short phrase over reduced alphabets.
fn phrases(report: &mut Report, form: &Form, checks: &Checks) {
    let mut every = |name: &str, words: &[&str], round: [&str; 2], longest: usize| {
        let name = format!("reading: every phrase of up to {longest} of {} {name}", words.len());
        report.group(&name, |tally| {
            every_phrase(words, longest, round, |script| tally.add(script, checks.script(script)));
        });
    };
    let [wide, core, suffixes, brackets, operators, parts, fewer_parts] = form.phrases;
    every("tokens in expressions", &WIDE, ROUND_EXPRESSION, wide);
    every("names, suffixes and groups", &CORE, ROUND_EXPRESSION, core);
    every("suffixes", &SUFFIXES, ROUND_EXPRESSION, suffixes);
    every("brackets", &BRACKETS, ROUND_EXPRESSION, brackets);
    every("operators", &OPERATORS, ["", ";"], operators);
    every("parts of statements", &PARTS, ["", ""], parts);
    every("parts of statements, fewer", &FEWER_PARTS, ["", ""], fewer_parts);
    report.group("reading: every short script over bytes that reach every arm", |tally| {
        short::every(ARMS, form.arms_len, |script| tally.add(script, checks.script(script)));
    });
}

fn random_scripts(report: &mut Report, form: &Form, checks: &Checks) {
    let mut group = |name: &str, count: usize, make: Maker| {
        report.group(&format!("reading: {name}"), |tally| {
            repeat(tally, count, SEED, make, |script| checks.script(script));
        });
    };
    group("scripts by the grammar", form.random, &grammar::script);
    group("the same with words changed", form.random, &grammar::mutated);
    group("the same with bytes changed", form.random, &|random| {
        let mut script = grammar::script(random);
        damaged::damage_some(&mut script, random);
        script
    });
    group("token soup", form.random, &soup::soup);
    group("damaged scripts", form.random / 4, &|random| damaged::damaged(random, DAMAGED_BYTES));
    group("damaged large scripts", form.large, &|random| damaged::damaged(random, LARGE_BYTES));
    group("mixed nesting about the limit", form.nested, &nesting::mixed);
    report.group("reading: arrays of every small size", |tally| {
        let check = |script: &[u8]| checks.all_rooms(script);
        limits::SMALL.iter().for_each(|script| tally.add(script, check(script)));
        vectors::VECTORS.iter().for_each(|(script, ..)| tally.add(script, check(script)));
        repeat(tally, form.all_rooms, SEED, &grammar::mutated, check);
    });
}

fn at_limits(report: &mut Report, form: &Form, checks: &Checks) {
    let check = |script: &[u8]| checks.script(script);
    report.group("reading: nesting about the limit", |tally| {
        nesting::around_limit(form.few_nested, |script| tally.add(script, check(script)));
    });
    report.group("reading: nesting far too deep", |tally| {
        nesting::far_too_deep(|script| tally.add(script, check(script)));
    });
    report.group("reading: parameters and arguments about the limit", |tally| {
        limits::params(|script| tally.add(script, check(script)));
    });
    report.group("reading: shapes that take time", |tally| {
        for (_, script) in shapes::all(form.shape_bytes) {
            tally.add(&script, check(&script));
        }
    });
    report.group("reading: greatest length, just under and over it", |tally| {
        limits::lengths(|script| tally.add(script, check(script)));
    });
    report.group("reading: bytes of 128 and more", |tally| {
        limits::not_ascii(|script| tally.add(script, check(script)));
    });
}
