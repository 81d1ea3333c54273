//! Groups of scripts for the text call, beside those of the reading: scripts that are mostly read with the
//! flag down.

use super::checks::Checks;
use super::repeat;
use crate::report::Report;
use crate::scripts::phrases::{CORE, OPERATORS, SUFFIXES, WIDE};
use crate::scripts::short::every_phrase;
use crate::scripts::{grammar, limits, nesting, operations};
use crate::text::vectors;

/// How much of each group a form has.
pub struct Form {
    /// The most words in phrases of `WIDE`, `CORE`, `SUFFIXES` and `OPERATORS`.
    pub phrases: [usize; 4],
    /// The most nodes in expressions of which there is every one.
    pub operations: usize,
    /// How many random scripts that are sound each part has, how many parts there are, and how many random
    /// nestings.
    pub sound: usize,
    pub sound_parts: u64,
    pub nested: usize,
}

pub const SHORT: Form =
    Form { phrases: [2, 3, 4, 4], operations: 4, sound: 3_000, sound_parts: 1, nested: 60 };

pub const LONG: Form =
    Form { phrases: [4, 5, 6, 6], operations: 6, sound: 20_000, sound_parts: 10, nested: 3_000 };

/// What the random scripts of each group begin from.
const SEED: u64 = 11;

/// What stands round a phrase: names of each sort, and no name that is unknown.
const ROUND_EXPRESSION: [&str; 2] = ["var a; fn f(x) { } ", ";"];

pub fn run(report: &mut Report, form: &Form, checks: &Checks) {
    let check = |script: &[u8]| checks.script(script);
    report.group("text: worked cases", |tally| {
        for vector in vectors::VECTORS {
            let script = vector.0.as_bytes();
            let told = vectors::check(checks.calls.text, vector);
            tally.add(script, told.and_then(|()| check(script)));
        }
    });
    phrases(report, form, checks);
    report.group("text: every small expression, in all parentheses and in none", |tally| {
        operations::every(form.operations, |script| tally.add(script, check(script)));
    });
    for part in 1..=form.sound_parts {
        let name =
            format!("text: sound scripts by the grammar, part {part} of {}", form.sound_parts);
        report.group(&name, |tally| {
            repeat(tally, form.sound, SEED + part, &grammar::sound, check);
        });
    }
    report.group("text: sound nesting about the limit", |tally| {
        repeat(tally, form.nested, SEED, &nesting::sound, check);
    });
    report.group("text: texts deeper than their scripts", |tally| {
        nesting::deeper_texts(|script| tally.add(script, check(script)));
    });
    report.group("text: texts of about the greatest length", |tally| {
        limits::text_lengths(|script| tally.add(script, check(script)));
    });
}

/// Every short phrase with no unknown name behind it.
fn phrases(report: &mut Report, form: &Form, checks: &Checks) {
    let mut every = |name: &str, words: &[&str], longest: usize| {
        let name = format!("text: every phrase of up to {longest} of {} {name}", words.len());
        report.group(&name, |tally| {
            every_phrase(words, longest, ROUND_EXPRESSION, |script| {
                tally.add(script, checks.script(script))
            });
        });
    };
    let [wide, core, suffixes, operators] = form.phrases;
    every("tokens in expressions", &WIDE, wide);
    every("names, suffixes and groups", &CORE, core);
    every("suffixes", &SUFFIXES, suffixes);
    every("operators", &OPERATORS, operators);
}
