//! The groups of the value call.

use super::repeat;
use crate::report::Report;
use crate::scripts::literals::{self, broken, long};
use crate::scripts::supplier::{script, Shape};
use crate::value::{check, MOST_DIGITS};

/// How much of each group a form has.
pub struct Form {
    /// Pairs of neighbouring doubles for each exponent.
    pub ties: usize,
    pub random: usize,
    pub full: usize,
    pub broken: usize,
}

pub const SHORT: Form = Form { ties: 90, random: 10_000, full: 10_000, broken: 10_000 };

pub const LONG: Form = Form { ties: 11_000, random: 500_000, full: 500_000, broken: 500_000 };

/// The length of bytes that are far too many.
const FAR: usize = 1_000_000;

pub fn run(report: &mut Report, form: &Form) {
    report.group("value: every literal of up to 4 digits, a point anywhere", |tally| {
        literals::every(4, |literal| tally.add(literal, check(literal)));
    });
    report.group("value: ties and near ties at every exponent", |tally| {
        literals::ties(form.ties, 41, |literal| tally.add(literal, check(literal)));
    });
    report.group("value: 1 to 19 digits", |tally| {
        repeat(tally, form.random, 42, &|random| long(random, 1, MOST_DIGITS), check);
    });
    report.group("value: 19, 20 and 21 digits, leading zeros counted", |tally| {
        repeat(tally, form.full, 43, &|random| long(random, 19, 21), check);
    });
    report.group("value: bytes that are mostly no literal", |tally| {
        repeat(tally, form.broken, 44, &broken, check);
        every_short(|bytes| tally.add(bytes, check(bytes)));
        for byte in [b'0', b'9', b'.', b' '] {
            let many = vec![byte; FAR];
            tally.add(&many, check(&many));
        }
    });
    report.group("value: the numbers of supplier-like scripts", |tally| {
        for shape in Shape::ALL {
            for literal in literals::of_script(&script(shape, 65_535, 6)) {
                tally.add(&literal, check(&literal));
            }
        }
    });
}

/// Nothing, and every one and two bytes.
fn every_short(mut take: impl FnMut(&[u8])) {
    take(b"");
    for first in 0..=255 {
        take(&[first]);
        (0..=255).for_each(|second| take(&[first, second]));
    }
}
