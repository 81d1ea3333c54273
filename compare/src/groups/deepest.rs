//! The groups of the deepest script of a length: the call, and the bound on the calls that are active.

use super::{repeat, Maker};
use crate::deepest::{check_bound, check_call, check_signs, LONGEST};
use crate::report::Report;
use crate::scripts::random::Random;
use crate::scripts::short::{self, ARMS};
use crate::scripts::{grammar, nesting, soup};

/// How much of each group a form has.
pub struct Form {
    /// Lengths of the exhaustive groups over all ASCII bytes and over `ARMS`.
    pub ascii_len: usize,
    pub arms_len: usize,
    pub random: usize,
}

pub const SHORT: Form = Form { ascii_len: 2, arms_len: 3, random: 20_000 };

pub const LONG: Form = Form { ascii_len: 3, arms_len: 4, random: 400_000 };

/// What the random scripts begin from.
const SEED: u64 = 14;

/// Words that nest, and a few that do not.
const WORDS: [&str; 16] =
    ["(", "(", "[", "{", ".", "=", "-", "!", "@", "a", "1", ")", "if 1{", "fn f(", "print(", "a["];

pub fn run(report: &mut Report, form: &Form) {
    report.group("deepest: every length up to 300, and buffers about it", |tally| {
        for n in (0..=300).chain([usize::MAX]) {
            let about = [0, n.saturating_sub(1), n, n.saturating_add(1), 256, 400];
            for room in about.into_iter().filter(|&room| room <= 400) {
                tally.add(format!("{n} bytes, a buffer of {room}").as_bytes(), check_call(n, room));
            }
        }
    });
    report.group("deepest: opening parentheses", |tally| {
        (1..=LONGEST + 10).for_each(|n| tally.add(b"(", check_bound(&vec![b'('; n])));
    });
    bounded(report, form);
}

/// That no script has more calls active than its length allows.
fn bounded(report: &mut Report, form: &Form) {
    let mut every = |name: &str, alphabet: &[u8], longest: usize| {
        let name = format!("deepest: every script of up to {longest} bytes over {name}");
        report.group(&name, |tally| {
            short::every(alphabet, longest, |script| tally.add(script, check_bound(script)));
        });
    };
    every("all ASCII bytes", &short::ascii(), form.ascii_len);
    every("bytes that reach every arm", ARMS, form.arms_len);
    report.group("deepest: random nestings of up to 255 bytes", |tally| {
        repeat(tally, form.random, SEED, &nested, check_bound);
    });
    let scripts: [(&str, usize, Maker); 3] = [
        ("token soup", form.random / 10, &soup::soup),
        ("scripts by the grammar", form.random / 10, &grammar::script),
        ("mixed nesting about the limit", form.random / 100, &nesting::mixed),
    ];
    for (name, count, make) in scripts {
        report.group(&format!("deepest: bytes that nest in {name}"), |tally| {
            repeat(tally, count, SEED, make, check_signs);
        });
    }
}

/// A script of at most 255 bytes that nests at random.
fn nested(random: &mut Random) -> Vec<u8> {
    let len = random.between(1, LONGEST);
    let mut script = String::new();
    while script.len() < len {
        script += random.pick(&WORDS);
    }
    script.truncate(len);
    script.into_bytes()
}
