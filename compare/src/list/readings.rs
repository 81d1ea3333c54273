//! The scripts whose readings are replayed.

use crate::reading::vectors::VECTORS;
use crate::scripts::phrases::{CORE, FEWER_PARTS, PARTS, ROUND_EXPRESSION, SUFFIXES};
use crate::scripts::random::Random;
use crate::scripts::short::every_phrase;
use crate::scripts::soup::soup;
use crate::scripts::supplier::{self, Shape};
use crate::scripts::{damaged, grammar, limits};

/// How many random scripts of each sort the list has, and their greatest length.
const RANDOM: usize = 120;
const RANDOM_BYTES: usize = 250;
const SUPPLIER_BYTES: usize = 1_500;

/// The longest script of the listing program.
const MOST: usize = 4_096;

pub fn scripts() -> Vec<Vec<u8>> {
    let mut scripts = at_limits();
    scripts.extend(VECTORS.iter().map(|(script, ..)| script.to_vec()));
    scripts.extend(limits::SMALL.map(Vec::from));
    scripts.extend(phrases());
    scripts.extend(random());
    scripts.extend(Shape::ALL.map(|shape| supplier::script(shape, SUPPLIER_BYTES, 9)));
    scripts
}

/// Every refusal that the listing program can give, and scripts that it only just reads: spaces,
/// tokens and nodes, names, errors, nesting, arguments.
fn at_limits() -> Vec<Vec<u8>> {
    let nested = |count: usize| format!("{}1{};", "(".repeat(count), ")".repeat(count));
    let called = |count: usize| format!("print({});", "1,".repeat(count));
    let declared = |count: usize| format!("fn f({}){{}}", "a,".repeat(count));
    vec![
        vec![b' '; MOST],
        vec![b' '; MOST + 1],
        vec![b'('; 255],
        vec![b'('; 256],
        nested(255).into(),
        nested(256).into(),
        vec![b'{'; 768],
        vec![b'{'; 769],
        [&[b'-'; 765][..], b"1;"].concat(),
        [&[b'-'; 766][..], b"1;"].concat(),
        vec![b';'; 1_024],
        vec![b';'; 1_025],
        called(64).into(),
        called(65).into(),
        declared(64).into(),
        declared(65).into(),
        format!("1{};", "+1".repeat((MOST - 2) / 2)).into(),
        names().into(),
        b"\x80".to_vec(),
        b"1 // c\n \xff\x80".to_vec(),
    ]
}

/// As many names as fit.
fn names() -> String {
    let name = |number: usize| {
        let letter = |digit: usize| char::from(b'a' + (digit % 26) as u8);
        [letter(number / 26), letter(number)].into_iter().collect::<String>()
    };
    let all = (0..26 * 26).map(|number| format!("var {};", name(number)));
    all.take(MOST / 7).collect()
}

fn phrases() -> Vec<Vec<u8>> {
    let mut scripts = Vec::new();
    let mut every = |words: &[&str], longest: usize, round: [&str; 2]| {
        every_phrase(words, longest, round, |script| scripts.push(script.to_vec()));
    };
    every(&CORE, 2, ROUND_EXPRESSION);
    every(&SUFFIXES, 3, ROUND_EXPRESSION);
    every(&PARTS, 1, ["", ""]);
    every(&FEWER_PARTS, 2, ["", ""]);
    scripts
}

fn random() -> Vec<Vec<u8>> {
    let mut random = Random::new(10);
    let mut scripts = Vec::new();
    while scripts.len() < 5 * RANDOM {
        let made = match scripts.len() % 5 {
            0 => grammar::script(&mut random),
            1 | 2 => grammar::mutated(&mut random),
            3 => damaged::damaged(&mut random, RANDOM_BYTES),
            _ => soup(&mut random),
        };
        if made.len() <= RANDOM_BYTES {
            scripts.push(made);
        }
    }
    scripts
}

#[cfg(test)]
mod tests {
    use crate::list::READINGS;

    /// The bytes that the program has for the list.
    const BUFFER: usize = 131_072;

    #[test]
    fn the_list_has_every_refusal_and_fits() {
        let list = READINGS.made();
        assert!(list.scripts >= 1_000, "{} scripts", list.scripts);
        assert!(list.stdin.len() < BUFFER, "{} bytes", list.stdin.len());
        let answers = String::from_utf8(list.stdout).unwrap();
        let has = |start: &str| answers.lines().any(|line| line.starts_with(start));
        for refusal in ["1", "2", "5 1", "5 2", "5 3", "5 4", "5 5", "6", "9"] {
            assert!(has(&format!("refused {refusal} ")), "refusal {refusal}");
        }
    }
}
