//! The harness finds what is wrong: a right answer that is altered in any one place, and text calls that
//! are wrong in the ways that reviewers name.

use super::trip::{Calls, Pairs};
use super::*;
use crate::host::{Arrays, TWIN_READING, TWIN_TEXT};
use crate::lent::altered;

/// Scripts with every sort of refusal, beside the worked cases.
const REFUSED: [&[u8]; 9] = [
    b"a",
    b"5 5;",
    b"var 1 = 2;",
    b"q; 1 1. // c",
    b"a // c",
    b"(1)(2);",
    b"(1+2).a;",
    b"a \xC3",
    b"fn f() {;} f(1,2);",
];

fn scripts() -> impl Iterator<Item = &'static [u8]> {
    vectors::VECTORS.iter().map(|(script, _)| script.as_bytes()).chain(REFUSED)
}

/// Runs a test on the right answer to every script with all usual arrays and buffers.
fn on_right_answers(mut test: impl FnMut(&Case, Called)) {
    for script in scripts().filter(|script| script.len() < 30) {
        let reading = reading::Case::new(script);
        let case = Case::new(&reading);
        for rooms in rooms::usual(&case) {
            let called = called(TWIN_TEXT, script, rooms);
            assert_eq!(case.judge(&called), Ok(()));
            test(&case, called);
        }
    }
}

#[test]
fn the_worked_texts_are_as_they_are_told() {
    for vector in vectors::VECTORS {
        let reading = reading::Case::new(vector.0.as_bytes());
        let told = vector.1.as_bytes().to_vec();
        assert_eq!(Case::new(&reading).text, Some(told), "{}", vector.0.escape_debug());
        let result = vectors::check(TWIN_TEXT, vector).and(check_all_rooms(TWIN_TEXT, &reading));
        assert_eq!(result, Ok(()), "{}", vector.0.escape_debug());
    }
}

#[test]
fn an_altered_element_byte_or_guard_is_found() {
    on_right_answers(|case, called| {
        let indices =
            |array: usize| (0..called.arrays[array].whole().len()).map(move |at| (array, at));
        for (array, at) in (0..7).flat_map(indices) {
            for wrong in altered(called.arrays[array].whole()[at]) {
                let mut called = called.clone();
                called.arrays[array].whole_mut()[at] = wrong;
                assert!(case.judge(&called).is_err(), "array {array} at {at}: {wrong}");
            }
        }
        for at in 0..called.text.whole().len() {
            let mut called = called.clone();
            called.text.whole_mut()[at] ^= 2;
            assert!(case.judge(&called).is_err(), "the byte at {at}");
        }
    });
}

#[test]
fn an_altered_answer_is_found() {
    let fields: [fn(&mut TextAnswer) -> &mut u32; 4] = [
        |answer| &mut answer.number,
        |answer| &mut answer.kind,
        |answer| &mut answer.offset,
        |answer| &mut answer.count,
    ];
    on_right_answers(|case, mut called| {
        for field in fields {
            let right = called.answer;
            for wrong in altered(*field(&mut called.answer)) {
                *field(&mut called.answer) = wrong;
                assert!(case.judge(&called).is_err(), "{:?}", called.answer);
            }
            called.answer = right;
        }
    });
}

/// The twin's text, rewritten: what it does not fit into is full.
fn rewritten(
    script: &[u8],
    mut arrays: Arrays<'_>,
    text: &mut [u8],
    rewrite: impl FnOnce(&[u8]) -> Vec<u8>,
) -> TextAnswer {
    let mut ample = vec![0; 1_000];
    let answer = TWIN_TEXT(script, lent_on(&mut arrays), &mut ample);
    if answer.number != 0 {
        return TWIN_TEXT(script, arrays, text);
    }
    let new = rewrite(&ample[..answer.count as usize]);
    if new.len() > text.len() {
        return full(arrays, text);
    }
    text.fill(0);
    text[..new.len()].copy_from_slice(&new);
    TextAnswer { count: new.len() as u32, ..answer }
}

fn lent_on<'a>(arrays: &'a mut Arrays<'_>) -> Arrays<'a> {
    let Arrays { offs, words, heads, loads, symbols, places, reasons } = arrays;
    Arrays { offs, words, heads, loads, symbols, places, reasons }
}

/// Refusal 11, as it should be.
fn full(arrays: Arrays<'_>, text: &mut [u8]) -> TextAnswer {
    let Arrays { offs, words, heads, loads, symbols, places, reasons } = arrays;
    for array in [offs, words, heads, loads, symbols, places, reasons] {
        array.fill(0);
    }
    text.fill(0);
    refusal(TEXT_FULL, 0, 0)
}

fn replaced(text: &[u8], from: &str, to: &str) -> Vec<u8> {
    String::from_utf8(text.to_vec()).unwrap().replace(from, to).into_bytes()
}

/// Text calls that are wrong, each in its own way.
const WRONG: [(&str, TextCall); 8] = [
    ("echo of the script", |script, arrays, text| {
        rewritten(script, arrays, text, |_| script.to_vec())
    }),
    ("dropped parenthesis", |script, arrays, text| {
        rewritten(script, arrays, text, |text| replaced(text, "( 1 + 2 )", "1 + 2"))
    }),
    ("needless parenthesis", |script, arrays, text| {
        rewritten(script, arrays, text, |text| replaced(text, "- 1 ;", "- ( 1 ) ;"))
    }),
    ("`return ;` not written", |script, arrays, text| {
        rewritten(script, arrays, text, |text| replaced(text, "return ; }", "}"))
    }),
    ("no newline at the end", |script, arrays, text| {
        rewritten(script, arrays, text, |text| text[..text.len().saturating_sub(1)].to_vec())
    }),
    ("full one byte early", |script, mut arrays, text| {
        let answer = TWIN_TEXT(script, lent_on(&mut arrays), text);
        if answer.number == 0 && answer.count as usize == text.len() {
            return full(arrays, text);
        }
        answer
    }),
    ("buffer not cleared after Flagged", |script, arrays, text| {
        let before = text.to_vec();
        let answer = TWIN_TEXT(script, arrays, text);
        if answer.number == FLAGGED {
            text.copy_from_slice(&before);
        }
        answer
    }),
    ("arrays not cleared after Flagged", |script, mut arrays, text| {
        let answer = TWIN_TEXT(script, lent_on(&mut arrays), text);
        if answer.number == FLAGGED {
            TWIN_READING(script, arrays);
        }
        answer
    }),
];

/// Whether the check of each script finds nothing.
fn passes(call: TextCall) -> bool {
    scripts().all(|script| check_case(call, &reading::Case::new(script)).is_ok())
}

/// Whether demand 3 holds on all scripts, by what the calls write alone.
fn demand_3_holds(text: TextCall) -> bool {
    let calls = Calls { reading: TWIN_READING, text };
    let mut pairs = Pairs::default();
    scripts().all(|script| {
        let case = reading::Case::new(script);
        let read = case.flag_down();
        read.is_none_or(|read| trip::check(calls, &case, read, &mut pairs).is_ok())
    })
}

#[test]
fn wrong_calls_are_found() {
    assert!(passes(TWIN_TEXT));
    for (name, call) in WRONG {
        assert!(!passes(call), "{name}");
    }
}

/// Demand 3 alone finds the first two. It cannot find parentheses that are always needless, or a
/// `return ;` that is never written: such texts too are equal exactly when trees are.
#[test]
fn demand_3_finds_an_echo_and_a_lost_parenthesis() {
    assert!(demand_3_holds(TWIN_TEXT));
    for (name, call) in &WRONG[..2] {
        assert!(!demand_3_holds(*call), "{name}");
    }
}

#[test]
fn a_text_that_is_too_deep_is_told_apart() {
    let script = format!("var a;{}1;", "-a.".repeat(110));
    let calls = Calls { reading: TWIN_READING, text: TWIN_TEXT };
    let ending = reference::run(|| {
        let case = reading::Case::new(script.as_bytes());
        let read = case.flag_down().expect("the script is read with the flag down");
        trip::check(calls, &case, read, &mut Pairs::default())
    });
    assert_eq!(ending, Ok("flag down, text too deep"));
}
