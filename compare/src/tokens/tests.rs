//! The harness finds what is wrong: a right answer that is altered in any one place is a difference.

use super::*;
use crate::lent::altered;
use crate::scripts::limits::SMALL;

/// A call's answer and its two arrays after it, to be altered.
#[derive(Clone)]
struct Call {
    answer: Answer,
    arrays: [Lent; 2],
}

impl Call {
    fn made(case: &Case, rooms: Rooms) -> Call {
        let mut offs = Lent::new(rooms.offs, 2);
        let mut words = Lent::new(rooms.words, 4);
        let answer = host::tokens(case.script, offs.elements_mut(), words.elements_mut());
        let arrays = [offs, words];
        Call { answer, arrays }
    }

    fn judged(&self, case: &Case) -> Result<(), String> {
        case.judge(self.answer, &self.arrays[0], &self.arrays[1])
    }
}

/// Runs a test on the right answer to every small script with all usual arrays.
fn on_right_answers(mut test: impl FnMut(&Case, Call)) {
    for script in SMALL {
        let case = Case::new(script);
        for rooms in case.usual_rooms() {
            let call = Call::made(&case, rooms);
            assert_eq!(call.judged(&case), Ok(()));
            test(&case, call);
        }
    }
}

#[test]
fn an_altered_element_or_guard_is_found() {
    on_right_answers(|case, call| {
        let indices =
            |array: usize| (0..call.arrays[array].whole().len()).map(move |at| (array, at));
        for (array, at) in indices(0).chain(indices(1)) {
            for wrong in altered(call.arrays[array].whole()[at]) {
                let mut call = call.clone();
                call.arrays[array].whole_mut()[at] = wrong;
                assert!(call.judged(case).is_err(), "array {array} at {at}: {wrong}");
            }
        }
    });
}

#[test]
fn an_altered_answer_is_found() {
    on_right_answers(|case, call| {
        let Answer { number, count, kind, offset } = call.answer;
        let wrong_answers = altered(number)
            .map(|number| Answer { number, ..call.answer })
            .chain(altered(count).map(|count| Answer { count, ..call.answer }))
            .chain(altered(kind).map(|kind| Answer { kind, ..call.answer }))
            .chain(altered(offset).map(|offset| Answer { offset, ..call.answer }));
        for answer in wrong_answers {
            assert!(Call { answer, ..call.clone() }.judged(case).is_err(), "{answer:?}");
        }
    });
}

/// A token of the Rust, altered in one thing at a time.
fn altered_tokens(token: &Token) -> [Token; 5] {
    let mut wrong = [(); 5].map(|()| token.clone());
    wrong[0].kind += 1;
    wrong[1].line += 1;
    wrong[2].pos += 1;
    wrong[3].len += 1;
    match token.val {
        Some(val) => wrong[4].val = Some(f64::from_bits(val.to_bits() + 1)),
        None => wrong[4].spelling += "a",
    }
    wrong
}

#[test]
fn an_altered_token_of_the_rust_is_found() {
    let mut tried = 0;
    on_right_answers(|case, call| {
        if call.answer.number != 0 {
            return;
        }
        for at in 0..case.rust.tokens.len() {
            for wrong in altered_tokens(&case.rust.tokens[at]) {
                let mut case = Case::new(case.script);
                case.rust.tokens[at] = wrong;
                assert!(call.judged(&case).is_err(), "{:?}", case.rust.tokens[at]);
                tried += 1;
            }
        }
    });
    assert!(tried > 100, "only {tried} alterations were tried");
}

#[test]
fn an_altered_ending_of_the_rust_is_found() {
    for (script, kind, offset) in [(&b"a; // c"[..], 1, 3), (b"a == 2.5", 2, 5)] {
        let mut case = Case::new(script);
        let call = Call::made(&case, case.usual_rooms()[0]);
        assert_eq!(case.rust.ending, Ending::Fault { kind, offset });
        assert_eq!(call.judged(&case), Ok(()));
        let other_kind = Ending::Fault { kind: 3 - kind, offset };
        let other_offset = Ending::Fault { kind, offset: offset + 1 };
        for ending in [Ending::Eof, Ending::UnsteadyEof, other_kind, other_offset] {
            case.rust.ending = ending;
            assert!(call.judged(&case).is_err(), "{:?}", case.rust.ending);
        }
    }
}
