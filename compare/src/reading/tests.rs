//! The harness finds what is wrong: a right answer that is altered in any one place is a difference.

use super::*;
use crate::host::{Early, TWIN_READING};
use crate::lent::altered;
use reference::run;

/// Scripts with every sort of node, error, ending and refusal.
const SCRIPTS: [&[u8]; 12] = [
    b"",
    b"a",
    b"var 1 = 2;",
    b"5 5 // c",
    b"if 1 { } else { } elif 2 { } else { }\n",
    b"fn f(x, y) { for i, j in x { y = i; } } f(1, 2); f(1);",
    b"var t = [[k => 1, k => -2]]; t.k; var b = [1, 2]; b[0] = t; @print(\"s\");",
    b"(1)(2);",
    b"(1+2).a;",
    b"q; 1 1. // c",
    b"a // c",
    b"a \xC3",
];

/// A call's answer and its arrays after it, to be altered.
#[derive(Clone)]
struct Call {
    answer: ReadingAnswer,
    lent: [Lent; 7],
}

impl Call {
    fn made(case: &Case, rooms: Rooms) -> Call {
        let (answer, lent) = case.called(TWIN_READING, rooms);
        Call { answer, lent }
    }

    fn judged(&self, case: &Case) -> Result<(), String> {
        case.judge(self.answer, &self.lent)
    }
}

/// Runs a test on the right answer to every script with all usual arrays.
fn on_right_answers(mut test: impl FnMut(&Case, Call)) {
    for script in SCRIPTS {
        let case = Case::new(script);
        for rooms in rooms::usual(&case) {
            let call = Call::made(&case, rooms);
            assert_eq!(call.judged(&case), Ok(()));
            test(&case, call);
        }
    }
}

#[test]
fn an_altered_element_or_guard_is_found() {
    on_right_answers(|case, call| {
        let indices = |array: usize| (0..call.lent[array].whole().len()).map(move |at| (array, at));
        for (array, at) in (0..7).flat_map(indices) {
            for wrong in altered(call.lent[array].whole()[at]) {
                let mut call = call.clone();
                call.lent[array].whole_mut()[at] = wrong;
                assert!(call.judged(case).is_err(), "array {array} at {at}: {wrong}");
            }
        }
    });
}

#[test]
fn an_altered_answer_is_found() {
    let fields: [fn(&mut ReadingAnswer) -> &mut u32; 8] = [
        |answer| &mut answer.number,
        |answer| &mut answer.kind,
        |answer| &mut answer.offset,
        |answer| &mut answer.tokens,
        |answer| &mut answer.nodes,
        |answer| &mut answer.errors,
        |answer| &mut answer.early.place,
        |answer| &mut answer.early.reason,
    ];
    on_right_answers(|case, call| {
        for field in fields {
            for wrong in altered(*field(&mut call.answer.clone())) {
                let mut call = call.clone();
                *field(&mut call.answer) = wrong;
                assert!(call.judged(case).is_err(), "{:?}", call.answer);
            }
        }
        let answer = ReadingAnswer { flag: !call.answer.flag, ..call.answer };
        assert!(Call { answer, ..call }.judged(case).is_err());
    });
}

/// What the Rust says, altered in one thing at a time.
fn altered_reads(read: &Read) -> Vec<Read> {
    let mut wrong = vec![Read { flag: !read.flag, ..read.clone() }];
    for at in 0..read.nodes.len() {
        let mut reads = [(); 4].map(|()| read.clone());
        reads[0].nodes[at].kind ^= 1;
        reads[1].nodes[at].mark ^= true;
        reads[2].nodes[at].children += 1;
        reads[3].nodes[at].load += 1;
        wrong.extend(reads);
    }
    for at in 0..read.errors.len() {
        let mut reads = [(); 4].map(|()| read.clone());
        reads[0].errors[at].line += 1;
        reads[1].errors[at].pos += 1;
        reads[2].errors[at].reason += 1;
        reads[3].errors[at].carries = Carries::Counts(63, 62);
        wrong.extend(reads);
    }
    let early = read.early.iter().cloned().map(|error| Error { pos: error.pos + 1, ..error });
    wrong.extend(early.map(|error| Read { early: Some(error), ..read.clone() }));
    wrong
}

#[test]
fn an_altered_reading_of_the_rust_is_found() {
    let mut tried = 0;
    on_right_answers(|case, call| {
        let End::Read(read) = &case.rust.end else {
            return;
        };
        if call.answer.number != 0 {
            return;
        }
        for wrong in altered_reads(read) {
            let mut case = Case::new(case.tokens.script);
            case.filled = Filled::of(&wrong);
            case.rust.end = End::Read(wrong);
            assert!(call.judged(&case).is_err(), "{:?}", case.rust.end);
            tried += 1;
        }
    });
    assert!(tried > 300, "only {tried} alterations were tried");
}

/// Nodes that a failed declaration frees can be left out unseen, so only other scripts are taken.
#[test]
fn a_lost_event_is_found() {
    let frees = |event: &Event| matches!(event, Event::Freed(_));
    let mut tried = 0;
    for case in SCRIPTS.map(Case::new) {
        if case.rust.events.iter().any(frees) {
            continue;
        }
        for at in 0..case.rust.events.len() {
            let mut wrong = Case::new(case.tokens.script);
            wrong.rust.events.remove(at);
            let differs = |rooms: Rooms| Call::made(&case, rooms).judged(&wrong).is_err();
            assert!(rooms::every(&case).into_iter().any(differs), "event {at}");
            tried += 1;
        }
    }
    assert!(tried > 30, "only {tried} events were left out");
}

#[test]
fn an_altered_panic_is_found() {
    for (script, kind, offset) in [(&b"(1)(2);"[..], 3, 3), (b"(1+2).a;", 4, 5), (b"a // c", 1, 2)]
    {
        let mut case = Case::new(script);
        let call = Call::made(&case, rooms::usual(&case)[0]);
        assert_eq!(case.rust.end, End::Fault { kind, offset });
        assert_eq!(call.judged(&case), Ok(()));
        let other_kind = End::Fault { kind: kind + 1, offset };
        let other_offset = End::Fault { kind, offset: offset + 1 };
        for end in [other_kind, other_offset, End::TooDeep, End::Unknown(String::new())] {
            case.rust.end = end;
            assert!(call.judged(&case).is_err(), "{:?}", case.rust.end);
        }
    }
}

#[test]
fn the_words_of_errors() {
    let error = |carries| Error { line: 2, pos: 5, reason: 6, carries };
    let (expected, found) = ("[[".to_string(), "a".to_string());
    let mismatch = error(Carries::Mismatch { expected, index: 3, found });
    assert_eq!(error_words(&mismatch), (65_541, 6 + 16 * 3 + 1_048_576 * 29));
    assert_eq!(error_words(&error(Carries::Counts(2, 1))).1, 6 + 16 * 2 + 1_048_576);
    let message = Carries::Message("expected identifier".to_string());
    assert_eq!(error_words(&error(message)).1, 6 + 1_048_576 * 3);
    assert_eq!(Early::from(error_words(&mismatch)).place, 65_541);
}

#[test]
fn the_worked_cases_are_as_they_are_told() {
    for vector in vectors::VECTORS {
        let case = Case::new(vector.0);
        let result = vectors::check(TWIN_READING, vector).and(check_case(TWIN_READING, &case));
        assert!(result.is_ok(), "{}: {result:?}", vector.0.escape_ascii());
    }
}

#[test]
fn the_deepest_that_is_read() {
    for (open, inside, close, deepest) in
        [("{", "", "}", 768), ("-", "1;", "", 765), ("(", "1", ")", 255)]
    {
        let script = |n: usize| format!("{}{inside}{};", open.repeat(n), close.repeat(n));
        let told =
            |n: usize| run(|| vectors::told(TWIN_READING, script(n).as_bytes(), vectors::AMPLE));
        assert!(!told(deepest).starts_with("refused"), "{open}");
        assert_eq!(told(deepest + 1), "refused 6 0 0", "{open}");
    }
}
