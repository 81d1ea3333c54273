//! The worked cases of document 01 and of its corners, with what is said of them there.

use super::{Needs, Rooms};
use crate::host::{Arrays, Early, ReadingAnswer, ReadingCall};
use crate::tokens::same;

/// A script; the room for nodes, symbols and errors; and what its reading comes to, as `told` says it.
pub type Vector = (&'static [u8], Limits, &'static str);

/// The room for nodes, symbols and errors.
#[derive(Clone, Copy)]
pub struct Limits(usize, usize, usize);

pub const AMPLE: Limits = Limits(5_000, 1_000, 1_000);

/// Room for so many nodes, symbols or errors, and for as many as there are of the rest.
const fn nodes(count: usize) -> Limits {
    Limits(count, AMPLE.1, AMPLE.2)
}

const fn symbols(count: usize) -> Limits {
    Limits(AMPLE.0, count, AMPLE.2)
}

const fn errors(count: usize) -> Limits {
    Limits(AMPLE.0, AMPLE.1, count)
}

pub const VECTORS: &[Vector] = &[
    // the small scripts of document 01
    (b"", AMPLE, "down"),
    (b"a", AMPLE, "up 9@1:0"),
    (b"{ var a = 1; } { a; }", AMPLE, "down"),
    (b"if true { } else { } else { }", AMPLE, "down 5@2:0"),
    (b"5 5;", AMPLE, "up, by 6@1:2"),
    (b"var 1 = 2;", AMPLE, "up 1@1:4 11@1:4 3@1:9 2@1:9"),
    (b"$", AMPLE, "down"),
    (b"// c", AMPLE, "refused 5 1 0"),
    (b"1.5", AMPLE, "refused 5 2 0"),
    (b"(true)(1);", AMPLE, "refused 5 3 6"),
    (b"var t = [[]]; t.z = 1; q;", AMPLE, "up 9@1:21 2@1:21"),
    (b"var a=(1+2)*3;", AMPLE, "down"),
    // one suffix, and a second one behind parentheses or `@`
    (b"print(1)(2);", AMPLE, "up, by 6@1:8"),
    (b"print(1).a;", AMPLE, "up, by 6@1:8"),
    (b"var a; a[0][1];", AMPLE, "up, by 6@1:11"),
    (b"(print(1))(2);", AMPLE, "refused 5 3 10"),
    (b"@print(1)(2);", AMPLE, "refused 5 3 9"),
    (b"@print(1).a;", AMPLE, "refused 5 4 9"),
    (b"var a; (a[0])[1];", AMPLE, "refused 5 5 13"),
    (b"var a; @a[0].b;", AMPLE, "refused 5 4 12"),
    (b"1()", AMPLE, "refused 5 3 1"),
    (b"(-1).1", AMPLE, "refused 5 4 4"),
    (b"(-1)[1]", AMPLE, "refused 5 5 4"),
    // a lexing panic right behind the sign; all that stands inside comes first
    (b"(1)(2)// c", AMPLE, "refused 5 1 6"),
    (b"(1+2)(2)1.", AMPLE, "refused 5 2 8"),
    (b"(1+2).a// c", AMPLE, "refused 5 1 7"),
    (b"(1+2)[1]// c", AMPLE, "refused 5 1 8"),
    (b"(1)(zz);", AMPLE, "up 9@1:4 2@1:6 2@1:7"),
    (b"(1)(2;", AMPLE, "up, by 6@1:5"),
    (b"(1+2)[zz];", AMPLE, "up 9@1:6 2@1:8 2@1:9"),
    (b"(1+2).zz;", AMPLE, "refused 5 4 5"),
    // name checking is one flag
    (b"var t; t.(t.b)+q;", AMPLE, "up 9@1:15 2@1:16"),
    (b"var t; t.print(q,t.b,q);", AMPLE, "up 9@1:21 2@1:22 2@1:23"),
    (b"var t; t.(t.b)=1; q;", AMPLE, "up 3@1:14 2@1:16 9@1:18 2@1:19"),
    // the name check after `)`, and the two places of InvalidAssign
    (b"\"zz\"(1); q;", AMPLE, "up 9@1:7 9@1:9 2@1:10"),
    (b"1=2;", AMPLE, "up 3@1:3 2@1:3"),
    (b"(1)=2;", AMPLE, "up 3@1:5 2@1:5"),
    (b"1+1=2;", AMPLE, "up 3@1:3 2@1:5"),
    (b"print=2;", AMPLE, "up 9@1:7 2@1:7"),
    (b"var a; (a)=2;", AMPLE, "down"),
    (b"var a; (a[0])=2;", AMPLE, "down"),
    // a missing key, a placeholder that stays, counts
    (b"var t=[[1", AMPLE, "up 1@1:8 2@1:8, by 6@2:0"),
    (b"fn f(1 f(1,2);", AMPLE, "up 1@1:5 11@1:5, by 6@1:7"),
    (b"fn f() {;} f(1,2);", AMPLE, "up 2@1:8 2@1:9"),
    (b"var a; a(1);", AMPLE, "up 8@1:11 2@1:11"),
    (b"var print; print(1,2); \"print\"(1);", AMPLE, "down"),
    (b"var a; var b=[a[0]];", AMPLE, "up, by 6@1:17"),
    // lexing
    (b"1 \x1c", AMPLE, "up, by 6@1:2"),
    (b"1.2.3;", AMPLE, "down"),
    (b"1..a;", AMPLE, "down"),
    (b"1 .a;", AMPLE, "down"),
    (b"5 5 // c", AMPLE, "up, by 6@1:2"),
    // the order of events
    (b"1// c", nodes(0), "refused 7 0 0"),
    (b"1// c", AMPLE, "refused 5 1 1"),
    (b"fn f(a// c", nodes(0), "refused 5 1 6"),
    (b"a// c", errors(0), "refused 9 0 0"),
    (b"a// c", AMPLE, "refused 5 1 1"),
    (b"var a;", Limits(0, 0, 0), "refused 7 0 0"),
    (b"var a;", Limits(1, 0, 0), "refused 8 0 0"),
    (b"var t=[[]]// c", nodes(1), "refused 5 1 10"),
    (b"var t=[[]]// c", symbols(0), "refused 5 1 10"),
    (b"if 1{}else{}else{}", Limits(4, 0, 0), "refused 9 0 0"),
    (b"if 1{}else{}else{}", nodes(4), "refused 7 0 0"),
    (b"fn f// c", symbols(0), "refused 5 1 4"),
    (b"var a;a[0]=1;", nodes(7), "down"),
    (b"var a;a[0]=1;", nodes(6), "refused 7 0 0"),
    (b"(1+2).3;", nodes(4), "refused 5 4 5"),
    (b"(1+2).3;", nodes(3), "refused 7 0 0"),
];

/// Checks what is said of a script.
pub fn check(call: ReadingCall, vector: &Vector) -> Result<(), String> {
    let (script, limits, wanted) = *vector;
    same("told", told(call, script, limits).as_str(), wanted)
}

/// What a reading comes to: `refused` with number, kind and offset; or the flag and the errors, each as
/// its reason with its place, and after `by` the error that ended it.
pub fn told(call: ReadingCall, script: &[u8], limits: Limits) -> String {
    let Limits(nodes, symbols, errors) = limits;
    let rooms = Rooms::for_needs(Needs { tokens: script.len() + 1, nodes, symbols, errors }, 0);
    let mut arrays = rooms.0.map(|len| vec![0; len]);
    let [offs, words, heads, loads, symbols, places, reasons] =
        arrays.each_mut().map(Vec::as_mut_slice);
    let lent = Arrays { offs, words, heads, loads, symbols, places, reasons };
    let answer = call(script, lent);
    let ReadingAnswer { number, kind, offset, flag, early, .. } = answer;
    if number != 0 {
        return format!("refused {number} {kind} {offset}");
    }
    let listed = arrays[5].iter().zip(&arrays[6]).take(answer.errors as usize);
    let listed = listed.map(|(&place, &reason)| format!(" {}", error(Early { place, reason })));
    let early = Some(early).filter(|early| early.reason != 0);
    let ending = early.map(|early| format!(", by {}", error(early)));
    let flag = if flag { "up" } else { "down" }.to_string();
    [flag].into_iter().chain(listed).chain(ending).collect()
}

fn error(Early { place, reason }: Early) -> String {
    format!("{}@{}:{}", reason % 16, place / 65_536 + 1, place % 65_536)
}
