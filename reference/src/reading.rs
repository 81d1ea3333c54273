//! The whole reading of a script, as the Rust does it, and what happened on the way.

use crate::errors::{error, Error};
use crate::lines::Lines;
use crate::panics::{caught, PanicPlace};
use crate::tokens::{Ending, Lexed};
use crate::tree::{nodes, Node};
use sifc_err::parse_err::ParseErr;
use sifc_err::seen;
use sifc_parse::ast::AstNode;
use sifc_parse::lex::Lexer;
use sifc_traced::trace::{self, Event, Trace};

/// What the Rust says of a script, and the events that document 01 counts, in their order.
#[derive(Clone, Debug, PartialEq)]
pub struct Reading {
    pub events: Vec<Event>,
    pub end: End,
}

#[derive(Clone, Debug, PartialEq)]
pub enum End {
    Read(Read),
    /// A panic of document 01, with the offset of its comment, number or opening sign.
    Fault {
        kind: u32,
        offset: usize,
    },
    /// Refusal 6, the last of the events. The Rust is not asked further.
    TooDeep,
    /// Something that document 01 does not know.
    Unknown(String),
}

#[derive(Clone, Debug, PartialEq)]
pub struct Read {
    pub nodes: Vec<Node>,
    pub flag: bool,
    pub errors: Vec<Error>,
    /// The error that ended the reading before the script's end.
    pub early: Option<Error>,
}

/// What `Parser::parse` answers, and the errors that it emitted.
struct Parsed {
    ast: Option<AstNode>,
    has_err: bool,
    errors: Vec<ParseErr>,
    emitted: Vec<ParseErr>,
}

/// The reading of a script of ASCII bytes with these tokens. The unchanged parser gives the answer,
/// and a copy of it that reports what it does the rest; both must come to the same.
pub fn reading(script: &[u8], lexed: &Lexed) -> Reading {
    let (traced, trace) = traced(script);
    if trace.events.last() == Some(&Event::TooDeep) {
        return Reading { events: trace.events, end: End::TooDeep };
    }
    let end = match (plain(script), traced) {
        (Ok(plain), Ok(traced)) if plain.is(&traced) => {
            read(plain, lexed, &trace.carried, trace.lost)
        }
        (Err(plain), Err(traced)) if plain.line == traced.line => {
            after_panic(script, lexed, &plain, &trace.opened)
        }
        _ => Err("the Rust and its traced copy differ".to_string()),
    };
    Reading { events: trace.events, end: end.unwrap_or_else(End::Unknown) }
}

/// The most counted calls that are active at once while the Rust reads a script of ASCII bytes; one more
/// than the limit where it is refusal 6.
pub fn depth(script: &[u8]) -> usize {
    traced(script).1.most_active
}

fn plain(script: &[u8]) -> Result<Parsed, PanicPlace> {
    use sifc_parse::{parser::Parser, symtab::SymTab};
    seen::take();
    let result = caught(|| Parser::new(&mut Lexer::new(script), &mut SymTab::new()).parse())?;
    let (ast, has_err, errors) = (result.ast, result.has_err, result.errors);
    Ok(Parsed { ast, has_err, errors, emitted: seen::take() })
}

fn traced(script: &[u8]) -> (Result<Parsed, PanicPlace>, Trace) {
    use sifc_traced::{parser::Parser, symtab::SymTab};
    seen::take();
    trace::take();
    let result = caught(|| Parser::new(&mut Lexer::new(script), &mut SymTab::new()).parse());
    let parsed = result.map(|result| {
        let (ast, has_err, errors) = (result.ast, result.has_err, result.errors);
        Parsed { ast, has_err, errors, emitted: seen::take() }
    });
    (parsed, trace::take())
}

impl Parsed {
    /// Whether two answers are the same.
    fn is(&self, other: &Parsed) -> bool {
        let errors = |parsed: &Parsed| format!("{:?} {:?}", parsed.errors, parsed.emitted);
        self.ast == other.ast && self.has_err == other.has_err && errors(self) == errors(other)
    }

    /// The error that ended the loop of `parse`: `parse` emits the error of each declaration that
    /// fails, and goes on unless it is one that is not continuable.
    fn ending(&self) -> Option<&ParseErr> {
        self.emitted.last().filter(|err| !(*err).clone().continuable())
    }
}

fn read(
    parsed: Parsed,
    lexed: &Lexed,
    carried: &[trace::Place],
    lost: trace::Lost,
) -> Result<End, String> {
    let listed = parsed.errors.iter().zip(carried);
    let errors = listed.map(|(err, &place)| error(err, place, lexed));
    let early = parsed.ending().map(|err| error(err, (err.line, err.pos), lexed));
    if parsed.has_err == parsed.emitted.is_empty() || parsed.errors.len() != carried.len() {
        return Err("the Rust's flag or errors are not what it emitted".to_string());
    }
    let ast = parsed.ast.as_ref().ok_or("the Rust has no tree")?;
    Ok(End::Read(Read {
        nodes: nodes(ast, lexed, lost)?,
        flag: parsed.has_err,
        errors: errors.collect::<Result<_, _>>()?,
        early: early.transpose()?,
    }))
}

/// The ending by a panic. The place of a lexing panic is that of the script's tokens; the other kinds
/// have the opening sign of the suffix that was read last and is not complete.
fn after_panic(
    script: &[u8],
    lexed: &Lexed,
    panic: &PanicPlace,
    opened: &[trace::Place],
) -> Result<End, String> {
    match (panic.fault_kind(), &lexed.ending, opened.last()) {
        (Some(kind @ (1 | 2)), Ending::Fault { kind: lexing, offset }, _) if kind == *lexing => {
            Ok(End::Fault { kind, offset: *offset })
        }
        (Some(kind @ 3..), _, Some(&(line, pos))) => {
            Ok(End::Fault { kind, offset: Lines::of(script).offset(line, pos) })
        }
        _ => Err(format!("the Rust panicked: {}", panic.message)),
    }
}

#[cfg(test)]
mod tests {
    use super::*;
    use crate::errors::Carries;
    use crate::tokens::tokens;

    fn end(script: &str) -> End {
        reading(script.as_bytes(), &tokens(script.as_bytes())).end
    }

    fn read(script: &str) -> Read {
        match end(script) {
            End::Read(read) => read,
            other => panic!("{script}: {other:?}"),
        }
    }

    /// Kind, mark, children and payload of each node.
    fn told(script: &str) -> Vec<(u32, bool, usize, usize)> {
        let told = |node: &Node| (node.kind, node.mark, node.children, node.load);
        read(script).nodes.iter().map(told).collect()
    }

    #[test]
    fn the_tree_of_01s_example() {
        assert_eq!(told("var a = 1;\n"), [(24, false, 0, 3), (8, true, 1, 1), (1, false, 1, 0)]);
    }

    #[test]
    fn what_the_tree_has_lost_is_there() {
        let kinds = |script: &str| told(script).iter().map(|node| node.0).collect::<Vec<_>>();
        assert_eq!(kinds("if 1 {} else {} elif 2 {} else {}"), [24, 2, 2, 24, 2, 4, 2, 3, 1]);
        let items = told("var t = [[k => 1, j => 2, k => 3]];");
        assert_eq!(
            items[..4],
            [(24, false, 0, 6), (13, false, 1, 4), (24, false, 0, 10), (13, false, 1, 8)]
        );
        assert_eq!(items[6], (12, false, 3, 0));
        let assigned = told("var a; a = 1;");
        assert_eq!(assigned[1..4], [(24, false, 0, 3), (24, false, 0, 5), (21, true, 2, 1)]);
    }

    #[test]
    fn errors_have_what_they_carry_and_the_last_may_end_the_reading() {
        let read = read("\"zz\"(1); 5 5;");
        let spelling = "zz".to_string();
        assert_eq!(read.errors[0].carries, Carries::Token { index: 0, spelling });
        assert_eq!((read.errors[0].line, read.errors[0].pos, read.errors[0].reason), (1, 7, 9));
        let early = read.early.expect("the reading ends early");
        let [expected, found] = [";", "5"].map(str::to_string);
        assert_eq!(early.carries, Carries::Mismatch { expected, index: 6, found });
        assert!(read.flag);
    }

    #[test]
    fn panics_have_the_place_of_their_sign() {
        let faults = [
            ("(1)(2);", 3, 3),
            ("(true)(1);", 3, 6),
            ("(1+(2)).a;", 4, 7),
            ("print((1+2)[print(1)]);", 5, 11),
            ("1; // c", 1, 3),
            ("1; 2.5", 2, 3),
        ];
        for (script, kind, offset) in faults {
            assert_eq!(end(script), End::Fault { kind, offset }, "{script}");
        }
        assert!(read("5 5 // c").early.is_some());
    }

    #[test]
    fn events_come_in_order() {
        use Event::{Error, Freed, Node, Symbol};
        let events = |script: &str| {
            crate::run(|| reading(script.as_bytes(), &tokens(script.as_bytes())).events)
        };
        assert_eq!(events("var a; a; q"), [Node, Symbol, Node, Node, Error, Freed(3), Node]);
        assert_eq!(events("fn f(x) {}"), [Symbol, Node, Node, Symbol, Node, Node, Node, Node]);
        let deep = "(".repeat(256);
        assert_eq!(events(&deep), [Event::TooDeep]);
    }
}
