//! Panics of the Rust, caught, each with the place in docs/src that raised it.

use std::cell::{Cell, RefCell};
use std::panic::{catch_unwind, set_hook, take_hook, AssertUnwindSafe, PanicHookInfo};
use std::path::Path;
use std::sync::Once;

/// Where a panic was raised, and what the standard hook would have said of it.
#[derive(Clone, Debug, PartialEq)]
pub struct PanicPlace {
    pub file: String,
    pub line: u32,
    pub message: String,
}

thread_local! {
    static LAST: RefCell<Option<PanicPlace>> = const { RefCell::new(None) };
    static QUIET: Cell<bool> = const { Cell::new(false) };
}

/// The lines that panic, each with the kind that document 01 gives it. Of lex.rs: the `unwrap` in the
/// arm of `/`, and the subtraction in `advance`, which only `lex_num` reaches with an empty buffer. Of
/// fn_call_expr and what it calls: a target that is no single token, or none that has a name.
const FAULTS: [(&str, u32, u32); 6] = [
    ("lex.rs", 133, 1),
    ("lex.rs", 364, 2),
    ("parser.rs", 989, 3),
    ("token.rs", 201, 3),
    ("parser.rs", 1049, 4),
    ("parser.rs", 1058, 5),
];

impl PanicPlace {
    /// The kind of a panic that document 01 knows.
    pub fn fault_kind(&self) -> Option<u32> {
        let fault = FAULTS.iter().find(|(file, line, _)| self.is_in(file) && self.line == *line);
        fault.map(|&(_, _, kind)| kind)
    }

    /// Whether the file that panicked has this name.
    pub fn is_in(&self, file: &str) -> bool {
        Path::new(&self.file).file_name().is_some_and(|name| name == file)
    }
}

/// Runs a job of the reference. A panic in it prints nothing and is answered as its place.
pub fn caught<R>(job: impl FnOnce() -> R) -> Result<R, PanicPlace> {
    install_hook();
    let before = QUIET.replace(true);
    let result = catch_unwind(AssertUnwindSafe(job));
    QUIET.set(before);
    result.map_err(|_| LAST.take().expect("the hook records every panic"))
}

/// Puts the recording hook above the one that is there, once for the process.
fn install_hook() {
    static INSTALLED: Once = Once::new();
    INSTALLED.call_once(|| {
        let standard = take_hook();
        set_hook(Box::new(move |info| {
            LAST.set(Some(place_of(info)));
            if !QUIET.get() {
                standard(info);
            }
        }));
    });
}

fn place_of(info: &PanicHookInfo) -> PanicPlace {
    let location = info.location().expect("a panic has a location");
    PanicPlace {
        file: location.file().to_string(),
        line: location.line(),
        message: info.to_string(),
    }
}

#[cfg(test)]
mod tests {
    use super::*;

    #[test]
    fn the_panicking_lines_are_those_of_the_source() {
        let lex = include_str!("../../docs/src/sifc_parse/src/lex.rs");
        let parser = include_str!("../../docs/src/sifc_parse/src/parser.rs");
        let token = include_str!("../../docs/src/sifc_parse/src/token.rs");
        let sources = [lex, lex, parser, token, parser, parser];
        let lines = sources.iter().zip(FAULTS).map(|(source, (_, line, _))| {
            source.lines().nth(line as usize - 1).expect("the source has the line").trim()
        });
        let wanted = [
            "while self.curr.unwrap() != '\\n' {",
            "if self.line_pos == self.buffer.len() - 1 || on_new_line {",
            "let ident_name = ident_tkn.clone().unwrap().get_name();",
            "_ => panic!(\"{:?} Wrong token type!\", self),",
            "table_tkn: ident_tkn.unwrap(),",
            "array_tkn: ident_tkn.unwrap(),",
        ];
        assert_eq!(lines.collect::<Vec<_>>(), wanted);
    }
}
