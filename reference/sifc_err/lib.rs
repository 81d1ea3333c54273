//! The package sifc_err of sif: two files of docs/src as they are (the formatter skips
//! them), and the err.rs that docs/src lacks.
//!
//! Both files print by `eprintln!` in `emit`, and only there. The macro of that name below stands in
//! its place: it hands the error itself to seen.rs.

macro_rules! eprintln {
    ($format:literal, $error:ident . to_msg()) => {
        crate::seen::Emitted::keep($error)
    };
}

pub mod err;
#[rustfmt::skip]
#[path = "../../docs/src/sifc_err/src/lex_err.rs"]
pub mod lex_err;
#[rustfmt::skip]
#[path = "../../docs/src/sifc_err/src/parse_err.rs"]
pub mod parse_err;
pub mod seen;
