//! The trait that lex_err.rs and parse_err.rs implement, as their impl blocks force it.

pub trait SifErr {
    fn emit(&self);
    fn to_msg(&self) -> String;
}
