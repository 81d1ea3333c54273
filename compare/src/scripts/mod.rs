//! Makers of scripts. All are deterministic: the same call makes the same scripts.

pub mod damaged;
pub mod grammar;
pub mod limits;
pub mod literals;
pub mod nesting;
pub mod operations;
pub mod phrases;
pub mod random;
pub mod shapes;
pub mod short;
pub mod soup;
pub mod spellings;
pub mod supplier;
