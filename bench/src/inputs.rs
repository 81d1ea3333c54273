//! The scripts that are timed.

use compare::scripts::shapes;
use compare::scripts::supplier::{script, Shape};
use std::process::ExitCode;

/// The greatest sizes of the scripts in bytes.
pub const SIZES: [usize; 3] = [1_024, 8_192, 65_535];

/// The greatest length of a script.
pub const MOST: usize = 65_535;

/// What is put between the parts of error-laden scripts: four errors, after which the reading goes on.
const ERRORS: &str = "\nundeclared; ; 1 = 2;\n";

/// A script for which the memory is the whole difference.
const TINY: &[u8] = b"var a = 1;\n";

/// A script to be timed, under its name, and the length of the scripts that its memory is for.
#[derive(Clone)]
pub struct Input {
    pub name: String,
    pub script: Vec<u8>,
    pub memory: usize,
}

impl Input {
    fn new(name: impl Into<String>, script: Vec<u8>) -> Input {
        Input { name: name.into(), memory: script.len(), script }
    }
}

/// Scripts as suppliers write them: each shape in each size.
pub fn suppliers() -> impl Iterator<Item = Input> {
    SIZES.into_iter().flat_map(|bytes| {
        Shape::ALL.map(|shape| {
            let name = format!("{shape:?}-{}K", bytes.div_ceil(1_024));
            Input::new(name, script(shape, bytes, 6))
        })
    })
}

/// The same with errors between their parts.
pub fn error_laden() -> impl Iterator<Item = Input> {
    suppliers().map(|Input { name, script, .. }| {
        let text = String::from_utf8(script).expect("the scripts are ASCII");
        let mut laden = text.replace("\n\n", ERRORS);
        laden.truncate(MOST);
        Input::new(format!("{name}, errors"), laden.into_bytes())
    })
}

/// A tiny script in memory for the greatest.
pub fn tiny() -> Input {
    Input { memory: MOST, ..Input::new("a tiny script, arrays of full size", TINY.to_vec()) }
}

/// A script of each shape that a reader can be slow at, of at most so many bytes.
pub fn worst(bytes: usize) -> Vec<Input> {
    shapes::all(bytes).into_iter().map(|(name, script)| Input::new(name, script)).collect()
}

/// The script of a name.
pub fn named(name: &str) -> Option<Input> {
    let mut all = suppliers().chain(error_laden()).chain([tiny()]).chain(worst(MOST));
    all.find(|input| input.name == name)
}

pub fn write_all(folder: &str) -> ExitCode {
    for Input { name, script, .. } in suppliers() {
        let file = format!("{folder}/{name}.sif");
        std::fs::write(&file, script)
            .unwrap_or_else(|error| panic!("{file} cannot be written: {error}"));
        println!("{file}");
    }
    ExitCode::SUCCESS
}
