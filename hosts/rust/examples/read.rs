//! Reads a sif script: prints its declarations, its errors and its canonical text.
//!
//!     cargo run -p sif --example read -- FILE

use std::env::args;
use std::process::ExitCode;

fn main() -> ExitCode {
    let Some(name) = args().nth(1) else {
        eprintln!("usage: read FILE");
        return ExitCode::from(2);
    };
    let script = match std::fs::read(&name) {
        Ok(script) => script,
        Err(error) => {
            eprintln!("{name}: {error}");
            return ExitCode::from(2);
        }
    };
    let reading = match sif::read(&script) {
        Ok(reading) => reading,
        Err(refusal) => {
            println!("{name}: refused {}: {refusal}", refusal.number());
            return ExitCode::FAILURE;
        }
    };
    for declaration in reading.root().children() {
        println!("{} with {} children", declaration.kind(), declaration.children().len());
    }
    for error in reading.problems() {
        println!("{name}:{error}");
    }
    if let Ok(text) = sif::text(&script) {
        print!("{}", String::from_utf8_lossy(&text));
    }
    ExitCode::from(u8::from(reading.failed()))
}
