//! What the thread of its own costs: times readings of scripts that have just few enough opening bytes to
//! stay on the caller's stack, and of the same with one more.
//!
//!     cargo run --release -p sif --example cost

use std::time::Instant;

fn main() {
    println!("{:>8} {:>8} {:>12}", "bytes", "opening", "microseconds");
    for (lines, more) in [(5, 0), (63, 0), (63, 2), (400, 2), (3_000, 2)] {
        let declarations = (0..lines).map(|n| format!("var a{n} = {n}0;\n")).collect::<String>();
        let script = declarations + &"a1 = a2;\n".repeat(more);
        let opening = script.matches('=').count();
        println!("{:>8} {opening:>8} {:>12.1}", script.len(), micros(script.as_bytes()));
    }
}

/// The median of the times that single readings take.
fn micros(script: &[u8]) -> f64 {
    let mut times: Vec<f64> = (0..301).map(|_| once(script)).collect();
    times.sort_by(f64::total_cmp);
    times[150]
}

fn once(script: &[u8]) -> f64 {
    let began = Instant::now();
    let reading = sif::read(script).expect("the script is read");
    assert!(!reading.failed());
    began.elapsed().as_secs_f64() * 1e6
}
