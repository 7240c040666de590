//! Steps of the search per second, of the library and of the oracle, on the sheets that are named.
//!
//!     bench FILE..     the best of five runs of each, by turns, in one process
//!
//! The time is the processor's, not the clock's, so that other programs on the machine disturb it less.

#[allow(dead_code)]
mod oracle;
mod timing;
#[allow(dead_code)]
mod zumbeiry;

use std::hint::black_box;
use std::path::Path;
use std::time::Duration;
use std::{env, fs, process};
use timing::timed;

const RUNS: usize = 5;
const LENGTH: usize = 12_000;

fn main() {
    println!("| sheet | steps | library, steps/s | oracle, steps/s | library/oracle |\n|---|---|---|---|---|");
    let mut work = vec![0; LENGTH];
    for file in env::args().skip(1) {
        let sheet = fs::read(&file).unwrap_or_else(|error| fail(&format!("{file}: {error}")));
        let (mut library, mut oracle) = (Duration::MAX, Duration::MAX);
        let mut steps = 0;
        for _ in 0..RUNS {
            let ours = timed(&mut library, || zumbeiry::check(black_box(&sheet), black_box(&mut work)));
            let theirs = timed(&mut oracle, || oracle::check(black_box(&sheet), black_box(LENGTH)));
            steps = ours[2];
            let theirs = [u64::from(theirs.refusal), theirs.place as u64, theirs.steps, theirs.low, theirs.high];
            if ours[0] != 0 || ours != theirs {
                fail(&format!("{file}: {ours:?} by the library, {theirs:?} by the oracle"));
            }
        }
        let name = Path::new(&file).file_stem().unwrap_or_default().to_string_lossy();
        let per_second = |time: Duration| steps as f64 / time.as_secs_f64();
        println!(
            "| {name} | {steps} | {:.0} | {:.0} | {:.2} |",
            per_second(library),
            per_second(oracle),
            per_second(library) / per_second(oracle)
        );
    }
}

fn fail(message: &str) -> ! {
    eprintln!("bench: {message}");
    process::exit(1)
}
