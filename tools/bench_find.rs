//! Microseconds and pairs per second of a lookup by name that goes through a whole file, by the size of its sheets and of the file.
//!
//!     bench_find     the best of twenty runs of each
//!
//! The time is the processor's, not the clock's, so that other programs on the machine disturb it less.

mod timing;
#[allow(dead_code)]
mod zumbeiry_find;

use std::hint::black_box;
use std::time::Duration;
use timing::timed;

const RUNS: usize = 20;
/// The name that is looked for, and the one that all pairs have.
const ABSENT: u8 = 255;
const OTHER: u8 = 7;
/// The sizes of sheets, each with the lengths of the files.
const CASES: [(u16, &[usize]); 4] = [(0, &LENGTHS), (43, &LENGTHS), (1000, &[1_000_000]), (16_384, &[1_000_000])];
const LENGTHS: [usize; 4] = [250_000, 500_000, 1_000_000, 4_000_000];

/// A file of pairs with sheets of one size, about as long as asked.
fn pairs(size: u16, length: usize) -> Vec<u8> {
    let [high, low] = size.to_be_bytes();
    let pair = [&[48, 0, 1, OTHER, 49, high, low], vec![0; usize::from(size)].as_slice()].concat();
    pair.repeat(length / pair.len())
}

fn main() {
    println!("\n| sheets of | file, bytes | pairs | microseconds | pairs/s |\n|---|---|---|---|---|");
    for (size, lengths) in CASES {
        for &length in lengths {
            let file = pairs(size, length);
            let count = file.len() / (7 + usize::from(size));
            let mut best = Duration::MAX;
            for _ in 0..RUNS {
                let answer = timed(&mut best, || zumbeiry_find::find(black_box(ABSENT), black_box(&file), black_box(&[])));
                assert_eq!((answer.refusal, answer.file, answer.place), (5, 1, 0));
            }
            let seconds = best.as_secs_f64();
            println!("| {size} | {} | {count} | {:.1} | {:.0} |", file.len(), seconds * 1e6, count as f64 / seconds);
        }
    }
}
