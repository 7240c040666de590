//! Milliseconds of converting a text, on the texts that are named, and of a check of its sheet without a search, if there is one.
//!
//!     bench_convert FILE..     the best of twenty runs of ten calls each, by turns, in one process
//!
//! The time is the processor's, as in bench_retime.rs. Without a search means with a work buffer of 0 numbers, which ends the check
//! behind its reading (14): every sheet that is written must read. The sheet's buffer has 16,384 bytes, all of which are written.

mod timing;
#[allow(dead_code)]
mod zumbeiry;
#[allow(dead_code)]
mod zumbeiry_convert;

use std::env;
use std::hint::black_box;
use std::time::Duration;
use timing::{named, repeated, timed};
use zumbeiry::check;
use zumbeiry_convert::{convert, MOST_BYTES};

const RUNS: usize = 20;
const CALLS: u32 = 10;
const OUT_OF_ROOM: [u64; 5] = [14, 0, 0, 0, 0];

struct Case {
    name: String,
    text: Vec<u8>,
    sheet: Vec<u8>,
    /// Refusal, place, bytes written.
    answer: [u64; 3],
    /// Of the conversion, and of the check.
    best: [Duration; 2],
}

impl Case {
    fn of(file: String) -> Case {
        let (name, text) = named(&file);
        Case { name, text, sheet: vec![0; MOST_BYTES], answer: [0; 3], best: [Duration::MAX; 2] }
    }

    fn run(&mut self) {
        let Case { text, sheet, best, .. } = self;
        self.answer = repeated(CALLS, &mut best[0], || convert(black_box(text), black_box(sheet)));
        if self.answer[0] == 0 {
            let reads = &sheet[..self.answer[2] as usize];
            assert_eq!(timed(&mut best[1], || check(black_box(reads), &mut [])), OUT_OF_ROOM, "{}", self.name);
        }
    }

    fn print(&self) {
        let Case { name, text, answer: [refusal, place, written], .. } = self;
        let milliseconds = self.best[0].as_secs_f64() * 1e3 / f64::from(CALLS);
        let (bytes, of_byte) = (text.len(), milliseconds * 1e6 / text.len() as f64);
        let reading = if *refusal == 0 { format!("{:.4}", self.best[1].as_secs_f64() * 1e3) } else { String::new() };
        println!("| {name} | {bytes} | {refusal} {place} {written} | {milliseconds:.4} | {of_byte:.1} | {reading} |");
    }
}

fn main() {
    let mut cases: Vec<Case> = env::args().skip(1).map(Case::of).collect();
    for _ in 0..RUNS {
        cases.iter_mut().for_each(Case::run);
    }
    println!("\n| text | bytes | answer | milliseconds | nanoseconds/byte | check, no search |");
    println!("|---|---|---|---|---|---|");
    cases.iter().for_each(Case::print);
}
