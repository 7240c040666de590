//! Microseconds of printing a sheet, of a check of it without a search, and of converting the text back, on the sheets that are named.
//!
//!     bench_print FILE..     the best of twenty runs of ten calls each, by turns, in one process
//!
//! The time is the processor's, as in bench_retime.rs. Without a search means with a work buffer of 0 numbers, which ends the check
//! behind its reading (14). Each text must be converted to its sheet again. The text's buffer has 98,304 bytes, and the sheet's that it
//! is converted into 16,384, all of which are written.

mod timing;
#[allow(dead_code)]
mod zumbeiry;
#[allow(dead_code)]
mod zumbeiry_convert;
#[allow(dead_code)]
mod zumbeiry_print;

use std::env;
use std::hint::black_box;
use std::time::Duration;
use timing::{named, repeated};
use zumbeiry::check;
use zumbeiry_convert::convert;
use zumbeiry_print::print;

const RUNS: usize = 20;
const CALLS: u32 = 10;
const OUT_OF_ROOM: [u64; 5] = [14, 0, 0, 0, 0];

struct Case {
    name: String,
    sheet: Vec<u8>,
    text: Vec<u8>,
    written: usize,
    again: Vec<u8>,
    /// Of the printing, of the check, and of the conversion.
    best: [Duration; 3],
}

impl Case {
    fn of(file: String) -> Case {
        let (name, sheet) = named(&file);
        let (text, again) = (vec![0; zumbeiry_print::MOST_BYTES], vec![0; zumbeiry_convert::MOST_BYTES]);
        Case { name, sheet, text, written: 0, again, best: [Duration::MAX; 3] }
    }

    fn run(&mut self) {
        let Case { name, sheet, text, again, best, .. } = self;
        let answer = repeated(CALLS, &mut best[0], || print(black_box(sheet), black_box(text)));
        let [0, 0, written] = answer else { panic!("{name} is refused: {answer:?}") };
        self.written = written as usize;
        assert_eq!(repeated(CALLS, &mut best[1], || check(black_box(sheet), &mut [])), OUT_OF_ROOM);
        let printed = &text[..self.written];
        let back = repeated(CALLS, &mut best[2], || convert(black_box(printed), black_box(again)));
        assert_eq!(back, [0, 0, sheet.len() as u64]);
        assert!(again[..sheet.len()] == sheet[..], "{name} is not converted back");
    }

    fn print(&self) {
        let Case { name, sheet, written, .. } = self;
        let [printing, reading, converting] = self.best.map(|time| time.as_secs_f64() * 1e6 / f64::from(CALLS));
        let [of_sheet, of_text] = [sheet.len(), *written].map(|bytes| printing * 1e3 / bytes as f64);
        print!("| {name} | {} | {written} | {printing:.2} | {of_sheet:.1} | {of_text:.1} |", sheet.len());
        println!(" {reading:.2} | {converting:.2} |");
    }
}

fn main() {
    let mut cases: Vec<Case> = env::args().skip(1).map(Case::of).collect();
    cases.sort_by_key(|case| case.sheet.len());
    for _ in 0..RUNS {
        cases.iter_mut().for_each(Case::run);
    }
    println!("\n| sheet | bytes | bytes, text | printing | ns/sheet byte | ns/text byte | check, no search | converting back |");
    println!("|---|---|---|---|---|---|---|---|");
    cases.iter().for_each(Case::print);
}
