//! Microseconds of mending a sheet, and of a check of the mended one without a search, on the sheets that are named.
//!
//!     bench_mend FILE..     the best of twenty runs of a hundred calls each, by turns, in one process
//!
//! The time is the processor's, as in bench_retime.rs. Without a search means with a work buffer of 0 numbers, which ends the check
//! behind its reading (14). Each mended sheet must read, and be copied when it is mended once more. The mended sheet's buffer is as
//! long as the sheet, the halts that it may lack included, and that of the changes has 594 numbers: what is lent is cleared too.

mod timing;
#[allow(dead_code)]
mod zumbeiry;
#[allow(dead_code)]
mod zumbeiry_mend;

use std::env;
use std::hint::black_box;
use std::time::Duration;
use timing::{named, repeated};
use zumbeiry::check;
use zumbeiry_mend::{mend, MOST_LISTED};

const RUNS: usize = 20;
const CALLS: u32 = 100;
const OUT_OF_ROOM: [u64; 5] = [14, 0, 0, 0, 0];
const HALTS: usize = 4 * 8; // the bytes of as many halts as may be added

struct Case {
    name: String,
    sheet: Vec<u8>,
    mended: Vec<u8>,
    changes: Vec<u32>,
    /// Of the mended sheet, and of the list.
    written: usize,
    listed: u64,
    /// Of the mending, and of the check.
    best: [Duration; 2],
}

impl Case {
    fn of(file: String) -> Case {
        let (name, sheet) = named(&file);
        let (mended, changes) = (vec![0; sheet.len() + HALTS], vec![0; MOST_LISTED]);
        Case { name, sheet, mended, changes, written: 0, listed: 0, best: [Duration::MAX; 2] }
    }

    fn run(&mut self) {
        let Case { sheet, mended, changes, best, .. } = self;
        let answer = repeated(CALLS, &mut best[0], || mend(black_box(sheet), black_box(mended), black_box(changes)));
        let [0, 0, written, listed] = answer else { panic!("{} is refused: {answer:?}", self.name) };
        (self.written, self.listed) = (written as usize, listed);
        let reads = &mended[..self.written];
        assert_eq!(repeated(CALLS, &mut best[1], || check(black_box(reads), &mut [])), OUT_OF_ROOM);
        let mut copy = vec![0; reads.len()];
        assert_eq!(mend(reads, &mut copy, &mut []), [0, 0, written, 0]);
        assert!(copy == reads, "{} is not copied", self.name);
    }

    fn print(&self) {
        let Case { name, sheet, written, listed, .. } = self;
        let [mending, reading] = self.best.map(|time| time.as_secs_f64() * 1e6 / f64::from(CALLS));
        let (bytes, of_byte, changes) = (sheet.len(), mending * 1e3 / sheet.len() as f64, listed / 2);
        println!("| {name} | {bytes} | {changes} | {written} | {mending:.2} | {of_byte:.1} | {reading:.2} |");
    }
}

fn main() {
    let mut cases: Vec<Case> = env::args().skip(1).map(Case::of).collect();
    cases.sort_by_key(|case| case.sheet.len());
    for _ in 0..RUNS {
        cases.iter_mut().for_each(Case::run);
    }
    println!("\n| sheet | bytes | changes | bytes, mended | mending | nanoseconds/byte | check, no search |");
    println!("|---|---|---|---|---|---|---|");
    cases.iter().for_each(Case::print);
}
