//! Microseconds of a change of times, of taking it back, and of a check and a preview without a search and with one, on the sheets
//! that are named.
//!
//!     bench_retime FILE..     the best of twenty runs of a hundred calls each, by turns, in one process
//!
//! The time is the processor's, not the clock's, so that other programs on the machine disturb it less. Without a search means with
//! a work buffer of 0 numbers, which ends the check behind its reading (14). Each preview must give the five numbers of the check
//! of the changed sheet.

mod timing;
#[allow(dead_code)]
mod zumbeiry;
#[allow(dead_code)]
mod zumbeiry_retime;

use std::hint::black_box;
use std::path::Path;
use std::time::Duration;
use std::{env, fs};
use timing::timed;
use zumbeiry::check;
use zumbeiry_retime::{change, preview, take_back, Asked};

const RUNS: usize = 20;
const CALLS: u32 = 100;
const LENT: usize = 12_000;
const MOST_THREADS: usize = 4;
const MOST_STATEMENTS: usize = 64;

/// What the last of the calls gives; the best time of them all becomes their own, if that was shorter.
fn repeated<T>(best: &mut Duration, mut call: impl FnMut() -> T) -> T {
    timed(best, || {
        for _ in 1..CALLS {
            black_box(call());
        }
        call()
    })
}

/// Times 1..2 on the last statement that may have them, which is not a halt.
fn asked(sheet: &[u8]) -> Asked {
    let of_thread =
        |thread| (0..MOST_STATEMENTS).map(move |statement| Asked { thread, statement, least: 1, greatest: 2 });
    let all = (0..MOST_THREADS).flat_map(of_thread);
    all.filter(|&asked| change(&mut sheet.to_vec(), asked).refusal == 0).last().expect("a statement")
}

struct Case {
    name: String,
    sheet: Vec<u8>,
    asked: Asked,
    changed: Vec<u8>,
    copy: Vec<u8>,
    steps: u64,
    /// Of the change, of taking it back, of check and preview without a search, of both with one.
    best: [Duration; 6],
}

impl Case {
    fn of(file: String) -> Case {
        let sheet = fs::read(&file).unwrap_or_else(|error| panic!("{file}: {error}"));
        let name = Path::new(&file).file_stem().unwrap_or_default().to_string_lossy().into_owned();
        let (asked, changed, copy) = (asked(&sheet), sheet.clone(), vec![0; sheet.len()]);
        Case { name, sheet, asked, changed, copy, steps: 0, best: [Duration::MAX; 6] }
    }

    fn run(&mut self, work: &mut [i32]) {
        let Case { sheet, asked, changed, copy, best, .. } = self;
        let last = repeated(&mut best[0], || change(black_box(changed), *asked));
        // the changes before the last one gave the same times, so that it may be taken back as often as it was made
        assert_eq!(repeated(&mut best[1], || take_back(black_box(changed), last.change)), [0, 0]);
        for (at, lent) in [(2, 0), (4, LENT)] {
            let work = &mut work[..lent];
            let expected = repeated(&mut best[at], || check(black_box(changed), black_box(work)));
            let answer =
                repeated(&mut best[at + 1], || preview(black_box(sheet), black_box(copy), black_box(work), *asked));
            assert_eq!(answer, expected);
            self.steps = answer[2];
        }
    }

    fn print(&self) {
        let (name, bytes, steps) = (&self.name, self.sheet.len(), self.steps);
        let [change, back, reading, copied, check, preview] =
            self.best.map(|time| time.as_secs_f64() * 1e6 / f64::from(CALLS));
        let [of_change, of_back] = [change, back].map(|time| time * 1e3 / bytes as f64);
        print!("| {name} | {bytes} | {change:.2} | {of_change:.1} | {back:.2} | {of_back:.1} ");
        println!("| {reading:.2} | {copied:.2} | {steps} | {check:.2} | {preview:.2} |");
    }
}

fn main() {
    let mut cases: Vec<Case> = env::args().skip(1).map(Case::of).collect();
    cases.sort_by_key(|case| case.sheet.len());
    let mut work = vec![0; LENT];
    for _ in 0..RUNS {
        cases.iter_mut().for_each(|case| case.run(&mut work));
    }
    print!("\n| sheet | bytes | change | nanoseconds/byte | taken back | nanoseconds/byte ");
    println!("| check, no search | preview, no search | steps | check | preview |");
    println!("|---|---|---|---|---|---|---|---|---|---|---|");
    cases.iter().for_each(Case::print);
}
