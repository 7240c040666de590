//! The corpus of records that records.rs makes and reads. Numbers have the high byte first:
//!
//!     entries                    4 bytes
//!     then for each entry
//!       planted                  1 byte
//!       sheet's length           4 bytes
//!       record's length          4 bytes
//!       refusal                  1 byte
//!       file                     1 byte, 0 the sheet, 1 the record
//!       place                    4 bytes
//!       finished                 1 byte, 0 or 1
//!       tick                     4 bytes
//!       the sheet's bytes, then the record's
//!
//! Planted is 0, but for the entries that try whoever compares: with 1, one of the five numbers
//! is wrong.

use crate::entries::{corpus, four, hex, number, Entry, FrontEntry};
use crate::record_cases::Case;
use crate::record_follow::{follow, RECORD, SHEET};
use crate::record_runs::{seen, Seen};
use crate::record_sheet::read;
use std::ops::Range;

/// Only shorter entries have copies.
const LONG: usize = 300;
/// The numbers that a follower can give.
const REFUSALS: [usize; 13] = [0, 1, 2, 3, 4, 5, 6, 7, 8, 9, 10, 16, 21];

pub struct Record {
    case: Case,
    /// refusal, file, place, finished and tick
    numbers: [usize; 5],
    planted: u8,
}

impl Entry for Record {
    const FRONT: usize = 20;

    fn new(front: &[u8], [sheet, record]: [&[u8]; 2]) -> Record {
        let case = Case { sheet: sheet.to_vec(), record: record.to_vec() };
        let numbers = [9..10, 10..11, 11..15, 15..16, 16..20].map(|at| number(&front[at]));
        Record { case, numbers, planted: front[Record::PLANTED] }
    }

    fn bytes(&self) -> Vec<u8> {
        let Case { sheet, record } = &self.case;
        let [refusal, file, place, finished, tick] = self.numbers;
        let mut bytes = vec![self.planted];
        bytes.extend([four(sheet.len()), four(record.len())].concat());
        bytes.extend([refusal as u8, file as u8]);
        bytes.extend(four(place));
        bytes.push(finished as u8);
        bytes.extend(four(tick));
        bytes.extend([&sheet[..], record].concat());
        bytes
    }

    fn planted(&self) -> u8 {
        self.planted
    }

    fn is_answered(&self) -> bool {
        follow(&self.case.sheet, &self.case.record).numbers() == self.numbers
    }
}

impl FrontEntry for Record {
    const NUMBERS: Range<usize> = 9..20;
    const PLANTED: usize = 0;
    const OTHERS: [&'static [u8]; 2] = [&[], &[]];

    fn refusal(&self) -> usize {
        self.numbers[0]
    }

    fn may_have_copy(&self) -> bool {
        self.case.sheet.len() + self.case.record.len() < LONG
    }
}

impl Record {
    /// What a record that is a run comes to, and its number of threads.
    fn seen(&self) -> Option<(Seen, usize)> {
        let sheet = read(&self.case.sheet).ok()?;
        (self.numbers[0] == 0).then(|| (seen(&sheet, &self.case.record), sheet.threads.len()))
    }
}

/// A corpus of these cases with what the follower gives them.
pub fn answered(cases: Vec<Case>) -> Vec<u8> {
    let bytes = |case: Case| {
        let numbers = follow(&case.sheet, &case.record).numbers();
        Record { case, numbers, planted: 0 }.bytes()
    };
    corpus(cases.into_iter().map(bytes).collect())
}

/// The planted entries are counted apart.
pub fn histogram(all: &[Record]) {
    let (entries, planted): (Vec<&Record>, Vec<&Record>) = all.iter().partition(|entry| entry.planted == 0);
    let bytes: usize = entries.iter().map(|entry| entry.bytes().len()).sum();
    println!("{} entries, {} bytes; planted besides: {}", entries.len(), bytes + 4, planted.len());
    let count = |test: &dyn Fn(&Record) -> bool| entries.iter().filter(|entry| test(entry)).count();
    println!("| refusal | sheet | record |\n|---|---|---|");
    for refusal in REFUSALS {
        let of = |file: u8| count(&|entry| entry.numbers[..2] == [refusal, file.into()]);
        println!("| {refusal} | {} | {} |", of(SHEET), of(RECORD));
    }
    let ends = |finished| count(&|entry| entry.numbers[0] == 0 && entry.numbers[3] == finished);
    println!("runs finished: {}, unfinished: {}", ends(1), ends(0));
    let last = |ticks: Range<usize>| count(&|entry| entry.numbers[0] == 0 && ticks.contains(&entry.numbers[4]));
    println!("last tick 0, to 65535, above: {:?}", [0..1, 1..65_536, 65_536..usize::MAX].map(last));
    println!("greatest last tick: {}", entries.iter().map(|entry| entry.numbers[4]).max().unwrap_or(0));
    runs(&entries);
    let longest =
        |bytes: fn(&Case) -> &Vec<u8>| entries.iter().map(|entry| bytes(&entry.case).len()).max().unwrap_or(0);
    println!("longest sheet {} bytes, longest record {}", longest(|case| &case.sheet), longest(|case| &case.record));
}

fn runs(entries: &[&Record]) {
    let runs: Vec<(Seen, usize)> = entries.iter().filter_map(|entry| entry.seen()).collect();
    let with = |test: &dyn Fn(&(Seen, usize)) -> bool| runs.iter().filter(|run| test(run)).count();
    println!("runs of 1, 2, 3, 4 threads: {:?}", [1, 2, 3, 4].map(|threads| with(&|run| run.1 == threads)));
    let events = |events: Range<usize>| with(&|run| events.contains(&run.0.events));
    println!("runs of 0, 1 to 9, 10 to 99, more events: {:?}", [0..1, 1..10, 10..100, 100..usize::MAX].map(events));
    let turns = |turns: Range<usize>| with(&|run| turns.contains(&run.0.turns));
    println!("clock starts over 1, 2 to 9, more times: {:?}", [1..2, 2..10, 10..usize::MAX].map(turns));
    let all: usize = runs.iter().map(|run| run.0.failed_tries).sum();
    println!("runs with failed lock tries: {}, tries: {all}", with(&|run| run.0.failed_tries > 0));
}

pub fn list(entries: &[Record]) {
    for Record { case, numbers, planted } in entries {
        let numbers = numbers.map(|number| number.to_string()).join(" ");
        let planted = if *planted == 0 { "" } else { " planted" };
        println!("{numbers} {} {}{planted}", hex(&case.sheet), hex(&case.record));
    }
}
