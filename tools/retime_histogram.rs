//! What stands in a corpus of new times.

use crate::entries::WRONG;
use crate::fault_pairs::pairs;
use crate::oracle::check;
use crate::retime_change::{code_at, may_have, place_of, HALT};
use crate::retime_corpus::{Case, Retime};
use crate::sheet_reads::reads;
use std::ops::Range;

/// The numbers that a preview can give.
const REFUSALS: [usize; 18] = [0, 1, 2, 3, 4, 5, 6, 7, 8, 9, 10, 11, 12, 13, 14, 15, 16, 19];
/// The code of a statement that is no halt.
const SKIP: u8 = 1;
/// What may be wrong with a case, in the order in which it is told.
const FAULTS: [&str; 5] = ["the sheet's own", "19", "5", "4", "the search's"];

/// Which of the faults a case has, each by itself. Where no statement is named, times are wrong that none
/// may have; where a change is not made, the sheet as it is counts for the search.
fn faults(Retime { case: Case { sheet, asked, copy, work }, preview, .. }: &Retime) -> [bool; 5] {
    let unread = reads(sheet).is_err();
    let place = place_of(sheet, *asked);
    let allowed = match place.and_then(|place| code_at(sheet, place)) {
        Some(code) => may_have(code, *asked),
        None => may_have(HALT, *asked) || may_have(SKIP, *asked),
    };
    let before = [unread, *copy < sheet.len(), place.is_none(), !allowed];
    let search = match before.contains(&true) {
        true => !unread && check(sheet, *work).refusal != 0,
        false => preview[0] != 0,
    };
    [before[0], before[1], before[2], before[3], search]
}

/// The planted entries are counted apart.
pub fn histogram(all: &[Retime]) {
    let (entries, planted): (Vec<&Retime>, Vec<&Retime>) = all.iter().partition(|entry| entry.planted == 0);
    let bytes: usize = entries.iter().map(|entry| crate::entries::Entry::bytes(*entry).len()).sum();
    println!("{} entries, {} bytes", entries.len(), bytes + 4);
    if !planted.is_empty() {
        let of = |range: Range<u8>| planted.iter().filter(|entry| range.contains(&entry.planted)).count();
        println!("planted besides: {} wrong numbers, {} wrong sheets, {} changed", of(WRONG..2), of(2..3), of(3..9));
    }
    let count = |test: &dyn Fn(&Retime) -> bool| entries.iter().filter(|entry| test(entry)).count();
    println!("| refusal | preview | change |\n|---|---|---|");
    for refusal in REFUSALS {
        let [preview, change] =
            [count(&|entry| entry.preview[0] == refusal), count(&|entry| entry.change[0] == refusal)];
        println!("| {refusal} | {preview} | {change} |");
    }
    pairs(FAULTS, &entries.iter().map(|entry| faults(entry)).collect::<Vec<_>>());
    let made = count(&|entry| entry.change[0] == 0);
    println!("changes made: {made}, {} with the same times", count(&|entry| entry.change[0] == 0 && entry.is_same()));
    turned(&entries);
    sizes(&entries);
}

/// What the search gives the sheet as it is, and the changed one.
fn turned(entries: &[&Retime]) {
    let searched = [&REFUSALS[..1], &REFUSALS[10..17]].concat();
    println!("| as it is | {} |", searched.iter().map(|after| format!("then {after}")).collect::<Vec<_>>().join(" | "));
    println!("|---|{}", "---|".repeat(searched.len()));
    let made: Vec<&&Retime> = entries.iter().filter(|entry| entry.change[0] == 0).collect();
    for &before in &searched {
        let from = |entry: &&&&Retime| usize::from(check(&entry.case.sheet, entry.case.work).refusal) == before;
        let of: Vec<&&&Retime> = made.iter().filter(from).collect();
        let counts = searched.iter().map(|&after| of.iter().filter(|entry| entry.preview[0] == after).count().to_string());
        println!("| {before} | {} |", counts.collect::<Vec<_>>().join(" | "));
    }
}

fn sizes(entries: &[&Retime]) {
    let steps = |entry: &&Retime| entry.preview[2];
    let total: usize = entries.iter().map(|entry| steps(entry)).sum();
    println!("{total} steps in all, at most {} in one", entries.iter().map(|entry| steps(entry)).max().unwrap_or(0));
    let count = |test: &dyn Fn(&Case) -> bool| entries.iter().filter(|entry| test(&entry.case)).count();
    let copies: [&dyn Fn(&Case) -> bool; 5] = [
        &|case| case.copy == 0,
        &|case| case.copy > 0 && case.copy + 1 < case.sheet.len(),
        &|case| case.copy > 0 && case.copy + 1 == case.sheet.len(),
        &|case| case.copy == case.sheet.len(),
        &|case| case.copy > case.sheet.len(),
    ];
    println!("copy buffers of 0 bytes, shorter, one short, the sheet's length, longer: {:?}", copies.map(count));
    let works = [0..1, 1..100, 100..200, 200..1000, 1000..usize::MAX];
    let of = |range: Range<usize>| count(&|case| range.contains(&case.work));
    println!("work buffers of 0, to 99, to 199, to 999, more numbers: {:?}", works.map(of));
    let lengths = entries.iter().map(|entry| entry.case.sheet.len());
    println!("longest sheet {} bytes; longest window {:?}", lengths.max().unwrap_or(0), window(entries));
}

/// The window whose high is the greatest.
fn window(entries: &[&Retime]) -> (usize, usize) {
    entries.iter().map(|entry| (entry.preview[4], entry.preview[3])).max().map_or((0, 0), |(high, low)| (low, high))
}
