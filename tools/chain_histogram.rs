//! What stands in a corpus of chains.

use crate::chain_corpus::{Chain, WRONG_SHEET};
use crate::chain_steps::{made, Case, Stated, Step};
use crate::entries::{Entry, WRONG};
use crate::fault_pairs::pairs;
use crate::retime_back::{old_of, shows_new};
use crate::retime_change::{code_at, may_have, place_of, statements, Change, HALT};
use crate::sheet_reads::reads;
use std::ops::Range;

/// The numbers that a change or a taking back can give.
const REFUSALS: [usize; 11] = [0, 1, 2, 3, 4, 5, 6, 7, 8, 9, 18];
/// The code of a statement that is no halt.
const SKIP: u8 = 1;
/// What may be wrong with a taking back, in the order in which it is told.
const FAULTS: [&str; 4] = ["the sheet's own", "5", "4", "18"];

/// A step, what is stated of it, and the sheet before it.
struct Seen {
    step: Step,
    stated: Stated,
    before: Vec<u8>,
}

impl Seen {
    fn is_change(&self) -> bool {
        matches!(self.step, Step::Change(_))
    }

    fn back(&self) -> Option<Change> {
        if let Step::Back(change) = self.step {
            Some(change)
        } else {
            None
        }
    }

    /// Whether it is accepted and leaves the sheet as it was.
    fn is_same(&self) -> bool {
        self.stated.refusal == 0 && self.stated.otherwise.is_empty()
    }

    /// Which of the faults a taking back has, each by itself. Where no statement is named, old times are
    /// wrong that none may have, and the new times are not shown.
    fn faults(&self) -> Option<[bool; 4]> {
        let change = self.back()?;
        let (sheet, old) = (&self.before, old_of(change));
        let place = place_of(sheet, old).filter(|place| place + 8 <= sheet.len());
        let allowed = match place.and_then(|place| code_at(sheet, place)) {
            Some(code) => may_have(code, old),
            None => may_have(HALT, old) || may_have(SKIP, old),
        };
        let shown = place.is_some_and(|place| shows_new(sheet, place, change));
        Some([reads(sheet).is_err(), place.is_none(), !allowed, !shown])
    }
}

/// The steps of a chain, and the sheet behind the last.
fn seen(chain: &Chain) -> (Vec<Seen>, Vec<u8>) {
    let Case { sheet, steps } = &chain.case;
    let mut now = sheet.clone();
    let mut all = Vec::new();
    for (step, stated) in steps.iter().zip(&chain.stated) {
        all.push(Seen { step: step.clone(), stated: stated.clone(), before: now.clone() });
        made(&mut now, step);
    }
    (all, now)
}

/// The planted entries are counted apart.
pub fn histogram(all: &[Chain]) {
    let (entries, planted): (Vec<&Chain>, Vec<&Chain>) = all.iter().partition(|entry| entry.planted == 0);
    let bytes: usize = entries.iter().map(|entry| entry.bytes().len()).sum();
    println!("{} entries, {} bytes", entries.len(), bytes + 4);
    if !planted.is_empty() {
        let of = |what: u8| planted.iter().filter(|entry| entry.planted == what).count();
        println!("planted besides: {} wrong numbers, {} wrong sheets", of(WRONG), of(WRONG_SHEET));
    }
    let chains: Vec<(Vec<Seen>, Vec<u8>)> = entries.iter().map(|entry| seen(entry)).collect();
    let steps: Vec<&Seen> = chains.iter().flat_map(|(steps, _)| steps).collect();
    kinds(&steps);
    // of those taken back
    pairs(FAULTS, &steps.iter().filter_map(|step| step.faults()).collect::<Vec<_>>());
    sizes(&entries);
    let ends = |test: &dyn Fn(&[Seen], bool) -> bool| {
        chains
            .iter()
            .filter(|(steps, last)| test(steps, steps.first().is_some_and(|step| step.before == *last)))
            .count()
    };
    let changed = |steps: &[Seen]| steps.iter().any(|step| !step.stated.otherwise.is_empty());
    println!("chains that end with the first sheet, changed between: {}", ends(&|steps, same| same && changed(steps)));
    println!("chains that end with the first sheet, never changed: {}", ends(&|steps, same| same && !changed(steps)));
    println!("chains that end with another sheet: {}", ends(&|_, same| !same));
}

fn kinds(steps: &[&Seen]) {
    let count = |test: &dyn Fn(&Seen) -> bool| steps.iter().filter(|step| test(step)).count();
    let (changes, backs) = (count(&Seen::is_change), count(&|step| step.back().is_some()));
    println!("{} steps: {changes} changes, {backs} taken back, {} written", steps.len(), steps.len() - changes - backs);
    println!("| refusal | change | taken back |\n|---|---|---|");
    for refusal in REFUSALS {
        let of = |test: &dyn Fn(&Seen) -> bool| count(&|step| step.stated.refusal == refusal && test(step));
        println!("| {refusal} | {} | {} |", of(&Seen::is_change), of(&|step| step.back().is_some()));
    }
    let same = |test: &dyn Fn(&Seen) -> bool| count(&|step| step.is_same() && test(step));
    println!(
        "with the same times: {} changes, {} taken back",
        same(&Seen::is_change),
        same(&|step| step.back().is_some())
    );
    let zeros = |accepted: bool| {
        count(&|step| step.back() == Some(Change::default()) && (step.stated.refusal == 0) == accepted)
    };
    println!("zeros taken back: {} accepted, {} refused", zeros(true), zeros(false));
    let otherwise = |bytes: usize| count(&|step| step.stated.otherwise.len() == bytes);
    println!("steps with 0, 1, 2, 3, 4 bytes otherwise: {:?}", [0, 1, 2, 3, 4].map(otherwise));
}

fn sizes(entries: &[&Chain]) {
    let count = |test: &dyn Fn(&Case) -> bool| entries.iter().filter(|entry| test(&entry.case)).count();
    let of = |steps: Range<usize>| count(&|case| steps.contains(&case.steps.len()));
    println!(
        "chains of 1, 2, 3, 4, 5 to 8, 9 to 12, more steps: {:?}",
        [1..2, 2..3, 3..4, 4..5, 5..9, 9..13, 13..99].map(of)
    );
    let threads =
        |threads: usize| count(&|case| reads(&case.sheet).is_ok() && statements(&case.sheet).len() == threads);
    println!("sheets that read, of 1, 2, 3, 4 threads: {:?}", [1, 2, 3, 4].map(threads));
    println!("sheets that do not read at first: {}", count(&|case| reads(&case.sheet).is_err()));
    let lengths = entries.iter().map(|entry| entry.case.sheet.len());
    println!(
        "sheets above 170 bytes: {}; longest {} bytes",
        count(&|case| case.sheet.len() > 170),
        lengths.max().unwrap_or(0)
    );
}
