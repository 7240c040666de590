//! The claims of 02, ticket 11, tried with the oracle on the sheets of a corpus that read;
//! a module of budgets.rs.
//!
//!     1  any answer but 13 keeps its five numbers under every larger budget
//!     2  any answer but 14 keeps its five numbers under every larger buffer
//!     3  a budget of at least `enough` never meets 13
//!     4  a run of an accepted sheet has at most threads times limit events
//!
//! The first sheet that breaks one ends the program with 1, and is printed.

use crate::command_line::{contents, fail};
use crate::generator::answer;
use crate::oracle::{check, every_run, recorded, runs, Answer, MAX_BUDGET, OUT_OF_ROOM, OUT_OF_STEPS, STATE_LENGTH};
use crate::{broken, enough, number, reads, threads, with};
use crate::{AMPLE, BUDGET, ENDLESS, LIMIT, WRAPPED, WRAPPED_SLOTS};
use std::collections::BTreeSet;

/// All runs of a sheet are followed as far as this many events; besides, some are taken at random.
const MOST_EVENTS: u64 = 2000;
const RUNS: u64 = 20;

/// Where the label stands in the first field.
const LABEL: [usize; 2] = [11, 15];

/// The sheet with another limit, the label kept below it.
fn limited(sheet: &[u8], limit: u64) -> Vec<u8> {
    LABEL.into_iter().fold(with(sheet, LIMIT, limit), |sheet, at| with(&sheet, at, number(&sheet, at).min(limit)))
}

/// What was compared; arrays are by the number of threads.
#[derive(Default)]
struct Counts {
    budgets: usize,
    buffers: usize,
    sums: [usize; 5],
    too_large: [usize; 5],
    lowered: [usize; 5],
    /// steps and sum where their ratio is greatest, the largest of these
    nearest: [(u64, u64); 5],
    accepted: usize,
    whole: usize,
    exact: usize,
}

/// How many answers stand behind the first with another refusal than `but`; None if one
/// of them differs from it. A search of too many steps counts as 13.
fn kept(answers: impl Iterator<Item = Option<Answer>>, but: u8) -> Option<usize> {
    let is = |answer: &Option<Answer>| answer.map_or(OUT_OF_STEPS, |answer| answer.refusal) == but;
    let rest: Vec<_> = answers.skip_while(is).collect();
    rest.iter().all(|answer| *answer == rest[0]).then_some(rest.len().max(1) - 1)
}

/// Claims 1 and 2, with budgets and lengths that may just suffice, the entry's own, and larger ones.
fn try_larger(sheet: &[u8], length: usize, counts: &mut Counts) {
    let own = number(sheet, BUDGET);
    let steps = answer(sheet, length).map_or(own, |answer| answer.steps);
    let mut budgets = BTreeSet::from([1, 2, steps.max(1) - 1, steps, steps + 1, 2 * steps, own, own + 1, 2 * own]);
    budgets.extend([MAX_BUDGET].into_iter().chain(WRAPPED));
    budgets.retain(|budget| (1..=MAX_BUDGET).contains(budget));
    let answers = budgets.iter().map(|&budget| answer(&with(sheet, BUDGET, budget), length));
    counts.budgets += kept(answers, OUT_OF_STEPS).unwrap_or_else(|| broken("claim 1", sheet, length));

    let mut lengths = BTreeSet::from([length, length + 1, length + STATE_LENGTH, 2 * length, AMPLE, ENDLESS]);
    for slots in (0..=8).chain([WRAPPED_SLOTS]) {
        lengths.extend([slots * STATE_LENGTH, (slots + 1) * STATE_LENGTH - 1]);
    }
    let answers = lengths.iter().map(|&length| answer(sheet, length));
    counts.buffers += kept(answers, OUT_OF_ROOM).unwrap_or_else(|| broken("claim 2", sheet, length));
}

/// Claim 3 with this limit; false if no sheet may have the sum as its budget.
fn try_sum(sheet: &[u8], limit: u64, counts: &mut Counts) -> bool {
    let threads = threads(sheet);
    let Some(sum) = enough(threads, limit).filter(|&sum| sum <= MAX_BUDGET) else { return false };
    let sheet = with(&limited(sheet, limit), BUDGET, sum);
    let found = check(&sheet, ENDLESS);
    if found.refusal == OUT_OF_STEPS {
        broken("claim 3", &sheet, ENDLESS);
    }
    let nearest = &mut counts.nearest[threads as usize];
    if (found.steps * nearest.1, sum) >= (nearest.0 * sum, nearest.1) {
        *nearest = (found.steps, sum);
    }
    true
}

/// Claim 3 with the sheet's own limit and with each lower one.
fn try_sums(sheet: &[u8], counts: &mut Counts) {
    let (threads, own) = (threads(sheet) as usize, number(sheet, LIMIT));
    let tried = if try_sum(sheet, own, counts) { &mut counts.sums } else { &mut counts.too_large };
    tried[threads] += 1;
    counts.lowered[threads] += (1..own).take_while(|&limit| try_sum(sheet, limit, counts)).count();
}

/// Claim 4 if the sheet is accepted, with the high of its window as the limit: no event ends later.
fn try_runs(sheet: &[u8], counts: &mut Counts) {
    let Some(found) = answer(sheet, ENDLESS).filter(|answer| answer.refusal == 0) else { return };
    let limit = found.high.max(1);
    let sheet = limited(sheet, limit);
    if check(&sheet, ENDLESS) != found {
        broken("another answer with the window's high as the limit", &sheet, ENDLESS);
    }
    let (all, whole) = every_run(&sheet, MOST_EVENTS).expect("a sheet that reads");
    let some = runs(&sheet, limit, RUNS).expect("a sheet that reads");
    let (longest, most) = (all.longest.max(some.longest), threads(&sheet) * limit);
    if longest > most {
        broken("claim 4", &sheet, ENDLESS);
    }
    counts.accepted += 1;
    counts.whole += usize::from(whole);
    counts.exact += usize::from(longest == most);
}

/// Tries the claims on the sheets of a corpus that read.
pub fn try_all(file: &str) {
    let entries = recorded(&contents(file)).unwrap_or_else(|| fail(&format!("{file}: not a corpus")));
    let entries: BTreeSet<_> = entries.into_iter().map(|entry| (entry.sheet, entry.length)).collect();
    let read: Vec<_> = entries.iter().filter(|(sheet, length)| reads(sheet, *length)).collect();
    let sheets: BTreeSet<_> = read.iter().map(|(sheet, _)| with(sheet, BUDGET, MAX_BUDGET)).collect();
    let mut counts = Counts::default();
    for (sheet, length) in &read {
        try_larger(sheet, *length, &mut counts);
    }
    for sheet in &sheets {
        try_sums(sheet, &mut counts);
        try_runs(sheet, &mut counts);
    }
    let Counts { budgets, buffers, sums, too_large, lowered, nearest, accepted, whole, exact } = counts;
    println!("{} entries, {} that read, {} sheets but for their budgets", entries.len(), read.len(), sheets.len());
    println!("claim 1: {budgets} answers under a larger budget than one that suffices, all the same");
    println!("claim 2: {buffers} answers under a larger buffer than one that suffices, all the same");
    println!("claim 3, by 1 to 4 threads: {:?} sheets, none out of steps", &sums[1..]);
    println!("  {:?} more by a lower limit; {:?} whose sum is above {MAX_BUDGET}", &lowered[1..], &too_large[1..]);
    println!("  steps and sum, where they are nearest: {:?}", &nearest[1..]);
    println!("claim 4: {accepted} accepted sheets, {whole} with all of their runs, {exact} with a run of threads times limit events");
}
