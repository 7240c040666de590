//! Budgets and buffers that are scarce, just enough and more: families of sheets that
//! differ only in the budget and in the length of the work buffer, and the claims of 02,
//! ticket 11, tried with the oracle.
//!
//!     rustc --edition 2021 -O -o budgets budgets.rs
//!
//!     budgets make SEED COUNT > FILE    a corpus (corpus.rs describes it) of hand-made families, then of
//!                                       COUNT random ones for each refusal that a search may end with
//!     budgets claims FILE               tries the claims on the sheets of a corpus that read
//!
//! A family has the least budget and the least slots that suffice, and about these: both
//! scarce, then one of them scarce, just enough and more, with plenty of the other. Where
//! more of either changes an answer that is not 13, or not 14, `make` ends with 1.
//! claims.rs says what is claimed.

mod claims;
mod command_line;
#[allow(dead_code)]
mod generator;
#[allow(dead_code)]
mod oracle;

use command_line::{fail, parsed};
use generator::{answer, fields, Generator};
use oracle::{check, Answer, Recorded, MAX_BUDGET, OUT_OF_ROOM, OUT_OF_STEPS, STATE_LENGTH};
use std::collections::BTreeSet;
use std::{env, process};

const NAME: &str = "budgets";

/// The longest buffer that a corpus can state.
const AMPLE: usize = 65_535;
/// Room for ten states at each step: a step makes at most eight.
const ENDLESS: usize = 10 * MAX_BUDGET as usize * STATE_LENGTH;
/// Longer searches, and random sheets of more bytes, have no family.
const MOST_STEPS: u64 = 1000;
const MOST_BYTES: usize = 250;
/// Budgets that would be 1 in one byte and in two, and slots that would be 1 in one byte.
const WRAPPED: [u64; 2] = [0x101, 0x1_0001];
const WRAPPED_SLOTS: usize = 0x101;
/// What a search may end with, given budget and room.
const ENDS: [u8; 6] = [0, 10, 11, 12, 15, 16];

/// "the sum of the powers of 2n from power 0 to power n times L"; None above 64 bits.
fn enough(threads: u64, limit: u64) -> Option<u64> {
    let mut sum = 0u64;
    for power in 0..=threads * limit {
        sum = sum.checked_add((2 * threads).checked_pow(power as u32)?)?;
    }
    Some(sum)
}

// ---- sheets

/// Where the numbers of the first field stand.
const LIMIT: usize = 3;
const BUDGET: usize = 7;

fn number(sheet: &[u8], at: usize) -> u64 {
    u64::from(u32::from_be_bytes([sheet[at], sheet[at + 1], sheet[at + 2], sheet[at + 3]]))
}

fn with(sheet: &[u8], at: usize, number: u64) -> Vec<u8> {
    [&sheet[..at], &(number as u32).to_be_bytes(), &sheet[at + 4..]].concat()
}

/// The number of threads of a sheet that reads.
fn threads(sheet: &[u8]) -> u64 {
    fields(sheet).into_iter().filter(|&place| sheet[place] == 4).count() as u64
}

fn reads(sheet: &[u8], length: usize) -> bool {
    answer(sheet, length).is_none_or(|answer| answer.refusal == 0 || answer.refusal > 9)
}

fn field(tag: u8, body: &[u8]) -> Vec<u8> {
    [&[tag], &(body.len() as u16).to_be_bytes()[..], body].concat()
}

/// Threads of as many statements as the limit, each of one tick, then halt. The first
/// `branching` threads have ifs, `if r < 5 goto` the next statement, each with a register
/// 0..9 of its own; the others have skips.
fn in_step(threads: u8, limit: u8, branching: u8) -> Vec<u8> {
    let numbers = [u32::from(limit), MAX_BUDGET as u32, 0, u32::from(limit)];
    let mut sheet = [field(1, &numbers.map(u32::to_be_bytes).concat()), field(3, &[0])].concat();
    for thread in 0..threads {
        let registers = if thread < branching { limit } else { 0 };
        sheet.extend(field(4, &[registers]));
        sheet.extend(field(5, &[0, 0, 0, 0, 0, 0, 0, 9]).repeat(registers.into()));
        for at in 0..limit {
            let test = [0, 1, 0, 1, 3, at + 1, 37, 17, at, 16, 0, 0, 0, 5];
            sheet.extend(field(6, if thread < branching { &test } else { &[0, 1, 0, 1, 1] }));
        }
        sheet.extend(field(6, &[0; 5]));
    }
    sheet
}

/// Sheets for which `enough` is a budget that a sheet may have.
fn hand_made() -> Vec<Vec<u8>> {
    let mut sheets: Vec<_> = (1..=8).map(|limit| in_step(1, limit, 1)).collect();
    for (threads, limits) in [(2, 5), (3, 2), (4, 1)] {
        for limit in 1..=limits {
            sheets.extend((0..=threads).map(|branching| in_step(threads, limit, branching)));
        }
    }
    sheets
}

// ---- families

struct Family {
    sheet: Vec<u8>,
    end: Answer,
    /// the least that suffices
    budget: u64,
    slots: usize,
}

impl Family {
    /// None if the sheet does not read, the search is too long, or it wants too much room.
    fn of(sheet: &[u8]) -> Option<Family> {
        let given = |budget| check(&with(sheet, BUDGET, budget), AMPLE);
        let end = given(MOST_STEPS);
        if !ENDS.contains(&end.refusal) {
            return None;
        }
        // all are tried, from the lowest on
        let budget = (1..).find(|&budget| given(budget).refusal != OUT_OF_STEPS)?;
        let out = |steps| Answer { refusal: OUT_OF_STEPS, place: 0, steps, low: 0, high: 0 };
        if let Some(less) = (1..budget).find(|&less| given(less) != out(less)) {
            broken("13 with other steps than the budget", &with(sheet, BUDGET, less), AMPLE);
        }
        if let Some(more) = (budget..=2 * budget).chain([MAX_BUDGET]).find(|&more| given(more) != end) {
            broken("another answer under a larger budget", &with(sheet, BUDGET, more), AMPLE);
        }
        let sheet = with(sheet, BUDGET, MAX_BUDGET);
        let slots = (0..).find(|slots| check(&sheet, slots * STATE_LENGTH).refusal != OUT_OF_ROOM)?;
        let lengths = (slots * STATE_LENGTH..(slots + 5) * STATE_LENGTH).chain([AMPLE, ENDLESS]);
        if let Some(more) = lengths.into_iter().find(|&more| check(&sheet, more) != end) {
            broken("another answer under a larger buffer", &sheet, more);
        }
        Some(Family { sheet, end, budget, slots })
    }

    /// Budgets and lengths: both scarce or just enough, then one of them and plenty of the other.
    fn pairs(&self) -> Vec<(u64, usize)> {
        let (budget, length) = (self.budget, self.slots * STATE_LENGTH);
        let short = length - 1;
        // so many lead to 14 with one slot less
        let steps = check(&self.sheet, short).steps;
        let mut pairs = vec![(budget, length), (budget - 1, short), (budget / 2, length)];
        pairs.extend([(steps, short), (steps.max(1) - 1, short), (steps, length)]);
        let budgets = [budget - 1, budget, budget + 1, 2 * budget, MAX_BUDGET].into_iter().chain(WRAPPED);
        pairs.extend(budgets.map(|budget| (budget, AMPLE)));
        let lengths = [STATE_LENGTH, short, length, length + 1, length + STATE_LENGTH - 1, length + STATE_LENGTH];
        pairs.extend(lengths.into_iter().chain([WRAPPED_SLOTS * STATE_LENGTH]).map(|length| (MAX_BUDGET, length)));
        pairs.retain(|&(budget, _)| budget > 0);
        pairs
    }
}

/// Adds families of random sheets, as many for each end of the search.
fn add_random(families: &mut Vec<Family>, seed: u64, count: usize) {
    let mut generator = Generator::new(seed);
    let mut of = ENDS.map(|_| 0);
    while of != ENDS.map(|_| count) {
        let sheet = generator.entry().sheet;
        if sheet.len() > MOST_BYTES || !reads(&sheet, AMPLE) {
            continue;
        }
        let Some(family) = Family::of(&sheet) else { continue };
        let Some(often) = of.iter_mut().zip(ENDS).find(|(_, end)| *end == family.end.refusal) else { continue };
        let known = families.iter().any(|other| other.sheet == family.sheet);
        // searches of a step or two, and of one slot, are rare
        if *often.0 < count && !known && (family.budget > 2 && family.slots > 1 || generator.random.chance(10)) {
            *often.0 += 1;
            families.push(family);
        }
    }
}

fn make(seed: u64, count: usize) -> Vec<Recorded> {
    let mut families: Vec<Family> = hand_made().iter().filter_map(|sheet| Family::of(sheet)).collect();
    for Family { sheet, budget, .. } in families.iter().filter(|family| threads(&family.sheet) == 1) {
        if Some(*budget) != enough(1, number(sheet, LIMIT)) {
            broken("one thread of ifs takes more or fewer steps than the sum", sheet, AMPLE);
        }
    }
    let by_hand = families.len();
    add_random(&mut families, seed, count);
    let mut seen = BTreeSet::new();
    let mut entries = Vec::new();
    for family in &families {
        for (budget, length) in family.pairs() {
            let sheet = with(&family.sheet, BUDGET, budget);
            if seen.insert((sheet.clone(), length)) {
                entries.push(Recorded { answer: check(&sheet, length), sheet, length, planted: 0 });
            }
        }
    }
    let of = ENDS.map(|end| families.iter().filter(|family| family.end.refusal == end).count());
    eprintln!("{} families, {by_hand} made by hand; by end {ENDS:?}: {of:?}", families.len());
    entries
}

// ---- the command line

fn broken(what: &str, sheet: &[u8], length: usize) -> ! {
    let sheet: String = sheet.iter().map(|byte| format!("{byte:02X}")).collect();
    eprintln!("{what}: length {length} sheet {sheet}");
    process::exit(1)
}

fn write(entries: &[Recorded]) {
    let mut out = (entries.len() as u32).to_be_bytes().to_vec();
    out.extend(entries.iter().flat_map(Recorded::bytes));
    command_line::write(&out);
}

fn main() {
    let arguments: Vec<String> = env::args().skip(1).collect();
    let arguments: Vec<&str> = arguments.iter().map(String::as_str).collect();
    match arguments[..] {
        ["make", seed, count] => write(&make(parsed(seed), parsed(count))),
        ["claims", file] => claims::try_all(file),
        _ => fail("usage: budgets make SEED COUNT | claims FILE"),
    }
}
