//! The corpus of chains that chains.rs makes and reads: a sheet, and steps made on it one behind the other.
//! Numbers have the high byte first:
//!
//!     entries                      4 bytes
//!     then for each entry
//!       planted                    1 byte
//!       sheet's length             4 bytes
//!       length of the steps        4 bytes, 107 times their number
//!       the sheet's bytes
//!       the steps, 107 bytes each:
//!         kind                     1 byte: 0 a change, 1 a change taken back, 2 bytes written by someone else
//!         thread, statement        8 bytes each
//!         four times               8 bytes each: of a change least, greatest, 0, 0; of one taken back old
//!                                  least, old greatest, new least, new greatest
//!         refusal, place           1 byte and 2 bytes
//!         what the change did      8 bytes each: thread, statement, old least, old greatest, new least, new
//!                                  greatest; of a taking back zeros
//!         where it is otherwise    2 bytes
//!         how many bytes there     1 byte, 0 to 4
//!         these bytes              4 bytes, zeros behind them
//!
//! What is otherwise in the sheet after a step is the part from the first byte that differs from the sheet
//! before this step to the last, 0 and 0 if none does. Of a step of kind 2 the rest is zeros, and whoever
//! compares writes these bytes into the sheet. The sheet before a step is the one that the step
//! before it left, whatever was stated of that one.
//!
//! Planted is 0, but for the entries that try whoever compares. With 1, one number of one step is wrong: its
//! refusal, its place or one of the six of what the change did. With 2, what is otherwise after one step
//! is wrong.

use crate::chain_steps::{answered, Case, Stated, Step};
use crate::entries::{corpus, four, hex, number, Entry, WRONG};
use crate::retime_change::{Asked, Change};

pub const STEP: usize = 107;
/// Bytes that a step makes otherwise at most: the four of the times.
pub const MOST_OTHERWISE: usize = 4;
const CHANGE: u8 = 0;
const BACK: u8 = 1;
const WRITTEN: u8 = 2;
/// What is planted where a sheet is wrong.
pub const WRONG_SHEET: u8 = 2;

pub struct Chain {
    pub case: Case,
    pub stated: Vec<Stated>,
    pub planted: u8,
}

impl Entry for Chain {
    const FRONT: usize = 9;

    fn new(front: &[u8], [sheet, steps]: [&[u8]; 2]) -> Chain {
        let (steps, stated) = steps.chunks(STEP).map(step_of).unzip();
        Chain { case: Case { sheet: sheet.to_vec(), steps }, stated, planted: front[0] }
    }

    fn bytes(&self) -> Vec<u8> {
        let Case { sheet, steps } = &self.case;
        let mut bytes = vec![self.planted];
        bytes.extend([four(sheet.len()), four(STEP * steps.len())].concat());
        bytes.extend(sheet);
        bytes.extend(steps.iter().zip(&self.stated).flat_map(|(step, stated)| step_bytes(step, stated)));
        bytes
    }

    fn planted(&self) -> u8 {
        self.planted
    }

    fn is_answered(&self) -> bool {
        answered(&self.case) == self.stated
    }

    fn is_wrong(&self) -> bool {
        [WRONG, WRONG_SHEET].contains(&self.planted)
    }
}

/// A step and what is stated of it; what does not have its length, or is of no kind, gives a panic.
fn step_of(bytes: &[u8]) -> (Step, Stated) {
    let numbers = |from: usize| [0, 1, 2, 3, 4, 5].map(|at| number(&bytes[from + 8 * at..][..8]) as u64);
    let count = usize::from(bytes[102]).min(MOST_OTHERWISE);
    let stated = Stated {
        refusal: bytes[49].into(),
        place: number(&bytes[50..52]),
        change: numbers(52),
        at: number(&bytes[100..102]),
        otherwise: bytes[103..STEP][..count].to_vec(),
    };
    let [thread, statement, least, greatest, ..] = numbers(1);
    let step = match bytes[0] {
        CHANGE => Step::Change(Asked { thread, statement, least, greatest }),
        BACK => Step::Back(Change::of(numbers(1))),
        WRITTEN => Step::Written(stated.at, stated.otherwise.clone()),
        kind => panic!("no kind of step: {kind}"),
    };
    (step, stated)
}

fn step_bytes(step: &Step, stated: &Stated) -> Vec<u8> {
    let (kind, numbers) = match step {
        Step::Change(Asked { thread, statement, least, greatest }) => {
            (CHANGE, [*thread, *statement, *least, *greatest, 0, 0])
        }
        Step::Back(change) => (BACK, change.numbers()),
        Step::Written(..) => (WRITTEN, [0; 6]),
    };
    let two = |number: usize| (number as u16).to_be_bytes();
    let mut bytes = vec![kind];
    bytes.extend(numbers.map(u64::to_be_bytes).concat());
    bytes.push(stated.refusal as u8);
    bytes.extend(two(stated.place));
    bytes.extend(stated.change.map(u64::to_be_bytes).concat());
    bytes.extend(two(stated.at));
    bytes.push(stated.otherwise.len() as u8);
    bytes.extend(&stated.otherwise);
    bytes.resize(STEP, 0);
    bytes
}

/// A corpus of these cases with what change and taking back give them.
pub fn corpus_of(cases: Vec<Case>) -> Vec<u8> {
    let bytes = |case: Case| Chain { stated: answered(&case), case, planted: 0 }.bytes();
    corpus(cases.into_iter().map(bytes).collect())
}

/// Each entry as a line with its sheet, then a line for each of its steps.
pub fn list(entries: &[Chain]) {
    let text = |numbers: &[u64]| numbers.iter().map(u64::to_string).collect::<Vec<_>>().join(" ");
    for Chain { case: Case { sheet, steps }, stated, planted } in entries {
        let planted = if *planted == 0 { String::new() } else { format!(" planted {planted}") };
        println!("{}{planted}", hex(sheet));
        for (step, Stated { refusal, place, change, at, otherwise }) in steps.iter().zip(stated) {
            let asked = match step {
                Step::Change(Asked { thread, statement, least, greatest }) => {
                    format!("change {thread} {statement} {least} {greatest}: {refusal} {place} {}", text(change))
                }
                Step::Back(change) => format!("take back {}: {refusal} {place}", text(&change.numbers())),
                Step::Written(..) => String::from("written"),
            };
            println!("    {asked}; at {at} {}", hex(otherwise));
        }
    }
}
