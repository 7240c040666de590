//! The entries of a corpus of chains that try whoever compares: copies, spread among the others, in which
//! something that is stated of one step is wrong.

use crate::chain_corpus::{Chain, MOST_OTHERWISE, STEP, WRONG_SHEET};
use crate::chain_steps::{made, otherwise, Case, Stated, Step};
use crate::entries::{with_copies, Entry, WRONG};
use crate::field::HEADER;
use crate::retime_back::old_of;
use crate::retime_change::{place_of, write_times, Asked};
use std::collections::BTreeMap;
use std::ops::Range;

/// Only entries with shorter sheets have copies.
const LONG: usize = 300;
/// Where in a step refusal and place stand, and what the change did.
const TOLD: Range<usize> = 49..52;
const DID: Range<usize> = 52..100;

/// Where in its chain the step stands.
#[derive(Clone, Copy)]
enum Position {
    First,
    Middle,
    Last,
}
const POSITIONS: [Position; 3] = [Position::First, Position::Middle, Position::Last];

#[derive(Clone, Copy)]
enum Wrong {
    /// A bit of this byte of the step.
    Byte(usize),
    /// The sheet, in the way of this number.
    Sheet(usize),
}

/// A wrong thing that some copy is to have, and of what step.
#[derive(Clone, Copy)]
struct Wish {
    back: bool,
    accepted: bool,
    position: Position,
    wrong: Wrong,
}

/// Each byte of refusal and place, in each position, and each of what a change did; each way of a wrong sheet.
fn wishes() -> Vec<Wish> {
    let mut all = Vec::new();
    for (back, accepted) in [(false, true), (false, false), (true, true), (true, false)] {
        let mut wish = |position, wrong| all.push(Wish { back, accepted, position, wrong });
        for position in POSITIONS {
            TOLD.for_each(|byte| wish(position, Wrong::Byte(byte)));
            (0..if accepted { 5 } else { 3 }).for_each(|way| wish(position, Wrong::Sheet(way)));
        }
        for byte in DID.filter(|_| !back) {
            wish(POSITIONS[byte % 3], Wrong::Byte(byte));
        }
    }
    all
}

/// The sheet with the times written that the step asks for, if it names a statement and they have two
/// bytes each.
fn with_times(sheet: &[u8], step: &Step) -> Option<Vec<u8>> {
    let asked = match step {
        Step::Change(asked) => *asked,
        Step::Back(change) => old_of(*change),
        Step::Written(..) => return None,
    };
    let Asked { least, greatest, .. } = asked;
    let at = place_of(sheet, asked)? + HEADER;
    let mut after = sheet.to_vec();
    (least.max(greatest) <= 65_535 && at + 4 <= sheet.len()).then(|| write_times(&mut after, at, asked))?;
    Some(after)
}

/// What is otherwise after a step that is accepted: its first or last byte is wrong, there is none, or one
/// more before or behind it. After one that is refused: a byte at either end of the sheet, or the times
/// that it asks for.
fn wrong_sheet(before: &[u8], step: &Step, stated: &Stated, way: usize) -> Option<(usize, Vec<u8>)> {
    let (start, end) = (stated.at, stated.at + stated.otherwise.len());
    let mut after = before.to_vec();
    after[start..end].copy_from_slice(&stated.otherwise);
    let room = (1..MOST_OTHERWISE).contains(&(end - start));
    match (stated.refusal == 0, way) {
        (true, _) if start == end => return None,
        (true, 0) => after[start] ^= 0x01,
        (true, 1) => after[end - 1] ^= 0x80,
        (true, 2) => after = before.to_vec(),
        (true, 3) if room => after[start - 1] ^= 0x01,
        (true, 4) if room => after[end] ^= 0x80,
        (true, _) => return None,
        (false, 0) => *after.first_mut()? ^= 0x01,
        (false, 1) => *after.last_mut()? ^= 0x80,
        (false, _) => after = with_times(before, step)?,
    }
    let (at, bytes) = otherwise(before, &after);
    ((at, &bytes) != (stated.at, &stated.otherwise) && bytes.len() <= MOST_OTHERWISE).then_some((at, bytes))
}

impl Wish {
    /// The number of the step in a chain that the wish is about, if it fits.
    fn step_of(&self, chain: &Chain) -> Option<usize> {
        let count = chain.case.steps.len();
        let nth = match self.position {
            Position::First => 0,
            Position::Middle => count / 2,
            Position::Last => count.checked_sub(1)?,
        };
        let of_kind = match chain.case.steps.get(nth)? {
            Step::Change(_) => !self.back,
            Step::Back(_) => self.back,
            Step::Written(..) => false,
        };
        let fits = count >= 3 && chain.case.sheet.len() < LONG && chain.planted == 0;
        (fits && of_kind && (chain.stated[nth].refusal == 0) == self.accepted).then_some(nth)
    }

    /// The copy of a chain that has what is wished, as it stands in the corpus.
    fn copy_of(&self, chain: &Chain) -> Option<Vec<u8>> {
        let nth = self.step_of(chain)?;
        let Case { sheet, steps } = &chain.case;
        match self.wrong {
            Wrong::Byte(byte) => {
                let mut copy = chain.bytes();
                copy[0] = WRONG;
                copy[Chain::FRONT + sheet.len() + STEP * nth + byte] ^= if self.accepted { 0x01 } else { 0x80 };
                Some(copy)
            }
            Wrong::Sheet(way) => {
                let mut before = sheet.clone();
                steps[..nth].iter().for_each(|step| drop(made(&mut before, step)));
                let mut stated = chain.stated.clone();
                (stated[nth].at, stated[nth].otherwise) = wrong_sheet(&before, &steps[nth], &stated[nth], way)?;
                Some(Chain { case: chain.case.clone(), stated, planted: WRONG_SHEET }.bytes())
            }
        }
    }
}

/// The entries, some of them followed by a copy with something wrong. None if there are too few entries.
pub fn planted(entries: &[Chain]) -> Option<Vec<u8>> {
    let wishes = wishes();
    let mut copies = BTreeMap::new();
    for (nth, wish) in wishes.iter().enumerate() {
        // so that they are spread, the search for an entry begins at another for each
        let start = (2 * nth + 1) * entries.len() / (2 * wishes.len());
        let free = (start..entries.len()).chain(0..start).filter(|at| !copies.contains_key(at));
        let (at, copy) = free.filter_map(|at| Some((at, wish.copy_of(&entries[at])?))).next()?;
        copies.insert(at, copy);
    }
    Some(with_copies(entries, copies))
}
