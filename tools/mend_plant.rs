//! The entries of a corpus of mends that try whoever compares: copies, spread among the others, in which one
//! number, one byte of the first output or one number of the second is stated wrong.

use crate::entries::{with_copies, Entry, WRONG};
use crate::mend_corpus::{Mend, WRONG_LIST, WRONG_SHEET};
use std::collections::BTreeMap;
use std::ops::Range;

/// Only entries with fewer bytes have copies.
const LONG: usize = 700;
/// Wishes of one kind are so far apart.
const STRIDE: usize = 53;
/// Where in the front refusal, place, written and listed stand.
const TOLD: Range<usize> = 13..24;

/// Where in an output, which has a filled part and zeros behind it: a refused one has only zeros.
#[derive(Clone, Copy)]
enum At {
    First,
    Second,
    Middle,
    LastButOne,
    Last,
    /// The first byte that is not the original's.
    Changed,
    FirstZero,
    MiddleZero,
    LastZero,
}
use At::*;

const OF_SHEET: [At; 8] = [First, Middle, Last, Changed, LastButOne, FirstZero, MiddleZero, LastZero];
const OF_LIST: [At; 6] = [First, Second, LastButOne, Last, FirstZero, LastZero];
const OF_ZEROS: [At; 3] = [FirstZero, MiddleZero, LastZero];

#[derive(Clone, Copy)]
enum Wrong {
    /// These bits of a byte of the front.
    Told(usize, u8),
    /// These bits of a byte of the first output.
    Sheet(At, u8),
    /// These bits of a number of the second.
    List(At, usize),
}

/// A wrong thing that some copy is to have.
#[derive(Clone, Copy)]
struct Wish {
    accepted: bool,
    wrong: Wrong,
}

/// Each byte of the four numbers; each place in either output. All of it of entries that are accepted and of
/// such that are not.
fn wishes() -> Vec<Wish> {
    let mut all = Vec::new();
    for accepted in [true, false] {
        let mut wish = |wrong| all.push(Wish { accepted, wrong });
        for byte in TOLD {
            [0x01, 0x80].into_iter().for_each(|bits| wish(Wrong::Told(byte, bits)));
        }
        let (of_sheet, of_list) = if accepted { (&OF_SHEET[..], &OF_LIST[..]) } else { (&OF_ZEROS[..], &OF_ZEROS[..]) };
        for &at in of_sheet {
            [0x01, 0x80, 0x06, 0x10].into_iter().for_each(|bits| wish(Wrong::Sheet(at, bits)));
        }
        for &at in of_list {
            [0x01, 0x03, 0x0100, 0x0001_0000, 0x8000_0000].into_iter().for_each(|bits| wish(Wrong::List(at, bits)));
        }
    }
    all
}

impl At {
    /// The index in an output of this length with so much filled, if there is one.
    fn index(self, filled: usize, length: usize, changed: Option<usize>) -> Option<usize> {
        let within = |at: usize, part: Range<usize>| part.contains(&at).then_some(at);
        match self {
            First => within(0, 0..filled),
            Second => within(1, 0..filled),
            Middle => within(filled / 2, 0..filled),
            LastButOne => within(filled.checked_sub(2)?, 0..filled),
            Last => within(filled.checked_sub(1)?, 0..filled),
            Changed => within(changed?, 0..filled),
            FirstZero => within(filled, filled..length),
            MiddleZero => within((filled + length) / 2, filled..length),
            LastZero => within(length.checked_sub(1)?, filled..length),
        }
    }
}

impl Wish {
    /// The copy of an entry that has what is wished, as it stands in the corpus.
    fn copy_of(&self, entry: &Mend) -> Option<Vec<u8>> {
        let stated = &entry.stated;
        let mut copy = entry.bytes();
        if entry.planted != 0 || copy.len() > LONG || (stated.refusal == 0) != self.accepted {
            return None;
        }
        match self.wrong {
            Wrong::Told(byte, bits) => {
                copy[byte] ^= bits;
                copy[0] = WRONG;
                Some(copy)
            }
            Wrong::Sheet(at, bits) => {
                let original = &entry.case.sheet;
                let changed = (0..original.len().min(stated.written)).find(|&at| original[at] != stated.sheet[at]);
                let mut stated = stated.clone();
                let index = at.index(stated.written, stated.sheet.len(), changed)?;
                stated.sheet[index] ^= bits;
                Some(Mend { case: entry.case.clone(), stated, planted: WRONG_SHEET }.bytes())
            }
            Wrong::List(at, bits) => {
                let mut stated = stated.clone();
                let index = at.index(stated.listed, stated.list.len(), None)?;
                stated.list[index] ^= bits;
                Some(Mend { case: entry.case.clone(), stated, planted: WRONG_LIST }.bytes())
            }
        }
    }
}

/// The entries, some of them followed by a copy with something wrong. None if there are too few entries.
pub fn planted(entries: &[Mend]) -> Option<Vec<u8>> {
    let wishes = wishes();
    let mut copies = BTreeMap::new();
    for (nth, wish) in wishes.iter().enumerate() {
        // so that they are spread, and those of one kind too, the search for an entry begins at another for each
        let start = (2 * (nth * STRIDE % wishes.len()) + 1) * entries.len() / (2 * wishes.len());
        let mut free = (start..entries.len()).chain(0..start).filter(|at| !copies.contains_key(at));
        let (at, copy) = free.find_map(|at| Some((at, wish.copy_of(&entries[at])?)))?;
        copies.insert(at, copy);
    }
    Some(with_copies(entries, copies))
}
