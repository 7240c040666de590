//! The entries of a corpus of texts that try whoever compares: copies, spread among the others, in which one number or
//! one byte of the output is stated wrong.

use crate::entries::{with_copies, Entry, WRONG};
use crate::text_corpus::{Typed, WRONG_SHEET};
use std::collections::BTreeMap;
use std::ops::Range;

/// Only entries with fewer bytes have copies.
const LONG: usize = 500;
/// Wishes of one kind are so far apart.
const STRIDE: usize = 37;
/// Where in the front refusal, place and written stand.
const TOLD: Range<usize> = 9..18;

/// Where in the output, which has a sheet and zeros behind it: a refused one has only zeros.
#[derive(Clone, Copy)]
enum At {
    First,
    Second,
    Middle,
    LastButOne,
    Last,
    FirstZero,
    MiddleZero,
    LastZero,
}
use At::*;

const OF_SHEET: [At; 8] = [First, Second, Middle, LastButOne, Last, FirstZero, MiddleZero, LastZero];
const OF_ZEROS: [At; 3] = [FirstZero, MiddleZero, LastZero];

#[derive(Clone, Copy)]
enum Wrong {
    /// These bits of a byte of the front.
    Told(usize, u8),
    /// These bits of a byte of the output.
    Sheet(At, u8),
}

/// A wrong thing that some copy is to have.
#[derive(Clone, Copy)]
struct Wish {
    accepted: bool,
    wrong: Wrong,
}

/// Each byte of the three numbers; each place in the output. All of it of entries that are accepted and of such that
/// are not.
fn wishes() -> Vec<Wish> {
    let mut all = Vec::new();
    for accepted in [true, false] {
        let mut wish = |wrong| all.push(Wish { accepted, wrong });
        for byte in TOLD {
            [0x01, 0x80].into_iter().for_each(|bits| wish(Wrong::Told(byte, bits)));
        }
        for &at in if accepted { &OF_SHEET[..] } else { &OF_ZEROS } {
            [0x01, 0x80, 0x06, 0x10].into_iter().for_each(|bits| wish(Wrong::Sheet(at, bits)));
        }
    }
    all
}

impl At {
    /// The index in an output of this length with so much filled, if there is one.
    fn index(self, filled: usize, length: usize) -> Option<usize> {
        let within = |at: usize, part: Range<usize>| part.contains(&at).then_some(at);
        match self {
            First => within(0, 0..filled),
            Second => within(1, 0..filled),
            Middle => within(filled / 2, 0..filled),
            LastButOne => within(filled.checked_sub(2)?, 0..filled),
            Last => within(filled.checked_sub(1)?, 0..filled),
            FirstZero => within(filled, filled..length),
            MiddleZero => within((filled + length) / 2, filled..length),
            LastZero => within(length.checked_sub(1)?, filled..length),
        }
    }
}

impl Wish {
    /// The copy of an entry that has what is wished, as it stands in the corpus.
    fn copy_of(&self, entry: &Typed) -> Option<Vec<u8>> {
        let mut copy = entry.bytes();
        if entry.planted != 0 || copy.len() > LONG || (entry.stated.refusal == 0) != self.accepted {
            return None;
        }
        match self.wrong {
            Wrong::Told(byte, bits) => {
                copy[byte] ^= bits;
                copy[0] = WRONG;
            }
            Wrong::Sheet(at, bits) => {
                let (filled, length) = (entry.stated.written, entry.stated.sheet.len());
                let start = copy.len() - length;
                copy[start + at.index(filled, length)?] ^= bits;
                copy[0] = WRONG_SHEET;
            }
        }
        Some(copy)
    }
}

/// The entries, some of them followed by a copy with something wrong. None if there are too few entries.
pub fn planted(entries: &[Typed]) -> Option<Vec<u8>> {
    let wishes = wishes();
    let mut copies = BTreeMap::new();
    for (nth, wish) in wishes.iter().enumerate() {
        // so that they are spread, and those of one kind too, the search for an entry begins at another for each
        let start = (2 * (nth * STRIDE % wishes.len()) + 1) * entries.len() / (2 * wishes.len());
        let mut free = (start..entries.len()).chain(0..start).filter(|at| !copies.contains_key(at));
        let (at, copy) = free.find_map(|at| Some((at, wish.copy_of(&entries[at])?)))?;
        copies.insert(at, copy);
    }
    Some(with_copies(entries, copies))
}
