//! What the corpora of lookups, of records, of new times, of chains, of mends, of texts and of printed sheets have in
//! common: entries of two files each, with the numbers that are due for them. lookup_corpus.rs, record_corpus.rs,
//! retime_corpus.rs, chain_corpus.rs, mend_corpus.rs, text_corpus.rs and print_corpus.rs say what stands in an entry's
//! front. Numbers have the high byte first:
//!
//!     entries                       4 bytes
//!     then for each entry
//!       front                       from byte 1 on the lengths of both files, 4 bytes each
//!       the first file's bytes, then the second's

use std::collections::{BTreeMap, BTreeSet};
use std::ops::Range;
use std::panic::{self, RefUnwindSafe};

/// What is planted in an entry with a wrong number; 0 in an entry that nothing is planted in.
pub const WRONG: u8 = 1;

/// The entry of one of the corpora.
pub trait Entry: RefUnwindSafe + Sized {
    /// The front's length.
    const FRONT: usize;

    fn new(front: &[u8], files: [&[u8]; 2]) -> Self;

    /// The entry as it stands in the corpus.
    fn bytes(&self) -> Vec<u8>;

    fn planted(&self) -> u8;

    fn is_answered(&self) -> bool;

    /// Whether something that it states is wrong.
    fn is_wrong(&self) -> bool {
        self.planted() == WRONG
    }
}

/// An entry whose numbers stand in its front.
pub trait FrontEntry: Entry {
    /// Where in the front the numbers stand, and what is planted.
    const NUMBERS: Range<usize>;
    const PLANTED: usize;
    /// What else is planted in copies of entries that are not refused, and of refused ones, their
    /// numbers being right.
    const OTHERS: [&'static [u8]; 2];

    fn refusal(&self) -> usize;

    fn may_have_copy(&self) -> bool;

    /// A copy with one of the others planted, as it stands in the corpus; `_nth` is its place among them.
    fn with_other(&self, planted: u8, _nth: usize) -> Vec<u8> {
        let mut copy = self.bytes();
        copy[Self::PLANTED] = planted;
        copy
    }
}

/// Cases, none of them twice.
pub struct Cases<C> {
    pub all: Vec<C>,
    seen: BTreeSet<C>,
}

impl<C: Clone + Ord> Cases<C> {
    pub fn new() -> Cases<C> {
        Cases { all: Vec::new(), seen: BTreeSet::new() }
    }

    /// Adds a case that is not yet there.
    pub fn put(&mut self, case: C) -> bool {
        let new = self.seen.insert(case.clone());
        if new {
            self.all.push(case);
        }
        new
    }

    /// So many of the cases that are drawn with their refusals; of each refusal at most its share of a hundred.
    pub fn draw(&mut self, count: usize, shares: &[usize], mut drawn: impl FnMut() -> (C, u8)) {
        let mut of = vec![0; shares.len()];
        while of.iter().sum::<usize>() < count {
            let (case, refusal) = drawn();
            let refusal = usize::from(refusal);
            if of[refusal] * 100 < shares[refusal] * count && self.put(case) {
                of[refusal] += 1;
            }
        }
    }
}

pub fn number(bytes: &[u8]) -> usize {
    bytes.iter().fold(0, |number, &byte| number << 8 | usize::from(byte))
}

pub fn four(number: usize) -> [u8; 4] {
    (number as u32).to_be_bytes()
}

/// The entries of a corpus, or None if the bytes are not of its form.
pub fn read<E: Entry>(bytes: &[u8]) -> Option<Vec<E>> {
    let count = number(bytes.get(..4)?);
    let mut rest = &bytes[4..];
    let mut entries = Vec::new();
    for _ in 0..count {
        let front = rest.get(..E::FRONT)?;
        let second = E::FRONT + number(&front[1..5]);
        let end = second + number(&front[5..9]);
        entries.push(E::new(front, [rest.get(E::FRONT..second)?, rest.get(second..end)?]));
        rest = &rest[end..];
    }
    rest.is_empty().then_some(entries)
}

/// A corpus of entries that are given as bytes.
pub fn corpus(entries: Vec<Vec<u8>>) -> Vec<u8> {
    [four(entries.len()).to_vec(), entries.concat()].concat()
}

/// The entries, some of them followed by a copy with something planted. Each byte of the numbers
/// is wrong in one copy of an entry that is not refused, in its lowest bit, and in one of a refused
/// entry, in its highest. The copies are spread evenly. None if there are too few entries.
pub fn planted<E: FrontEntry>(entries: &[E]) -> Option<Vec<u8>> {
    let mut copies = BTreeMap::new();
    for ((accepted, bit), others) in [(true, 0x01), (false, 0x80)].into_iter().zip(E::OTHERS) {
        let fits = |entry: &E| entry.planted() == 0 && entry.may_have_copy() && (entry.refusal() == 0) == accepted;
        let fitting: Vec<usize> = (0..entries.len()).filter(|&at| fits(&entries[at])).collect();
        let count = E::NUMBERS.len() + others.len();
        for index in 0..count {
            let at = *fitting.get((2 * index + 1) * fitting.len() / (2 * count))?;
            let copy = match index.checked_sub(E::NUMBERS.len()) {
                Some(nth) => entries[at].with_other(others[nth], nth),
                None => with_wrong(&entries[at], E::NUMBERS.start + index, bit),
            };
            if copies.insert(at, copy).is_some() {
                return None;
            }
        }
    }
    Some(with_copies(entries, copies))
}

/// The entries, each followed by the copy that is given for its number, if one is.
pub fn with_copies<E: Entry>(entries: &[E], mut copies: BTreeMap<usize, Vec<u8>>) -> Vec<u8> {
    let with_copy = |(at, entry): (usize, &E)| [Some(entry.bytes()), copies.remove(&at)];
    corpus(entries.iter().enumerate().flat_map(with_copy).flatten().collect())
}

/// A copy with this bit of this byte changed.
fn with_wrong<E: FrontEntry>(entry: &E, byte: usize, bit: u8) -> Vec<u8> {
    let mut copy = entry.bytes();
    copy[byte] ^= bit;
    copy[E::PLANTED] = WRONG;
    copy
}

/// No bytes are shown as a dash.
pub fn hex(bytes: &[u8]) -> String {
    match bytes {
        [] => String::from("-"),
        _ => bytes.iter().map(|byte| format!("{byte:02X}")).collect(),
    }
}

/// How many entries are answered otherwise, and how many end in a panic.
fn changed<E: Entry>(entries: &[&E]) -> (usize, usize) {
    let (mut otherwise, mut panics) = (0, 0);
    for entry in entries {
        match panic::catch_unwind(|| entry.is_answered()) {
            Ok(answered) => otherwise += usize::from(!answered),
            Err(_) => panics += 1,
        }
    }
    (otherwise, panics)
}

pub fn compare<E: Entry>(entries: &[E]) {
    let (wrong, right): (Vec<&E>, Vec<&E>) = entries.iter().partition(|entry| entry.is_wrong());
    panic::set_hook(Box::new(|_| {}));
    let (otherwise, panics) = changed(&right);
    println!("{otherwise} of {} entries are answered otherwise, {panics} end in a panic", right.len());
    if !wrong.is_empty() {
        println!("{} of {} that state something wrong are answered otherwise", changed(&wrong).0, wrong.len());
    }
}
