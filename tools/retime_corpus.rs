//! The corpus of new times that retimes.rs makes and reads. Numbers have the high byte first:
//!
//!     entries                          4 bytes
//!     then for each entry
//!       planted                        1 byte
//!       sheet's length                 4 bytes
//!       length of what is otherwise    4 bytes
//!       thread, statement              8 bytes each
//!       least, greatest                8 bytes each
//!       copy buffer's length           4 bytes
//!       work buffer's length           4 bytes
//!       where it is otherwise          2 bytes
//!       the preview's refusal          1 byte, place 2 bytes, steps, low and high 4 bytes each
//!       the change's refusal           1 byte, place 2 bytes
//!       the sheet's bytes, then what is otherwise
//!
//! What is otherwise is the part of the changed sheet from the first byte that differs from the
//! sheet to the last; the changed sheet is the sheet with these bytes there.
//!
//! Planted is 0, but for the entries that try whoever compares. With 1, one of the seven numbers is
//! wrong. With 2, the changed sheet is. With 3 to 8 nothing stated is wrong, and whoever compares
//! changes something right after the preview: the copy buffer's first byte, its last, the work
//! buffer's first number, its last, the sheet's first byte, its last.

use crate::entries::{corpus, four, hex, number, Entry, FrontEntry, WRONG};
use crate::oracle::Answer;
use crate::retime_change::{change, preview, Asked};
use std::ops::Range;

/// Only entries with shorter sheets have copies.
const LONG: usize = 300;
/// What is planted where the changed sheet is wrong.
const WRONG_SHEET: u8 = 2;

#[derive(Clone, PartialEq, Eq, PartialOrd, Ord)]
pub struct Case {
    pub sheet: Vec<u8>,
    pub asked: Asked,
    pub copy: usize,
    pub work: usize,
}

pub struct Retime {
    pub case: Case,
    /// refusal, place, steps, low and high
    pub preview: [usize; 5],
    /// refusal and place
    pub change: [usize; 2],
    /// what the sheet is after the change
    changed: Vec<u8>,
    pub planted: u8,
}

impl Entry for Retime {
    const FRONT: usize = 69;

    fn new(front: &[u8], [sheet, otherwise]: [&[u8]; 2]) -> Retime {
        let [thread, statement, least, greatest] =
            [9..17, 17..25, 25..33, 33..41].map(|at| number(&front[at]) as u64);
        let asked = Asked { thread, statement, least, greatest };
        let [copy, work, at] = [41..45, 45..49, 49..51].map(|at| number(&front[at]));
        let mut changed = sheet.to_vec();
        // what reaches beyond the sheet makes it longer, and so is noticed
        changed.resize(sheet.len().max(at + otherwise.len()), 0);
        changed[at..at + otherwise.len()].copy_from_slice(otherwise);
        Retime {
            case: Case { sheet: sheet.to_vec(), asked, copy, work },
            preview: [51..52, 52..54, 54..58, 58..62, 62..66].map(|at| number(&front[at])),
            change: [66..67, 67..69].map(|at| number(&front[at])),
            changed,
            planted: front[Retime::PLANTED],
        }
    }

    fn bytes(&self) -> Vec<u8> {
        let Case { sheet, asked, copy, work } = &self.case;
        let otherwise = self.otherwise();
        let Asked { thread, statement, least, greatest } = *asked;
        let [refusal, place, steps, low, high] = self.preview;
        let two = |number: usize| (number as u16).to_be_bytes();
        let mut bytes = vec![self.planted];
        bytes.extend([four(sheet.len()), four(otherwise.len())].concat());
        bytes.extend([thread, statement, least, greatest].map(u64::to_be_bytes).concat());
        bytes.extend([four(*copy), four(*work)].concat());
        bytes.extend(two(otherwise.start));
        bytes.push(refusal as u8);
        bytes.extend(two(place));
        bytes.extend([steps, low, high].map(four).concat());
        bytes.push(self.change[0] as u8);
        bytes.extend(two(self.change[1]));
        bytes.extend([&sheet[..], &self.changed[otherwise]].concat());
        bytes
    }

    fn planted(&self) -> u8 {
        self.planted
    }

    fn is_answered(&self) -> bool {
        let Answered { preview, change, changed } = answered(&self.case);
        preview == self.preview && change == self.change && changed == self.changed
    }

    fn is_wrong(&self) -> bool {
        [WRONG, WRONG_SHEET].contains(&self.planted)
    }
}

impl FrontEntry for Retime {
    const NUMBERS: Range<usize> = 51..69;
    const PLANTED: usize = 0;
    const OTHERS: [&'static [u8]; 2] = [&[2, 2, 2, 2, 2, 2, 2, 3, 4, 5, 6, 7, 8], &[2, 2, 2, 3, 4, 5, 6, 7, 8]];

    fn refusal(&self) -> usize {
        self.preview[0]
    }

    /// Something can be changed in sheet and buffers, and a changed sheet has bytes before and behind
    /// those that differ.
    fn may_have_copy(&self) -> bool {
        let Case { sheet, copy, work, .. } = &self.case;
        let changes = self.refusal() != 0 || !self.otherwise().is_empty();
        (2..LONG).contains(&sheet.len()) && *copy > 0 && *work > 0 && changes
    }

    /// A wrong sheet is wrong by one bit, of a changed byte or of another, or lacks the change.
    fn with_other(&self, planted: u8, nth: usize) -> Vec<u8> {
        let mut changed = self.changed.clone();
        if planted == WRONG_SHEET {
            let Range { start, end } = self.otherwise();
            let middle = changed.len() / 2;
            let last = changed.len() - 1;
            match (self.refusal() == 0, nth) {
                (true, 0) => changed[start] ^= 0x01,
                (true, 1) => changed[end - 1] ^= 0x80,
                (true, 2) => changed[start - 1] ^= 0x01,
                (true, 3) => changed[end] ^= 0x80,
                (true, 4) => changed.clone_from(&self.case.sheet),
                (true, 5) | (false, 0) => changed[0] ^= 0x01,
                (true, _) | (false, 1) => changed[last] ^= 0x80,
                (false, _) => changed[middle] ^= 0x01,
            }
        }
        Retime { case: self.case.clone(), changed, planted, ..*self }.bytes()
    }
}

impl Retime {
    /// Whether the change leaves the sheet as it was.
    pub fn is_same(&self) -> bool {
        self.changed == self.case.sheet
    }

    /// From the first byte of the changed sheet that differs to the last; 0..0 if none does.
    fn otherwise(&self) -> Range<usize> {
        let differs = |&at: &usize| self.changed.get(at) != self.case.sheet.get(at);
        let first = (0..self.changed.len()).find(differs);
        let last = (0..self.changed.len()).rfind(differs);
        first.zip(last).map_or(0..0, |(first, last)| first..last + 1)
    }
}

pub struct Answered {
    pub preview: [usize; 5],
    pub change: [usize; 2],
    pub changed: Vec<u8>,
}

/// What the preview and the change give.
pub fn answered(case: &Case) -> Answered {
    let Answer { refusal, place, steps, low, high } = preview(&case.sheet, case.copy, case.work, case.asked);
    let mut changed = case.sheet.clone();
    let change = change(&mut changed, case.asked).map_or_else(|fault| [fault.refusal.into(), fault.place], |_| [0, 0]);
    Answered { preview: [refusal.into(), place, steps as usize, low as usize, high as usize], change, changed }
}

/// A corpus of these cases with what the preview and the change give them.
pub fn corpus_of(cases: Vec<Case>) -> Vec<u8> {
    let bytes = |case: Case| {
        let Answered { preview, change, changed } = answered(&case);
        Retime { case, preview, change, changed, planted: 0 }.bytes()
    };
    corpus(cases.into_iter().map(bytes).collect())
}

pub fn list(entries: &[Retime]) {
    for entry in entries {
        let Retime { case: Case { sheet, asked, copy, work }, preview, change, changed, planted } = entry;
        let Asked { thread, statement, least, greatest } = asked;
        let text = |numbers: &[usize]| numbers.iter().map(usize::to_string).collect::<Vec<_>>().join(" ");
        let planted = if *planted == 0 { String::new() } else { format!(" planted {planted}") };
        println!(
            "{thread} {statement} {least} {greatest} {copy} {work}: {}; {}; {} {}{planted}",
            text(preview),
            text(change),
            hex(sheet),
            hex(&changed[entry.otherwise()])
        );
    }
}
