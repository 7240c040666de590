//! The corpus of mends that mends.rs makes and reads. Numbers have the high byte first:
//!
//!     entries                          4 bytes
//!     then for each entry
//!       planted                        1 byte
//!       sheet's length                 4 bytes
//!       length of the stated outputs   4 bytes: ROOM + 4 * NUMBERS
//!       ROOM                           4 bytes: bytes lent for the mended sheet
//!       refusal                        1 byte
//!       place                          2 bytes
//!       written                        4 bytes: length of the mended sheet
//!       listed                         4 bytes: two for each change
//!       the sheet's bytes
//!       the stated outputs: all ROOM bytes of the first buffer (the mended sheet, then zeros), then all
//!       NUMBERS numbers of the second (kind and offset of each change, then zeros), 4 bytes each
//!
//! A sheet has at most 20,000 bytes, ROOM is at most 20,000, NUMBERS at most 2,000.
//!
//! Planted is 0, but for the entries that try whoever compares. With 1, one of refusal, place, written and
//! listed is wrong. With 2, one byte of the first output is: in the mended sheet, in the zeros behind it, or
//! in the zeros of a refused one. With 3, one number of the second output is, likewise.

use crate::entries::{corpus, four, hex, number, Entry, WRONG};
use crate::mend_answer::{answered, Answered, Case};

/// What is planted where the first output is wrong, and where the second is.
pub const WRONG_SHEET: u8 = 2;
pub const WRONG_LIST: u8 = 3;

pub struct Mend {
    pub case: Case,
    pub stated: Answered,
    pub planted: u8,
}

impl Entry for Mend {
    const FRONT: usize = 24;

    /// Outputs that are shorter than ROOM give a panic.
    fn new(front: &[u8], [sheet, outputs]: [&[u8]; 2]) -> Mend {
        let (first, second) = outputs.split_at(number(&front[9..13]));
        let stated = Answered {
            refusal: front[13],
            place: number(&front[14..16]),
            written: number(&front[16..20]),
            listed: number(&front[20..24]),
            sheet: first.to_vec(),
            list: second.chunks(4).map(number).collect(),
        };
        let case = Case { sheet: sheet.to_vec(), room: stated.sheet.len(), numbers: stated.list.len() };
        Mend { case, stated, planted: front[0] }
    }

    fn bytes(&self) -> Vec<u8> {
        let Answered { refusal, place, written, listed, sheet, list } = &self.stated;
        let outputs = sheet.len() + 4 * list.len();
        let mut bytes = vec![self.planted];
        bytes.extend([self.case.sheet.len(), outputs, sheet.len()].map(four).concat());
        bytes.push(*refusal);
        bytes.extend((*place as u16).to_be_bytes());
        bytes.extend([*written, *listed].map(four).concat());
        bytes.extend([&self.case.sheet[..], sheet].concat());
        bytes.extend(list.iter().flat_map(|&number| four(number)));
        bytes
    }

    fn planted(&self) -> u8 {
        self.planted
    }

    fn is_answered(&self) -> bool {
        answered(&self.case) == self.stated
    }

    fn is_wrong(&self) -> bool {
        [WRONG, WRONG_SHEET, WRONG_LIST].contains(&self.planted)
    }
}

/// A corpus of these cases with what the mend gives them.
pub fn corpus_of(cases: Vec<Case>) -> Vec<u8> {
    let bytes = |case: Case| Mend { stated: answered(&case), case, planted: 0 }.bytes();
    corpus(cases.into_iter().map(bytes).collect())
}

/// Each entry as a line: refusal, place, written and listed, both rooms, the sheet, the first output and the
/// second.
pub fn list(entries: &[Mend]) {
    for Mend { case, stated: Answered { refusal, place, written, listed, sheet, list }, planted } in entries {
        let planted = if *planted == 0 { String::new() } else { format!(" planted {planted}") };
        let list = list.iter().map(usize::to_string).collect::<Vec<_>>().join(" ");
        println!(
            "{refusal} {place} {written} {listed} of {} {}: {} -> {}; {list}{planted}",
            case.room,
            case.numbers,
            hex(&case.sheet),
            hex(sheet)
        );
    }
}
