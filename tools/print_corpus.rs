//! The corpus of printed sheets that prints.rs makes and reads. Numbers have the high byte first:
//!
//!     entries                          4 bytes
//!     then for each entry
//!       planted                        1 byte
//!       sheet's length                 4 bytes
//!       STATED                         4 bytes: length of what is stated of the buffer
//!       ROOM                           4 bytes: bytes lent for the text
//!       refusal                        1 byte
//!       place                          4 bytes
//!       written                        4 bytes: length of the text
//!       the sheet's bytes
//!       the first STATED bytes of the buffer, the last of them not 0: behind it there are zeros up to ROOM
//!
//! A sheet has at most 20,000 bytes, ROOM is at most 110,000.
//!
//! Planted is 0, but for the entries that try whoever compares. With 1, one of refusal, place and written is wrong.
//! With 2, the buffer is: one byte in the text, in the zeros behind it or in the zeros of a refused one, or zeros are
//! stated for the text's last bytes.

use crate::entries::{corpus, four, hex, number, Entry, FrontEntry, WRONG};
use crate::field::Fault;
use crate::print_answer::{answered, Answered, Case};
use std::ops::Range;

/// What is planted where the buffer is wrong.
pub const WRONG_TEXT: u8 = 2;
/// Only entries with fewer bytes have copies with something planted.
const LONG: usize = 500;
/// Of the copies of accepted entries so many have a byte of the buffer changed, the others its last bytes left out.
const CHANGED: usize = 24;
/// The bits that are wrong in a byte of the buffer.
const BITS: [u8; 5] = [0x01, 0x80, 0x10, 0x06, 0x20];

pub struct Print {
    pub case: Case,
    pub stated: Answered,
    pub planted: u8,
}

impl Print {
    /// The buffer without the zeros at its end.
    fn unpadded(&self) -> &[u8] {
        let text = &self.stated.text;
        &text[..text.iter().rposition(|&byte| byte != 0).map_or(0, |last| last + 1)]
    }

    /// Some bytes of the buffer: of the text, and of the zeros behind it.
    fn places(&self) -> Vec<usize> {
        let (written, room) = (self.stated.written, self.case.room);
        let zeros = [written, (written + room) / 2, room - 1];
        match written {
            0 => zeros.to_vec(),
            _ => [&[0, 1, written / 2, written - 2, written - 1][..], &zeros].concat(),
        }
    }
}

impl Entry for Print {
    const FRONT: usize = 22;

    fn new(front: &[u8], [sheet, unpadded]: [&[u8]; 2]) -> Print {
        let room = number(&front[9..13]);
        let mut text = unpadded.to_vec();
        text.resize(room, 0);
        let (place, written) = (number(&front[14..18]), number(&front[18..22]));
        let told = Fault { refusal: front[13], place };
        let stated = Answered { told, written, text };
        Print { case: Case { sheet: sheet.to_vec(), room }, stated, planted: front[0] }
    }

    fn bytes(&self) -> Vec<u8> {
        let (Case { sheet, room }, unpadded) = (&self.case, self.unpadded());
        let lengths = [sheet.len(), unpadded.len(), *room].map(four).concat();
        let numbers = [self.stated.told.place, self.stated.written].map(four).concat();
        [&[self.planted], &lengths[..], &[self.stated.told.refusal], &numbers, sheet, unpadded].concat()
    }

    fn planted(&self) -> u8 {
        self.planted
    }

    fn is_answered(&self) -> bool {
        answered(&self.case) == self.stated
    }

    fn is_wrong(&self) -> bool {
        self.planted != 0
    }
}

impl FrontEntry for Print {
    const NUMBERS: Range<usize> = 13..22;
    const PLANTED: usize = 0;
    const OTHERS: [&'static [u8]; 2] = [&[WRONG_TEXT; CHANGED + 4], &[WRONG_TEXT; 9]];

    fn refusal(&self) -> usize {
        self.stated.told.refusal.into()
    }

    fn may_have_copy(&self) -> bool {
        self.case.room > self.stated.written && self.bytes().len() < LONG
    }

    fn with_other(&self, planted: u8, nth: usize) -> Vec<u8> {
        let places = self.places();
        let mut stated = self.stated.clone();
        match nth.checked_sub(CHANGED) {
            None => stated.text[places[nth % places.len()]] ^= BITS[nth % BITS.len()],
            // so many of the last bytes of the text are left out, and zeros stated for them
            Some(more) => stated.text[stated.written - 1 - more..].fill(0),
        }
        Print { case: self.case.clone(), stated, planted }.bytes()
    }
}

/// A corpus of these cases with what printing gives them.
pub fn corpus_of(cases: Vec<Case>) -> Vec<u8> {
    let bytes = |case: Case| Print { stated: answered(&case), case, planted: 0 }.bytes();
    corpus(cases.into_iter().map(bytes).collect())
}

/// Each entry as a line: refusal, place and written, the room, the sheet, the buffer with its newlines and odd bytes
/// escaped, without the zeros at its end.
pub fn list(entries: &[Print]) {
    for entry in entries {
        let Answered { told: Fault { refusal, place }, written, .. } = entry.stated;
        let planted = if entry.planted == 0 { String::new() } else { format!(" planted {}", entry.planted) };
        let (sheet, text) = (hex(&entry.case.sheet), entry.unpadded().escape_ascii());
        println!("{refusal} {place} {written} of {}: {sheet} -> {text}{planted}", entry.case.room);
    }
}

/// What the program of the proved printer prints of these entries.
pub fn expected(entries: &[Print]) -> String {
    let of = |planted: u8| entries.iter().filter(|entry| entry.planted == planted).count();
    let [right, numbers, texts] = [0, WRONG, WRONG_TEXT].map(of);
    let printed = entries.iter().filter(|entry| entry.planted == 0 && entry.stated.told.refusal == 0).count();
    format!(
        "{right} sheets compared, 0 differ; {printed} printed, {printed} came back, {printed} refused with a byte less; \
         noticed of what is planted: {numbers} of {numbers} wrong numbers, {texts} of {texts} wrong texts\n"
    )
}
