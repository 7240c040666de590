//! The corpus of texts that texts.rs makes and reads. Numbers have the high byte first:
//!
//!     entries                          4 bytes
//!     then for each entry
//!       planted                        1 byte
//!       text's length                  4 bytes
//!       ROOM                           4 bytes: bytes lent for the sheet
//!       refusal                        1 byte
//!       place                          4 bytes
//!       written                        4 bytes: length of the sheet
//!       the text's bytes
//!       the stated output: all ROOM bytes of the buffer (the sheet, then zeros; only zeros if it is refused)
//!
//! A text has at most 70,000 bytes, ROOM is at most 20,000.
//!
//! Planted is 0, but for the entries that try whoever compares. With 1, one of refusal, place and written is wrong.
//! With 2, one byte of the output is: in the sheet, in the zeros behind it, or in the zeros of a refused one.

use crate::entries::{corpus, four, hex, number, Entry, WRONG};
use crate::text_answer::{answered, Answered, Case};

/// What is planted where the output is wrong.
pub const WRONG_SHEET: u8 = 2;

pub struct Typed {
    pub case: Case,
    pub stated: Answered,
    pub planted: u8,
}

impl Entry for Typed {
    const FRONT: usize = 18;

    fn new(front: &[u8], [text, output]: [&[u8]; 2]) -> Typed {
        let stated = Answered {
            refusal: front[9],
            place: number(&front[10..14]),
            written: number(&front[14..18]),
            sheet: output.to_vec(),
        };
        Typed { case: Case { text: text.to_vec(), room: output.len() }, stated, planted: front[0] }
    }

    fn bytes(&self) -> Vec<u8> {
        let Answered { refusal, place, written, sheet } = &self.stated;
        let mut bytes = vec![self.planted];
        bytes.extend([self.case.text.len(), sheet.len()].map(four).concat());
        bytes.push(*refusal);
        bytes.extend([*place, *written].map(four).concat());
        bytes.extend([&self.case.text[..], sheet].concat());
        bytes
    }

    fn planted(&self) -> u8 {
        self.planted
    }

    fn is_answered(&self) -> bool {
        answered(&self.case) == self.stated
    }

    fn is_wrong(&self) -> bool {
        [WRONG, WRONG_SHEET].contains(&self.planted)
    }
}

/// A corpus of these cases with what the conversion gives them.
pub fn corpus_of(cases: Vec<Case>) -> Vec<u8> {
    let bytes = |case: Case| Typed { stated: answered(&case), case, planted: 0 }.bytes();
    corpus(cases.into_iter().map(bytes).collect())
}

/// Each entry as a line: refusal, place and written, the room, the text with its newlines and odd bytes escaped, the
/// output.
pub fn list(entries: &[Typed]) {
    for Typed { case, stated: Answered { refusal, place, written, sheet }, planted } in entries {
        let planted = if *planted == 0 { String::new() } else { format!(" planted {planted}") };
        println!(
            "{refusal} {place} {written} of {}: {} -> {}{planted}",
            case.room,
            case.text.escape_ascii(),
            hex(sheet)
        );
    }
}

/// What the program of the proved converter prints of these entries.
pub fn expected(entries: &[Typed]) -> String {
    let of = |planted: u8| entries.iter().filter(|entry| entry.planted == planted).count();
    let [right, numbers, sheets] = [0, WRONG, WRONG_SHEET].map(of);
    format!(
        "{right} texts compared, 0 differ; noticed of what is planted: {numbers} of {numbers} wrong numbers, \
         {sheets} of {sheets} wrong sheets\n"
    )
}
