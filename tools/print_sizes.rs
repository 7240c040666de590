//! Cases of lengths: buffers that are just long enough, too short or long, sheets of about 16,384 bytes.

use crate::entries::Cases;
use crate::print_answer::{needed, Case};
use crate::print_cases::of_the_ticket;
use crate::retime_sheets::{a, b, c, every_code, f, full, longest, too_long, wide};
use crate::sheet_parts::*;

/// Longer than any text.
pub const WIDEST_ROOM: usize = 110_000;
pub const MAX_SHEET: usize = 16_384;

/// Very many `false` joined by `&&`, so deep; a right side that is joined needs a parenthesis.
fn joined(depth: u8) -> Vec<u8> {
    match depth {
        0 => vec![33],
        _ => both(35, joined(depth - 1), joined(depth - 1)),
    }
}

/// A sheet of 16,384 bytes with a text about as long as one can be: 27 before the statements; ifs of 4104 three times,
/// 2056, 1032, 520, 264 and 136; one of 21 and a skip of 8; the halt of 8.
pub fn widest() -> Vec<u8> {
    let asked = |condition: &[u8]| jump((65_279, 65_535), 10, condition);
    let mut statements = [11, 11, 11, 10, 9, 8, 7, 6].map(|depth| asked(&joined(depth))).to_vec();
    statements.extend([asked(&[vec![34; 11], vec![33]].concat()), skip((10_000, 65_535))]);
    sheet(0, &[], &[thread(&[], &statements)])
}

impl Cases<Case> {
    pub fn sizes(&mut self) {
        for sheet in [a(), b(), c(), f(), of_the_ticket(), every_code(), wide()] {
            let bytes = needed(&sheet);
            let about = [bytes - 2, bytes - 1, bytes, bytes + 1, bytes + 2, bytes + 100];
            for room in [0, 1, 2, bytes / 2, sheet.len(), 20_000, 98_304, WIDEST_ROOM].into_iter().chain(about) {
                self.add(&sheet, room);
            }
        }
        self.each_room(&b());
        // each of 1 to 9 comes before 19
        for sheet in unreadable(&b()) {
            let rooms = if sheet.len() > MAX_SHEET { &[0, 61][..] } else { &[0, 1, 5, 61, WIDEST_ROOM] };
            rooms.iter().for_each(|&room| self.add(&sheet, room));
        }
        self.add(&full(), needed(&full()) - 1);
        self.long_sheets();
    }

    /// Every length up to the text's.
    fn each_room(&mut self, sheet: &[u8]) {
        (0..=needed(sheet)).for_each(|room| self.add(sheet, room));
    }

    fn long_sheets(&mut self) {
        let widest = widest();
        self.add(&widest, needed(&widest));
        for room in [0, needed(&widest) - 1] {
            self.add(&widest, room);
        }
        self.fit(&longest());
        self.add(&longest(), needed(&longest()) - 1);
        self.fit(&too_long());
        self.fit(&[widest, vec![0]].concat());
        self.fit(&[0; 20_000]);
    }
}
