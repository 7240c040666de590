//! Cases of the two buffers: just long enough, one too short, of no length, large; with and without what is
//! refused before.

use crate::entries::Cases;
use crate::mend_answer::Case;
use crate::mend_cases::needed;
use crate::mend_garbled::*;
use crate::retime_sheets::{a, b, c, every_code};
use crate::sheet_parts::*;

/// Sheets that read once mended, with no change, with an exchange, with a halt, with both.
fn healing() -> Vec<Vec<u8>> {
    let halt_only = garbled(&c(), &[], &closing_halts(&c()));
    vec![a(), b(), garbled(&b(), &crossable(&b()), &[]), halt_only, garbled_whole(&two()), garbled_whole(&every_code())]
}

/// Sheets with each of 1 to 6 and 8, mended or not.
fn failing() -> Vec<Vec<u8>> {
    let mended = open(&[], &[skip((3, 2))]);
    let with = |statement: Vec<u8>| headed(&[mended.clone(), open(&[], &[statement])]);
    vec![
        vec![],
        garbled_whole(&two())[..70].to_vec(),
        [headed(&[mended.clone()]), vec![2, 0, 0]].concat(),
        headed(&[mended.clone(), vec![4, 0, 2, 0, 0]]),
        with(skip((0, 1))),
        sheet_of([10, 100, 11, 1], 0, &[], &[mended.clone()]),
        with(jump((1, 1), 2, &[32])),
        with(assign((2, 1), 0, &[99])),
        with(lock((1, 1), 0)),
        headed(&vec![mended.clone(); 5]),
        sheet_of(TEN, 0, &[(1, 0); 9], &[mended]),
    ]
}

impl Cases<Case> {
    pub fn rooms(&mut self) {
        for sheet in healing() {
            let (bytes, numbers) = needed(&sheet);
            for room in [0, 1, sheet.len(), bytes - 8, bytes - 1, bytes, bytes + 1, bytes + 8] {
                self.add(&sheet, room, numbers);
                self.add(&sheet, room, numbers.saturating_sub(1));
            }
            for lent in
                [0, 1, numbers / 2, numbers.saturating_sub(2), numbers.saturating_sub(1), numbers + 1, numbers + 2]
            {
                self.add(&sheet, bytes, lent);
                self.add(&sheet, bytes + 3, lent);
            }
        }
        for sheet in failing() {
            let (bytes, numbers) = needed(&sheet);
            for (room, lent) in [(0, 0), (bytes, numbers), (bytes.saturating_sub(1), numbers), (bytes, 0), (0, numbers)]
            {
                self.add(&sheet, room, lent);
            }
        }
        let sheet = garbled_whole(&mixed());
        self.add(&sheet, 20_000, 3);
        self.add(&sheet, 300, 2000);
        self.add(&sheet[..sheet.len() - 1], 300, 500);
        self.add(&b(), 1000, 256);
    }
}
