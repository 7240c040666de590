//! Cases of other damage on sheets that are garbled: cut short, with bytes, tags and lengths changed, with
//! fields doubled, removed and moved; and bytes that are no sheet.

use crate::entries::Cases;
use crate::generator::Random;
use crate::mend_answer::Case;
use crate::mend_garbled::*;
use crate::retime_sheets::{b, c};
use crate::sheet_damage::{bytes_changed, cut, fields_moved, headers_changed};
use crate::sheet_parts::unreadable;

const MAX: usize = 300;

impl Cases<Case> {
    pub fn damaged(&mut self, seed: u64) {
        for sheet in [b(), mixed(), two()].map(|sheet| garbled_whole(&sheet)) {
            self.fit_all(&cut(&sheet));
        }
        self.fit_all(&bytes_changed(&garbled_whole(&mixed())));
        let of_c = garbled(&c(), &crossable(&c())[1..], &closing_halts(&c()));
        self.fit_all(&fields_moved(&of_c));
        for sheet in [of_c, garbled_whole(&two())] {
            self.fit_all(&headers_changed(&sheet));
        }
        self.fit_all(&fields_moved(&garbled_whole(&mixed())));
        self.fit_all(&unreadable(&b()).into_iter().filter(|sheet| sheet.len() < MAX).collect::<Vec<_>>());
        self.no_sheets(seed);
    }

    /// Random bytes, and random bytes behind a front or a thread.
    fn no_sheets(&mut self, seed: u64) {
        let mut random = Random(seed);
        for count in 0..24 {
            let bytes: Vec<u8> = (0..count).map(|_| random.next() as u8).collect();
            let small: Vec<u8> = bytes.iter().map(|byte| byte % 8).collect();
            self.fit(&bytes);
            self.fit(&small);
            self.fit(&[front(), small.clone()].concat());
            self.fit(&[&garbled_whole(&b())[..], &small].concat());
        }
        for byte in [0, 1, 4, 6, 255] {
            self.fit(&[byte; 20]);
        }
    }
}
