//! The cases of a corpus of mends: sheets chosen by hand, then random ones, with the bytes and numbers that
//! are lent for them.

use crate::entries::Cases;
use crate::mend_answer::{answered, Case};
use crate::mend_garbled::*;
use crate::mend_sheet::mend;
use crate::retime_sheets::{a, b, c, d, every_code, f, full, of_the_paper, wide};
use crate::sheet_parts::*;

/// A longer sheet that is refused gets little room.
const LONG: usize = 300;

/// The bytes and the numbers that the mended sheet needs.
pub fn needed(sheet: &[u8]) -> (usize, usize) {
    let mended = mend(sheet);
    (mended.bytes().len(), 2 * mended.changes.len())
}

impl Cases<Case> {
    pub fn add(&mut self, sheet: &[u8], room: usize, numbers: usize) -> bool {
        self.put(Case { sheet: sheet.to_vec(), room, numbers })
    }

    /// With a few bytes and numbers more than are needed, or with none.
    pub fn fit(&mut self, sheet: &[u8]) -> bool {
        let (bytes, numbers) = needed(sheet);
        let nth = self.all.len();
        let (more, more_numbers) = ([2, 0, 1, 5, 3][nth % 5], [1, 2, 0, 3][nth % 4]);
        let case = Case { sheet: sheet.to_vec(), room: bytes + more, numbers: numbers + more_numbers };
        if sheet.len() > LONG && answered(&case).refusal != 0 {
            return self.put(Case { room: 4 + more, ..case });
        }
        self.put(case)
    }

    pub fn fit_all(&mut self, sheets: &[Vec<u8>]) {
        for sheet in sheets {
            self.fit(sheet);
        }
    }

    /// Sheets that read, and everything that the card writer does to them.
    fn garbled(&mut self) {
        self.fit_all(&of_the_paper());
        for sheet in [a(), b(), c(), d(), f(), mixed(), two()] {
            self.fit_all(&every_subset(&sheet));
        }
        self.fit_all(&some_subsets(&every_code(), true));
        self.fit_all(&some_subsets(&wide(), false));
        self.fit_all(&[full(), garbled_whole(&full())]);
    }

    /// Those that are counted by hand in the tests.
    fn worked(&mut self) {
        let good = thread(&[], &[skip((1, 2))]);
        self.fit(&sheet_of(TEN, 0, &[(5, -6)], &[good]));
        let register = headed(&[thread(&[(-1, -2)], &[skip((1, 2))])]);
        self.fit(&register);
        self.add(&register, register.len(), 1);
        let skips = |count: usize| vec![skip((1, 1)); count];
        let after_jump = |target: u8, count: usize| [vec![jump((1, 1), target, &[32])], skips(count)].concat();
        self.fit(&headed(&[open(&[], &skips(64))]));
        self.fit(&headed(&[open(&[], &skips(63))]));
        self.fit(&headed(&[open(&[], &after_jump(200, 63))]));
        self.fit(&headed(&[open(&[], &after_jump(1, 0))]));
        self.fit(&headed(&[open(&[], &after_jump(2, 0))]));
        self.fit(&headed(&[open(&[], &skips(1)), open(&[], &after_jump(2, 0))]));
    }
}

/// The cases chosen by hand, then so many random ones.
pub fn all(seed: u64, count: usize) -> Vec<Case> {
    let mut cases = Cases::new();
    cases.worked();
    cases.garbled();
    let garbled = cases.all.len();
    cases.ends();
    let ends = cases.all.len();
    cases.halts();
    let halts = cases.all.len();
    cases.damaged(seed);
    let damaged = cases.all.len();
    cases.rooms();
    cases.long();
    let rooms = cases.all.len();
    cases.random(seed, count);
    eprintln!(
        "{garbled} garbled by hand, {} of ends, {} of halts, {} damaged, {} of rooms and lengths, {} random",
        ends - garbled,
        halts - ends,
        damaged - halts,
        rooms - damaged,
        cases.all.len() - rooms
    );
    cases.all
}
