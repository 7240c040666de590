//! The cases of a corpus of new times: sheets and times chosen by hand, then random ones.

use crate::entries::Cases;
use crate::record_sheets::{branches, locking, loops, messages};
use crate::retime_asked::*;
use crate::retime_change::{statements, Asked};
use crate::retime_corpus::Case;
use crate::retime_sheets::*;
use crate::sheet_parts::unreadable;

/// The numbers that a work buffer mostly has: twelve states.
pub const WORK: usize = 1200;
const SHEET_ROOM: usize = 16_384;
/// Two states fit in 200 numbers.
const WORKS: [usize; 14] = [0, 1, 99, 100, 101, 199, 200, 201, 299, 300, 399, 500, 1000, 12_000];

impl Cases<Case> {
    fn add(&mut self, sheet: &[u8], asked: Asked, copy: usize, work: usize) -> bool {
        self.put(Case { sheet: sheet.to_vec(), asked, copy, work })
    }

    /// A copy buffer of the sheet's length and a work buffer of twelve states.
    fn plain(&mut self, sheet: &[u8], asked: Asked) -> bool {
        self.add(sheet, asked, sheet.len(), WORK)
    }

    /// Each statement of a sheet with each of the times, its own and so many others near its own.
    fn each_statement(&mut self, sheet: &[u8], times: &[Times], others: usize) {
        for (thread, statement, place) in named(sheet) {
            for times in [times, &near(sheet, place)[..=others]].concat() {
                self.plain(sheet, asked(thread, statement, times));
            }
        }
    }

    fn times(&mut self) {
        for sheet in of_the_paper().iter().take(6) {
            self.each_statement(sheet, &[&GOOD[..], &EDGES].concat(), NEAR);
        }
        for sheet in of_the_paper().iter().skip(6).chain([&every_code()]) {
            self.each_statement(sheet, &[&GOOD[..], &SOME].concat(), NEAR);
        }
        for sheet in [locking(), messages(), branches(), loops()].concat() {
            self.each_statement(&headed(&sheet, [60, 150, 5, 40]), &[(1, 3), (12, 12)], 1);
        }
        self.each_statement(&long_times(), &GOOD, NEAR);
        for (thread, statement, _) in named(&wide()) {
            for times in [(1, 1), (1, 5), (0, 0), (65_535, 65_535)] {
                self.plain(&wide(), asked(thread, statement, times));
            }
        }
        for statement in [0, 1, 31, 61, 62, 63, 64, 65] {
            for times in [(1, 3), (0, 0)] {
                self.plain(&full(), asked(0, statement, times));
            }
        }
    }

    /// Statements that are not there, with times that some statement may have and with others, and
    /// with a copy buffer that is long enough and with one that is not.
    fn names(&mut self) {
        for sheet in [a(), b(), c(), d(), f(), every_code()] {
            for (thread, statement) in absent(&sheet) {
                self.plain(&sheet, asked(thread, statement, (1, 2)));
                self.plain(&sheet, asked(thread, statement, (0, 65_536)));
            }
            for (thread, statement) in absent(&sheet).into_iter().take(8) {
                self.add(&sheet, asked(thread, statement, (0, 0)), sheet.len() - 1, WORK);
                self.add(&sheet, asked(thread, statement, (2, 1)), 0, WORK);
            }
        }
    }

    /// Copy buffers about the sheet's length, and none, with each of the later faults and without.
    fn copies(&mut self) {
        for sheet in [&of_the_paper()[..], &[every_code(), wide()]].concat() {
            let length = sheet.len();
            for copy in [0, 1, length - 1, length, length + 1, 2 * length, 255, 256, 300] {
                for asked in [asked(0, 0, (1, 2)), asked(0, 0, (0, 0)), asked(0, 64, (1, 2)), asked(4, 0, (2, 1))] {
                    self.add(&sheet, asked, copy, WORK);
                }
            }
        }
        for copy in [SHEET_ROOM - 1, SHEET_ROOM, SHEET_ROOM + 1, 20_000] {
            self.add(&b(), asked(0, 0, (4, 5)), copy, 12_000);
        }
    }

    /// Work buffers of few states, and of none, with each of the faults that come first and without.
    fn works(&mut self) {
        for sheet in [b(), c(), d(), e(), headed(&c(), [10, 4, 0, 10]), every_code()] {
            for work in WORKS {
                for asked in [asked(0, 0, (1, 3)), asked(0, 1, (2, 2)), asked(1, 0, (4, 9)), asked(0, 9, (1, 1))] {
                    self.add(&sheet, asked, sheet.len(), work);
                }
                self.add(&sheet, asked(0, 0, (1, 3)), sheet.len() - 1, work);
            }
        }
    }

    /// Times that turn one refusal of the search into another; with each earlier fault as well.
    fn searches(&mut self) {
        for Turning { sheet, thread, statement } in turning() {
            let length = sheet.len();
            for least in 1..10 {
                for greatest in [least, least + 3] {
                    let asked = asked(thread, statement, (least, greatest));
                    for work in [100, WORK] {
                        self.add(&sheet, asked, length, work);
                    }
                }
                self.add(&sheet, asked(thread, statement, (least, least)), length - 1, WORK);
            }
            self.plain(&sheet, asked(thread, 64, (1, 1)));
            self.plain(&sheet, asked(thread, statement, (0, 0)));
        }
    }

    /// Sheets that do not read, with each of the later faults and without.
    fn sheets(&mut self) {
        for sheet in unreadable(&b()).iter().filter(|sheet| sheet.len() < SHEET_ROOM) {
            let length = sheet.len();
            for copy in [length, length.saturating_sub(1), 0] {
                for (thread, statement) in [(0, 0), (0, 1), (1, 0), (TOP, TOP)] {
                    for times in [(1, 2), (0, 0), (2, 1)] {
                        self.add(sheet, asked(thread, statement, times), copy, WORK);
                    }
                }
            }
            self.add(sheet, asked(0, 0, (1, 2)), length, 0);
        }
    }

    /// Sheets of 16,384 bytes and one more.
    fn long(&mut self) {
        let halt = statements(&longest())[0].len() as u64 - 1;
        self.add(&longest(), asked(0, 4, (0x0102, 0x0304)), SHEET_ROOM, WORK);
        self.add(&longest(), asked(0, halt - 1, (2, 2)), SHEET_ROOM - 1, WORK);
        self.add(&too_long(), asked(0, halt - 1, (2, 2)), SHEET_ROOM + 1, WORK);
        self.add(&too_long(), asked(0, halt + 1, (0, 1)), SHEET_ROOM, WORK);
    }
}

/// The cases chosen by hand, then so many random ones.
pub fn all(seed: u64, count: usize) -> Vec<Case> {
    let mut cases = Cases::new();
    cases.times();
    cases.names();
    cases.copies();
    cases.works();
    cases.searches();
    cases.sheets();
    cases.long();
    let by_hand = cases.all.len();
    cases.generated(seed, count / 12);
    let generated = cases.all.len();
    cases.random(seed, count);
    eprintln!(
        "{by_hand} cases chosen by hand, {} of each statement of generated sheets, {} random",
        generated - by_hand,
        cases.all.len() - generated
    );
    cases.all
}
