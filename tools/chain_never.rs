//! Numbers taken back that were never a change: statements that are not there, old times that a statement may
//! not have, new times that it does not show; and changes that were refused.

use crate::chain_sheets::{halt_between, halt_first, pairs_of_codes, threads, two_bytes};
use crate::chain_steps::{Case, Making, Name};
use crate::entries::Cases;
use crate::retime_asked::*;
use crate::retime_change::Change;
use crate::retime_sheets::*;
use crate::sheet_parts::unreadable;

/// Old times that a statement may have, and others.
const OLD: [Times; 9] =
    [(1, 1), (7, 9), (65_535, 65_535), (0, 0), (0, 3), (3, 2), (1, 65_536), (65_538, 65_539), (1, TOP)];
const SHEET_ROOM: usize = 16_384;

pub fn change((thread, statement): Name, (old_least, old_greatest): Times, (new_least, new_greatest): Times) -> Change {
    Change { thread, statement, old_least, old_greatest, new_least, new_greatest }
}

/// New times: those that a statement shows, and others that are like them in part, or cut to some bits.
fn new_times((least, greatest): Times) -> Vec<Times> {
    let mut all = vec![(least, greatest), (least, greatest + 1), (least + 1, greatest), (least + 1, greatest + 1)];
    all.extend([(least.wrapping_sub(1), greatest), (least, greatest.wrapping_sub(1)), (greatest, least)]);
    all.extend([(least, least), (greatest, greatest), (least << 8, greatest << 8), (0, 0), (1, 1), (TOP, TOP)]);
    for bit in [8, 16, 32, 63] {
        let more = 1 << bit;
        all.extend([(least + more, greatest), (least, greatest + more), (least + more, greatest + more)]);
    }
    all
}

impl Cases<Case> {
    fn one(&mut self, sheet: &[u8], change: Change) {
        self.put(Making::of(sheet).take(change).case);
    }

    /// Each statement with these old times and with new times that it shows, and with some others.
    fn each(&mut self, sheet: &[u8], old: &[Times], others: usize) {
        for (thread, statement, place) in named(sheet) {
            for &old in old {
                for &new in &new_times(own_times(sheet, place))[..=others] {
                    self.one(sheet, change((thread, statement), old, new));
                }
            }
        }
    }

    pub fn times_of_none(&mut self) {
        self.each(&b(), &[&GOOD[..], &EDGES].concat(), 1);
        self.each(&b(), &[(7, 9), (0, 0)], new_times((2, 3)).len() - 1);
        self.each(&two_bytes(), &[(7, 9)], new_times((2, 3)).len() - 1);
        for sheet in [a(), c(), halt_first()] {
            self.each(&sheet, &OLD, 1);
        }
        for sheet in [d(), f(), pairs_of_codes(), every_code()] {
            self.each(&sheet, &[(7, 9), (0, 0)], 1);
        }
    }

    /// Statements that are not there, with times that the first one has and with others.
    pub fn names_of_none(&mut self) {
        for sheet in [b(), c()] {
            let own = named(&sheet).first().map_or((0, 0), |&(_, _, place)| own_times(&sheet, place));
            for (nth, name) in absent(&sheet).into_iter().enumerate() {
                let old = [(1, 2), (0, 65_536), own][nth % 3];
                self.one(&sheet, change(name, old, own));
                self.one(&sheet, change(name, (3, 2), if nth % 2 == 0 { own } else { (9, 9) }));
            }
        }
        for sheet in [a(), b(), c()] {
            for (thread, statement, place) in named(&sheet) {
                let own = own_times(&sheet, place);
                // cut to fewer bits these would be a statement that is there and shows the new times
                let old = if own == (0, 0) { own } else { (7, 9) };
                for bit in [2, 6, 8, 16, 32, 63] {
                    self.one(&sheet, change((thread + (1 << bit), statement), old, own));
                    self.one(&sheet, change((thread, statement + (1 << bit)), old, own));
                }
                // another statement of the sheet has the numbers exchanged, or none has
                self.one(&sheet, change((statement, thread), old, own));
            }
        }
    }

    /// Refused changes between others, and their zeros taken back; "zeros if refused" name the first statement
    /// and times 0 and 0, which a halt has and no other may.
    pub fn zeros(&mut self) {
        let zeros = Change::default();
        for sheet in [a(), b(), halt_between(), halt_first(), threads(3)] {
            self.one(&sheet, zeros);
            let own = own_times(&sheet, named(&sheet)[0].2);
            let (new, bad) = if own == (0, 0) { (own, (1, 1)) } else { ((7, 9), (3, 2)) };
            for (name, times) in [((0, 0), bad), ((4, 0), new), ((0, 64), (0, 0)), ((TOP, TOP), (TOP, 0))] {
                let refused = Making::of(&sheet).change((0, 0), new).change(name, times);
                self.put(refused.clone().backs(&[1, 0]).case);
                self.put(refused.clone().backs(&[0, 1]).case);
                self.put(refused.take(Change { new_least: own.0, new_greatest: own.1, ..zeros }).back(0).case);
                let first = Making::of(&sheet).change(name, times).back(0);
                self.put(first.clone().change((0, 0), new).backs(&[1, 0, 1]).case);
                self.put(first.change((0, 0), own).backs(&[0, 1, 1]).case);
            }
        }
    }

    /// Sheets that do not read: nothing is changed or taken back, whatever the numbers are.
    pub fn unread(&mut self) {
        for sheet in unreadable(&b()).iter().filter(|sheet| sheet.len() < SHEET_ROOM) {
            let shown = match named(sheet).first() {
                Some(&(_, _, place)) if place + 8 <= sheet.len() => own_times(sheet, place),
                _ => (2, 3),
            };
            self.put(Making::of(sheet).change((0, 0), (7, 9)).backs(&[0, 0]).case);
            for (name, old) in [((0, 0), (7, 9)), ((0, 0), (0, 0)), ((0, 9), (1, 1))] {
                self.one(sheet, change(name, old, shown));
                self.put(Making::of(sheet).take(change(name, old, (9, 9))).change((0, 9), (3, 2)).back(0).case);
            }
        }
    }

    /// Sheets of 16,384 bytes and one more.
    pub fn longest(&mut self) {
        let chain = Making::of(&longest()).change((0, 4), (0x0102, 0x0304)).change((0, 23), (2, 2)).back(0).back(0);
        self.put(chain.back(1).case);
        let shown = change((0, 23), (2, 2), (1, 1));
        self.put(Making::of(&too_long()).take(shown).change((0, 23), (2, 2)).back(0).case);
    }
}
