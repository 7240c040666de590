//! Bytes that someone else writes between a change and its taking back.

use crate::chain_never::change;
use crate::chain_sheets::*;
use crate::chain_steps::{movable, Case, Making};
use crate::entries::Cases;
use crate::field::HEADER;
use crate::generator::fields;
use crate::retime_asked::{named, own_times, Times};
use crate::retime_change::CODE;
use crate::retime_sheets::{b, c, d, f, full, wide};
use crate::sheet_reads::reads;

/// Where the bytes of the first field stand: time limit, budget, label low and label high.
const LIMIT: usize = 3;
const BUDGET: usize = 7;
const LABEL_LOW: usize = 11;
const LABEL_HIGH: usize = 15;

/// Times of a statement as bytes.
fn four((least, greatest): Times) -> [u8; 4] {
    let [[a, b], [c, d]] = [least, greatest].map(|time| (time as u16).to_be_bytes());
    [a, b, c, d]
}

impl Cases<Case> {
    /// A byte is turned before the change is taken back, then turned again, and the change taken back.
    fn turned(&mut self, changed: &Making, at: usize, bits: u8) {
        let turned = changed.clone().turn(at, bits);
        self.put(turned.clone().back(0).turn(at, bits).back(0).case);
        // where the sheet no longer reads a change is refused as well, and its zeros with it
        if reads(&turned.sheet).is_err() {
            self.put(turned.change((0, 0), (1, 2)).backs(&[1, 0]).turn(at, bits).backs(&[1, 0]).case);
        }
    }

    /// Each of the four time bytes of the statement, and of another.
    pub fn times_written(&mut self) {
        for sheet in [b(), c(), halt_between(), two_bytes()] {
            let movable = movable(&sheet);
            for (nth, &(name, place)) in movable.iter().enumerate() {
                let changed = Making::of(&sheet).change(name, (0x0203, 0x0405));
                for at in place + HEADER..place + CODE {
                    self.turned(&changed, at, 0x01);
                    self.turned(&changed, at, 0x80);
                }
                let (other, beside) = movable[(nth + 1) % movable.len()];
                for times in [(1, 1), (0x0203, 0x0405), own_times(&sheet, place)] {
                    let written = changed.clone().write(beside + HEADER, &four(times));
                    self.put(written.clone().back(0).case);
                    self.put(written.clone().back(0).change(other, (7, 9)).backs(&[1, 0]).case);
                    self.put(written.change(other, (7, 9)).backs(&[0, 1, 0]).case);
                }
            }
        }
    }

    /// Least or greatest alone; the old times, the new ones exchanged, and new times that no change wrote.
    pub fn shown_since(&mut self) {
        for sheet in [b(), c(), f(), threads(3)] {
            for (name, place) in movable(&sheet) {
                let old = own_times(&sheet, place);
                let changed = Making::of(&sheet).change(name, (20, 30));
                for times in [(20, 31), (19, 30), (20, 20), (30, 30), old, (20, 30 + 256)] {
                    let written = changed.clone().write(place + HEADER, &four(times));
                    self.put(written.back(0).write(place + HEADER, &four((20, 30))).back(0).case);
                }
                let written = Making::of(&sheet).write(place + HEADER, &four((20, 30)));
                self.put(written.clone().take(change(name, (5, 6), (20, 30))).case);
                self.put(written.clone().take(change(name, (5, 6), old)).case);
                self.put(written.take(change(name, old, (20, 30))).take(change(name, old, (20, 30))).case);
            }
        }
    }

    /// A skip becomes a halt and a halt a skip: old times that it had it may have no longer. In between, with
    /// times or code alone, the sheet does not read.
    pub fn codes_written(&mut self) {
        for sheet in [halt_between(), halt_first(), b()] {
            for (thread, statement, place) in named(&sheet) {
                let (name, own) = ((thread, statement), own_times(&sheet, place));
                let (new, turned, code) = if own == (0, 0) { (own, (1, 1), 1) } else { ((7, 9), (0, 0), 0) };
                let changed = Making::of(&sheet).change(name, new);
                let halfway = changed.clone().write(place + HEADER, &four(turned));
                self.put(halfway.clone().back(0).write(place + HEADER, &four(new)).back(0).case);
                let turned_about = halfway.back(0).write(place + CODE, &[code]);
                self.put(turned_about.clone().backs(&[0, 0]).case);
                // the new times are shown again, the old ones are allowed or not
                self.put(turned_about.clone().take(change(name, own, turned)).case);
                self.put(turned_about.clone().take(change(name, turned, turned)).case);
                let code = sheet[place + CODE];
                self.put(
                    turned_about.write(place + HEADER, &four(new)).back(0).write(place + CODE, &[code]).back(0).case,
                );
            }
        }
        for sheet in [pairs_of_codes(), d()] {
            for (name, place) in movable(&sheet) {
                self.turned(&Making::of(&sheet).change(name, (7, 9)), place + CODE, 0x01);
            }
        }
    }

    /// Bytes of each field: some leave a sheet that reads, and are left as they are; some do not.
    pub fn fields_written(&mut self) {
        for (sheet, statement) in [(b(), 0), (c(), 0), (halt_between(), 2), (pairs_of_codes(), 1)] {
            let changed = Making::of(&sheet).change((0, statement), (7, 9));
            for at in [LIMIT + 3, BUDGET + 3, LABEL_LOW + 3, LABEL_HIGH + 3] {
                self.turned(&changed, at, 0x02);
                self.turned(&changed, at, 0x80);
            }
            let places = fields(&sheet);
            for at in places.iter().copied().chain([LIMIT, BUDGET]) {
                self.turned(&changed, at, 0x01);
                self.turned(&changed, at, 0x40);
            }
            for at in places.iter().map(|place| place + 2) {
                self.turned(&changed, at, 0x01);
            }
            self.turned(&changed, sheet.len() - 1, 0x01);
        }
        // places above 255
        for (sheet, statement) in [(full(), 62), (wide(), 2)] {
            self.turned(&Making::of(&sheet).change((0, statement), (7, 9)), sheet.len() - 1, 0x01);
        }
    }

    /// The statements get other numbers: who is named then is another, and it is asked for its own times.
    pub fn numbers_moved(&mut self) {
        for (statement, times) in [(0, (2, 3)), (0, (4, 6)), (1, (4, 5)), (1, (7, 9)), (2, (0, 0))] {
            let changed = Making::of(&moving()).change((0, statement), times);
            let half = changed.clone().turn(MOVED_TAG, 3);
            let moved = half.clone().turn(MOVED_COUNT, 3);
            self.put(half.back(0).turn(MOVED_TAG, 3).back(0).case);
            self.put(moved.clone().back(0).turn(MOVED_TAG, 3).back(0).turn(MOVED_COUNT, 3).back(0).case);
            self.put(moved.change((0, statement + 1), (8, 8)).backs(&[0, 1]).case);
        }
    }
}
