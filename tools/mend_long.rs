//! Cases of sheets of about 16,384 bytes, before and after mending.

use crate::entries::Cases;
use crate::mend_answer::{Case, MAX_SHEET};
use crate::mend_garbled::*;
use crate::retime_sheets::WIDE;
use crate::sheet_parts::*;

/// The skips that are at least behind the sums.
const SKIPS: usize = 9;

/// A sum of 2^depth registers 0.
fn tree(depth: u8) -> Vec<u8> {
    match depth {
        0 => register(0),
        _ => both(18, tree(depth - 1), tree(depth - 1)),
    }
}

/// A thread without a halt, of sums and then skips, that has just so many bytes: a lock has a byte more than a
/// skip and stands for one until the length is right.
fn thread_of(length: usize) -> Vec<u8> {
    let mut thread = open(&[(0, 0)], &[]);
    for depth in (0..12).rev() {
        let sum = assign((1, 1), 0, &tree(depth));
        while thread.len() + sum.len() + HALT_LENGTH * SKIPS <= length {
            thread.extend(&sum);
        }
    }
    let left = length - thread.len();
    for nth in 0..left / HALT_LENGTH {
        thread.extend(if nth < left % HALT_LENGTH { lock((1, 1), 0) } else { skip((1, 1)) });
    }
    thread
}

/// A sheet of just so many bytes: a first thread without a halt, then these bytes.
pub fn of_length(length: usize, behind: &[u8]) -> Vec<u8> {
    let front = sheet_of(WIDE, 1, &[], &[]);
    [&front, &thread_of(length - front.len() - behind.len()), behind].concat()
}

/// What stands behind the first thread: nothing, and threads with each of 1 to 6 and 8.
fn faults() -> Vec<Vec<u8>> {
    let one = |statement: Vec<u8>| thread(&[], &[statement]);
    vec![
        vec![4, 0, 1, 0],
        vec![4, 0, 1],
        vec![4, 0, 1, 0, 5, 0, 0],
        vec![4, 0, 2, 0, 0],
        one(skip((3, 0))),
        one(lock((1, 1), 1)),
        open(&[], &[jump((1, 1), 2, &[32])]),
        one(jump((1, 1), 0, &[16])),
        thread(&[], &[]).repeat(4),
        open(&[], &vec![skip((1, 1)); 64]),
    ]
}

impl Cases<Case> {
    pub fn long(&mut self) {
        self.long_mended();
        for behind in faults() {
            self.add(&of_length(MAX_SHEET, &behind), 5, 1);
        }
        // the label is refused first, whatever the length
        let mut off_label = of_length(MAX_SHEET, &[]);
        off_label[11] = 255;
        self.add(&off_label, 3, 4);
        // a thread that does not close: nothing is added
        for behind in [&[4][..], &[4, 0], &[5, 0, 0]] {
            self.add(&of_length(MAX_SHEET, behind), 2, 2);
        }
        self.long_at_first();
    }

    /// Up to 16,384 bytes when mended, and more.
    fn long_mended(&mut self) {
        let closed = [of_length(MAX_SHEET - HALT_LENGTH, &[]), halt()].concat();
        self.add(&closed, MAX_SHEET, 0);
        self.add(&closed, 30, 1);
        let mut mendable = of_length(MAX_SHEET - HALT_LENGTH, &[]);
        self.add(&mendable, 9, 2);
        exchange(&mut mendable, 0);
        self.add(&mendable, MAX_SHEET + 2, 5);
        self.add(&mendable, MAX_SHEET - 1, 4);
        self.add(&of_length(MAX_SHEET - HALT_LENGTH + 1, &[]), MAX_SHEET + 1, 4);
        self.add(&of_length(MAX_SHEET, &[]), 12, 3);
        let two = open(&[], &[skip((3, 2))]);
        self.add(&of_length(MAX_SHEET - 2 * HALT_LENGTH, &two), MAX_SHEET, 6);
        self.add(&of_length(MAX_SHEET - 2 * HALT_LENGTH + 1, &two), 6, 2);
    }

    /// More than 16,384 bytes from the start, with and without other faults.
    fn long_at_first(&mut self) {
        let mut closed = [of_length(MAX_SHEET - HALT_LENGTH + 1, &[]), halt()].concat();
        self.add(&closed, MAX_SHEET + 1, 2);
        exchange(&mut closed, 0);
        self.add(&closed, 3, 2);
        closed[0] = 9;
        self.add(&closed, 0, 0);
        self.add(&of_length(MAX_SHEET + 1, &[]), 7, 2);
        self.add(&of_length(MAX_SHEET + 1, &[4, 0, 1]), 1, 0);
        self.add(&vec![0; MAX_SHEET], 1, 1);
        self.add(&vec![0; MAX_SHEET + 1], 2, 2);
        self.add(&vec![6; 20_000], 2, 0);
    }
}
