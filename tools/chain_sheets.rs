//! The sheets chosen by hand that changes are taken back on, beside those of retime_sheets.rs.

use crate::retime_sheets::{a, b, c, d, f};
use crate::sheet_parts::*;

const FIRST: First = [40, 300, 0, 40];

/// A skip and a halt, twice: the first halt is not the last statement.
pub fn halt_between() -> Vec<u8> {
    sheet_of(FIRST, 0, &[], &[thread(&[], &[skip((2, 3)), halt(), skip((4, 4))])])
}

/// The first statement is a halt, and others follow.
pub fn halt_first() -> Vec<u8> {
    sheet_of(FIRST, 0, &[], &[thread(&[], &[halt(), skip((2, 3))]), thread(&[], &[skip((5, 9))])])
}

/// So many threads, each with one statement more than the thread before it.
pub fn threads(count: u16) -> Vec<u8> {
    let skips = |count: u16| (0..count).map(|at| skip((count + at, count + 2 * at))).collect::<Vec<_>>();
    sheet_of(FIRST, 0, &[], &(0..count).map(|at| thread(&[], &skips(at + 1))).collect::<Vec<_>>())
}

/// A lock, a load, a store and an unlock, so that codes of one length can be exchanged.
pub fn pairs_of_codes() -> Vec<u8> {
    let statements = [lock((1, 1), 0), load((2, 3), 0, 0), store((1, 4), 0, 0), unlock((1, 2), 0)];
    sheet_of(FIRST, 1, &[(0, 5)], &[thread(&[(1, 1)], &statements)])
}

/// Times of two bytes that all differ.
pub fn two_bytes() -> Vec<u8> {
    let statements = [skip((0x0102, 0x0304)), skip((255, 256)), skip((256, 65_535))];
    sheet_of([1_000_000, 9, 0, 1_000_000], 0, &[], &[thread(&[], &statements)])
}

/// The second register's field has the length of an assignment's, and its bytes are those of `2..3 r0 := r0`:
/// with its tag, at `MOVED_TAG`, and the number of registers before it, at `MOVED_COUNT`, written otherwise
/// it is the thread's first statement.
pub fn moving() -> Vec<u8> {
    let high = i32::from_be_bytes([2, 0, 17, 0]);
    sheet_of(FIRST, 0, &[], &[thread(&[(0, 0), (0x0002_0003, high)], &[skip((4, 5)), skip((2, 3))])])
}
pub const MOVED_COUNT: usize = 26;
pub const MOVED_TAG: usize = 38;

/// Short sheets of one to four threads.
pub fn short() -> Vec<Vec<u8>> {
    let own = [halt_between(), halt_first(), threads(3), threads(4), two_bytes()];
    [&[a(), b(), c(), d(), f()][..], &own].concat()
}
