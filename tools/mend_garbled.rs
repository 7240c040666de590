//! What the card writer does to a sheet: it exchanges low and high ends and drops a thread's closing halt.
//! Written beside the mend and not with it, so that the tests can undo by this what the mend lists. A module of mends.rs
//! and prints.rs.

use crate::generator::fields;
use crate::sheet_parts::*;

pub const HALT_LENGTH: usize = 8;
/// Limit 10, budget 100, label 0..10.
pub const TEN: First = [10, 100, 0, 10];

/// The first field of `TEN` and no locks: 23 bytes.
pub fn front() -> Vec<u8> {
    sheet_of(TEN, 0, &[], &[])
}

/// A thread whose closing halt is dropped.
pub fn open(registers: &[Range], statements: &[Vec<u8>]) -> Vec<u8> {
    let thread = thread(registers, statements);
    thread[..thread.len() - HALT_LENGTH].to_vec()
}

/// The front, then these threads.
pub fn headed(threads: &[Vec<u8>]) -> Vec<u8> {
    [front(), threads.concat()].concat()
}

/// A label, a variable, a register and two statements with ends that differ.
pub fn mixed() -> Vec<u8> {
    let statements = [skip((2, 3)), load((1, 4), 0, 0), jump((1, 1), 3, &[32])];
    sheet_of([10, 100, 1, 9], 1, &[(-3, 4)], &[thread(&[(-2, 5)], &statements)])
}

/// Two threads, the second with a register.
pub fn two() -> Vec<u8> {
    let first = [skip((1, 2)), jump((2, 3), 2, &[33])];
    let second = [jump((1, 1), 1, &below(0, 5)), skip((3, 4))];
    sheet_of([20, 100, 0, 20], 0, &[], &[thread(&[], &first), thread(&[(-6, 5)], &second)])
}

/// Where the ends of the field at this place stand by its tag, and how many bytes each has.
fn ends_at(sheet: &[u8], place: usize) -> Option<(usize, usize)> {
    let (start, size) = match sheet[place] {
        1 => (11, 4),
        2 | 5 => (3, 4),
        6 => (3, 2),
        _ => return None,
    };
    (place + start + 2 * size <= sheet.len()).then_some((place + start, size))
}

/// The ends of the field at this place change places, if it has some.
pub fn exchange(sheet: &mut [u8], place: usize) {
    if let Some((start, size)) = ends_at(sheet, place) {
        for at in start..start + size {
            sheet.swap(at, at + size);
        }
    }
}

/// The fields with two ends that differ.
pub fn crossable(sheet: &[u8]) -> Vec<usize> {
    let differ = |&place: &usize| {
        ends_at(sheet, place)
            .is_some_and(|(start, size)| sheet[start..start + size] != sheet[start + size..start + 2 * size])
    };
    fields(sheet).into_iter().filter(differ).collect()
}

/// The last statement of each thread, if it is a halt.
pub fn closing_halts(sheet: &[u8]) -> Vec<usize> {
    let closes = |place: usize| place == sheet.len() || sheet[place..].starts_with(&[4]);
    let is_halt = |&place: &usize| sheet[place..].starts_with(&halt()) && closes(place + HALT_LENGTH);
    fields(sheet).into_iter().filter(is_halt).collect()
}

/// The sheet with the ends of these fields exchanged, then with these halts dropped.
pub fn garbled(sheet: &[u8], crossed: &[usize], dropped: &[usize]) -> Vec<u8> {
    let mut garbled = sheet.to_vec();
    crossed.iter().for_each(|&place| exchange(&mut garbled, place));
    let mut dropped = dropped.to_vec();
    dropped.sort();
    for place in dropped.into_iter().rev() {
        garbled.drain(place..place + HALT_LENGTH);
    }
    garbled
}

/// All of it at once.
pub fn garbled_whole(sheet: &[u8]) -> Vec<u8> {
    garbled(sheet, &crossable(sheet), &closing_halts(sheet))
}

/// Those of the elements whose bit is set.
fn chosen(all: &[usize], bits: usize) -> Vec<usize> {
    (0..all.len()).filter(|at| bits >> at & 1 == 1).map(|at| all[at]).collect()
}

/// Every way in which the card writer may garble the sheet, the way that leaves it among them.
pub fn every_subset(sheet: &[u8]) -> Vec<Vec<u8>> {
    let (crossable, halts) = (crossable(sheet), closing_halts(sheet));
    let both = |bits: usize| (chosen(&crossable, bits), chosen(&halts, bits >> crossable.len()));
    (0..1 << (crossable.len() + halts.len()))
        .map(both)
        .map(|(crossed, dropped)| garbled(sheet, &crossed, &dropped))
        .collect()
}

/// One or two fields garbled; all ends, all halts, everything.
pub fn some_subsets(sheet: &[u8], pairs: bool) -> Vec<Vec<u8>> {
    let (crossable, halts) = (crossable(sheet), closing_halts(sheet));
    let mut all = vec![garbled(sheet, &crossable, &[]), garbled(sheet, &[], &halts), garbled_whole(sheet)];
    let one = |at: usize| match at.checked_sub(crossable.len()) {
        None => (vec![crossable[at]], vec![]),
        Some(halt) => (vec![], vec![halts[halt]]),
    };
    let count = crossable.len() + halts.len();
    for first in 0..count {
        let (crossed, dropped) = one(first);
        all.push(garbled(sheet, &crossed, &dropped));
        for second in (first + 1..count).filter(|_| pairs) {
            let (more_crossed, more_dropped) = one(second);
            all.push(garbled(sheet, &[&crossed[..], &more_crossed].concat(), &[&dropped[..], &more_dropped].concat()));
        }
    }
    all
}
