//! Tests of the change and the preview: sheets counted by hand, and sheets made with the times in place.

use crate::generator::{answer, Generator};
use crate::oracle::check;
use crate::retime_asked::{absent, asked, named, own_times, Times, EDGES, GOOD, TOP};
use crate::retime_change::{change, preview};
use crate::retime_sheets::*;
use crate::sheet_parts::*;
use crate::sheet_reads::reads;
use std::collections::BTreeSet;

/// The preview's five numbers, with room enough.
fn five(sheet: &[u8], thread: u64, statement: u64, times: Times) -> [u64; 5] {
    lent(sheet, sheet.len(), 12_000, thread, statement, times)
}

fn lent(sheet: &[u8], copy: usize, work: usize, thread: u64, statement: u64, times: Times) -> [u64; 5] {
    let answer = preview(sheet, copy, work, asked(thread, statement, times));
    [answer.refusal.into(), answer.place as u64, answer.steps, answer.low, answer.high]
}

/// The change's refusal and place, and the sheet after it.
fn changed(sheet: &[u8], thread: u64, statement: u64, times: Times) -> ((u8, usize), Vec<u8>) {
    let mut after = sheet.to_vec();
    let told = change(&mut after, asked(thread, statement, times));
    (told.map_or_else(|fault| (fault.refusal, fault.place), |_| (0, 0)), after)
}

/// Neither is made, and both say so.
fn refused(sheet: &[u8], thread: u64, statement: u64, times: Times, refusal: u8, place: usize) {
    let told = changed(sheet, thread, statement, times);
    assert_eq!(told, ((refusal, place), sheet.to_vec()), "{thread} {statement} {times:?}");
    assert_eq!(five(sheet, thread, statement, times), [refusal.into(), place as u64, 0, 0, 0]);
}

/// Sheet B: skip 2..3 at 27, its times from 30 on; halt at 35. Limit 10, label 2..3.
#[test]
fn sheet_b() {
    let b = b();
    assert_eq!(b.len(), 43);
    assert_eq!(b[27..35], [6, 0, 5, 0, 2, 0, 3, 1]);
    assert_eq!(five(&b, 0, 0, (2, 3)), [0, 0, 2, 2, 3]);
    assert_eq!(five(&b, 0, 0, (3, 3)), [0, 0, 2, 3, 3]);
    assert_eq!(five(&b, 0, 0, (4, 7)), [15, 0, 2, 4, 7]);
    assert_eq!(five(&b, 0, 0, (1, 3)), [15, 0, 2, 1, 3]);
    assert_eq!(five(&b, 0, 0, (10, 10)), [15, 0, 2, 10, 10]);
    assert_eq!(five(&b, 0, 0, (1, 11)), [12, 0, 1, 0, 0]);
    assert_eq!(five(&b, 0, 0, (65_535, 65_535)), [12, 0, 1, 0, 0]);
    assert_eq!(five(&b, 0, 1, (0, 0)), [0, 0, 2, 2, 3]);
    let (told, after) = changed(&b, 0, 0, (0x0102, 0xFEFD));
    assert_eq!(told, (0, 0));
    assert_eq!(after[27..35], [6, 0, 5, 0x01, 0x02, 0xFE, 0xFD, 1]);
    assert_eq!((&after[..27], &after[35..]), (&b[..27], &b[35..]));
    assert_eq!(changed(&b, 0, 1, (0, 0)), ((0, 0), b));
}

/// C: skip 1..4 beside skip 2..3. Where the second cannot end by 4 it is passed over, and the first goes alone.
#[test]
fn sheet_c() {
    let c = c();
    assert_eq!(five(&c, 1, 0, (2, 3)), [0, 0, 5, 2, 4]);
    assert_eq!(five(&c, 1, 0, (5, 6)), [0, 0, 3, 5, 6]);
    assert_eq!(five(&c, 0, 0, (9, 10)), [0, 0, 3, 9, 10]);
    assert_eq!(five(&c, 0, 0, (4, 11)), [12, 0, 2, 0, 0]);
    // 199 numbers are one state, 200 are two
    assert_eq!(lent(&c, 63, 199, 1, 0, (5, 6)), [0, 0, 3, 5, 6]);
    assert_eq!(lent(&c, 63, 199, 1, 0, (4, 6)), [14, 0, 1, 0, 0]);
    assert_eq!(lent(&c, 63, 200, 1, 0, (4, 6)), [0, 0, 5, 4, 6]);
    assert_eq!(lent(&c, 63, 99, 1, 0, (5, 6)), [14, 0, 0, 0, 0]);
    // three steps suffice where the second is passed over
    let short = headed(&c, [10, 3, 0, 10]);
    assert_eq!(five(&short, 1, 0, (2, 3)), [13, 0, 3, 0, 0]);
    assert_eq!(five(&short, 1, 0, (5, 6)), [0, 0, 3, 5, 6]);
}

/// D, E, F and G: locks, a branch, a divisor that may be 0.
#[test]
fn other_sheets() {
    assert_eq!(five(&d(), 0, 1, (1, 1)), [0, 0, 19, 3, 4]);
    assert_eq!(five(&e(), 1, 2, (0, 0)), [11, 0, 3, 0, 0]);
    // the second thread has both locks at 2 and keeps them; the first is stuck at its first
    assert_eq!(five(&e(), 0, 0, (5, 5)), [11, 0, 3, 0, 0]);
    // yes: halt at 1; no: halt at 1 + 3..4
    assert_eq!(five(&f(), 0, 1, (10, 10)), [0, 0, 4, 1, 11]);
    assert_eq!(five(&f(), 0, 1, (3, 4)), [0, 0, 4, 1, 5]);
    assert_eq!(five(&f(), 0, 0, (1, 2)), [12, 0, 3, 0, 0]);
    // the statement at 38, behind a register's field
    assert_eq!(five(&g((-1, 1)), 0, 0, (2, 9)), [10, 38, 1, 0, 0]);
    assert_eq!(five(&g((-1, 1)), 0, 0, (2, 11)), [12, 0, 1, 0, 0]);
    assert_eq!(five(&g((1, 5)), 0, 0, (2, 9)), [0, 0, 2, 2, 9]);
}

#[test]
fn times() {
    for (thread, statement, halts) in [(0, 0, false), (0, 1, true), (1, 0, false), (1, 1, true)] {
        for times in [(0, 0), (0, 1), (1, 0), (2, 1), (1, 65_536), (65_536, 65_536), (65_535, 65_534), (0, 65_535)] {
            if !(halts && times == (0, 0)) {
                refused(&c(), thread, statement, times, 4, 0);
            }
        }
        for times in EDGES.iter().filter(|times| times.1 > 65_535) {
            refused(&c(), thread, statement, *times, 4, 0);
        }
        for times in [(1, 1), (65_535, 65_535)].into_iter().filter(|_| halts) {
            refused(&c(), thread, statement, times, 4, 0);
        }
    }
    assert_eq!(changed(&c(), 0, 0, (1, 65_535)).0, (0, 0));
    assert_eq!(changed(&c(), 0, 0, (65_535, 65_535)).0, (0, 0));
}

#[test]
fn no_such_statement() {
    let c = c();
    for (thread, statement) in [(2, 0), (0, 2), (1, 2), (4, 0), (256, 0), (0, 256), (1 << 32, 0), (0, TOP), (TOP, 0)] {
        // 5 before 4
        for times in [(1, 1), (0, 0), (2, 1), (TOP, TOP)] {
            refused(&c, thread, statement, times, 5, 0);
        }
    }
    refused(&full(), 0, 64, (0, 0), 5, 0);
    assert_eq!(changed(&full(), 0, 63, (0, 0)).0, (0, 0));
    refused(&full(), 0, 63, (1, 1), 4, 0);
}

/// "then 19 for a short copy buffer (preview only)"
#[test]
fn copy_buffer() {
    for copy in [0, 1, 41, 42] {
        for (statement, times) in [(0, (2, 3)), (0, (9, 9)), (0, (0, 0)), (2, (1, 1)), (9, (TOP, 0))] {
            assert_eq!(lent(&b(), copy, 12_000, 0, statement, times), [19, 0, 0, 0, 0]);
        }
        // the sheet's own number first
        assert_eq!(lent(&b()[..42], 0, 12_000, 0, 9, (2, 1)), [1, 35, 0, 0, 0]);
        assert_eq!(lent(&b()[..35], copy.min(34), 12_000, 9, 0, (0, 0)), [7, 27, 0, 0, 0]);
    }
    for copy in [43, 44, 16_384, 100_000] {
        assert_eq!(lent(&b(), copy, 12_000, 0, 0, (2, 3)), [0, 0, 2, 2, 3]);
    }
    assert_eq!((longest().len(), too_long().len()), (16_384, 16_385));
    assert_eq!(lent(&longest(), 16_383, 12_000, 0, 0, (1, 1)), [19, 0, 0, 0, 0]);
    assert_eq!(lent(&longest(), 16_384, 12_000, 0, 0, (2, 3)), [0, 0, 25, 25, 26]);
    assert_eq!(lent(&too_long(), 16_384, 12_000, 9, 0, (2, 1)), [9, 0, 0, 0, 0]);
}

#[test]
fn sheets_that_do_not_read() {
    let mut numbers = BTreeSet::new();
    for sheet in unreadable(&b()) {
        let fault = reads(&sheet).expect_err("it does not read");
        numbers.insert(fault.refusal);
        for (thread, times) in [(0, (1, 1)), (0, (0, 0)), (9, (1, 1)), (TOP, (2, 1))] {
            refused(&sheet, thread, 0, times, fault.refusal, fault.place);
        }
    }
    assert_eq!(numbers, (1..=9).collect());
}

/// For each of 10 to 16, new times give it to a sheet that had another answer, and take it from one.
#[test]
fn each_refusal_of_the_search() {
    let mut turned = BTreeSet::new();
    for Turning { sheet, thread, statement } in turning() {
        for times in (1..10).flat_map(|least| [(least, least), (least, least + 3)]) {
            for work in [100, 1200] {
                let after = preview(&sheet, sheet.len(), work, asked(thread, statement, times));
                turned.insert((check(&sheet, work).refusal, after.refusal));
            }
        }
    }
    for refusal in 10..=16 {
        assert!(turned.iter().any(|&(before, after)| before != refusal && after == refusal), "{refusal} {turned:?}");
        assert!(turned.iter().any(|&(before, after)| before == refusal && after != refusal), "{refusal} {turned:?}");
    }
}

/// A sheet of statements of each code, made with these times.
fn made(times: &[(u16, u16)]) -> Vec<u8> {
    let first = [skip(times[0]), assign(times[1], 0, &both(18, register(0), constant(1))), store(times[2], 0, 1)];
    let second = [lock(times[3], 0), load(times[4], 1, 0), jump(times[5], 4, &below(1, 3)), unlock(times[6], 0)];
    let threads = [thread(&[(0, 1)], &first), thread(&[(2, 2), (3, 4)], &second), thread(&[], &[skip(times[7])])];
    sheet_of([90, 4000, 3, 70], 1, &[(5, 6), (7, 7)], &threads)
}

/// The changed sheet is the one that is made with the new times from the start.
#[test]
fn as_if_made_so() {
    let before = [(1, 2), (2, 2), (3, 4), (1, 1), (2, 5), (1, 3), (4, 4), (9, 20)];
    let names = [(0, 0), (0, 1), (0, 2), (1, 0), (1, 1), (1, 2), (1, 3), (2, 0)];
    for (at, (thread, statement)) in names.into_iter().enumerate() {
        for times in [(1, 1), (3, 9), (256, 257), (0x1234, 0xABCD), (65_535, 65_535)] {
            let mut after = before;
            after[at] = times;
            let asked = (u64::from(times.0), u64::from(times.1));
            assert_eq!(changed(&made(&before), thread, statement, asked), ((0, 0), made(&after)));
            let expected = check(&made(&after), 3000);
            assert_eq!(preview(&made(&before), 1000, 3000, self::asked(thread, statement, asked)), expected);
        }
    }
}

/// On random sheets: four bytes are written and no other, the changed sheet reads, its times are the new
/// ones, the old ones bring it back, and the preview is the changed sheet's own answer.
#[test]
fn random_sheets() {
    let mut generator = Generator::new(3);
    let mut made = 0;
    while made < 4000 {
        let entry = generator.entry();
        if reads(&entry.sheet).is_err() || entry.sheet.len() > 400 {
            continue;
        }
        for (thread, statement, place) in named(&entry.sheet) {
            let (old, new) = (own_times(&entry.sheet, place), generator.random.pick(&GOOD));
            let new = if old == (0, 0) { old } else { new };
            let (told, after) = changed(&entry.sheet, thread, statement, new);
            assert_eq!(told, (0, 0), "{:?}", entry.sheet);
            assert_eq!((reads(&after), own_times(&after, place)), (Ok(()), new));
            let (behind, end) = (place + 7, after.len());
            assert_eq!((&after[..place + 3], &after[behind..]), (&entry.sheet[..place + 3], &entry.sheet[behind..end]));
            assert_eq!(changed(&after, thread, statement, old), ((0, 0), entry.sheet.clone()));
            if let Some(expected) = answer(&after, entry.length) {
                let asked = asked(thread, statement, new);
                assert_eq!(preview(&entry.sheet, after.len(), entry.length, asked), expected);
            }
            made += 1;
        }
        for (thread, statement) in absent(&entry.sheet) {
            refused(&entry.sheet, thread, statement, (1, 1), 5, 0);
        }
    }
}
