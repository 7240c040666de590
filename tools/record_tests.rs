//! Tests of the follower: records counted by hand, and all runs of random sheets against the
//! oracle's count of them.

use crate::generator::{answer, Generator};
use crate::oracle::every_run;
use crate::record_follow::{follow, ranges};
use crate::record_runs::{event, random_run, record};
use crate::record_sheet::{read, Sheet};
use crate::sheet_parts::*;

fn numbers(sheet: &[u8], record: &[u8]) -> [usize; 5] {
    follow(sheet, record).numbers()
}

fn is(sheet: &[u8], values: &[i32], events: &[(u8, u64)], expected: [usize; 5]) {
    assert_eq!(numbers(sheet, &record(values, events)), expected, "{values:?} {events:?}");
}

/// Sheet B of the paper: skip 2..3, halt.
fn b() -> Vec<u8> {
    sheet(0, &[], &[thread(&[], &[skip((2, 3))])])
}

#[test]
fn sheet_b() {
    is(&b(), &[], &[], [0, 0, 0, 0, 0]);
    is(&b(), &[], &[(0, 2)], [0, 0, 0, 1, 2]);
    is(&b(), &[], &[(0, 3)], [0, 0, 0, 1, 3]);
    for tick in [0, 1, 4, 65_535] {
        is(&b(), &[], &[(0, tick)], [21, 1, 0, 0, 0]);
    }
    is(&b(), &[], &[(1, 2)], [5, 1, 0, 0, 0]);
    is(&b(), &[], &[(0, 2), (0, 2)], [21, 1, 6, 0, 0]);
    is(&b(), &[], &[(0, 2), (1, 2)], [5, 1, 6, 0, 0]);
    // sheet A is finished at its start
    is(&sheet(0, &[], &[thread(&[], &[])]), &[], &[], [0, 0, 0, 1, 0]);
    is(&sheet(0, &[], &[thread(&[], &[])]), &[], &[(0, 0)], [21, 1, 0, 0, 0]);
}

/// Sheet C: skip 1..4 beside skip 2..3.
#[test]
fn sheet_c() {
    let c = sheet(0, &[], &[thread(&[], &[skip((1, 4))]), thread(&[], &[skip((2, 3))])]);
    is(&c, &[], &[(0, 1), (1, 2)], [0, 0, 0, 1, 2]);
    is(&c, &[], &[(1, 3), (0, 3)], [0, 0, 0, 1, 3]);
    is(&c, &[], &[(1, 3), (0, 4)], [0, 0, 0, 1, 4]);
    // the second thread must end by 3; the first may not end before it
    is(&c, &[], &[(0, 4), (1, 4)], [21, 1, 0, 0, 0]);
    is(&c, &[], &[(1, 3), (0, 2)], [21, 1, 6, 0, 0]);
    is(&c, &[], &[(1, 2), (0, 5)], [21, 1, 6, 0, 0]);
    is(&c, &[], &[(1, 2)], [0, 0, 0, 0, 2]);
}

/// Sheet D: two threads of lock 0, unlock 0, all times 1..1.
#[test]
fn sheet_d() {
    let one = thread(&[], &[lock((1, 1), 0), unlock((1, 1), 0)]);
    let d = sheet(1, &[], &[one.clone(), one]);
    is(&d, &[], &[(0, 1), (1, 1), (0, 2), (1, 2), (1, 3)], [0, 0, 0, 1, 3]);
    is(&d, &[], &[(0, 1), (1, 1), (1, 2), (0, 2), (1, 3), (1, 4)], [0, 0, 0, 1, 4]);
    // the failed tries are events
    is(&d, &[], &[(0, 1), (0, 2), (1, 2)], [21, 1, 6, 0, 0]);
    is(&d, &[], &[(0, 1), (1, 1), (1, 2), (0, 2), (1, 3)], [0, 0, 0, 0, 3]);
}

#[test]
fn the_clock_starts_over() {
    let statements = [skip((65_535, 65_535)), skip((1, 65_535)), skip((1, 1))];
    let one = sheet(0, &[], &[thread(&[], &statements)]);
    // ticks 65535, 131070 (clock 65534), 131071 (clock 65535)
    assert_eq!(
        numbers(&one, &[33, 0, 3, 0, 255, 255, 33, 0, 3, 0, 255, 254, 33, 0, 3, 0, 255, 255]),
        [0, 0, 0, 1, 131_071]
    );
    // ticks 65535, 65536 (clock 0), 65537 (clock 1)
    assert_eq!(numbers(&one, &[33, 0, 3, 0, 255, 255, 33, 0, 3, 0, 0, 0, 33, 0, 3, 0, 0, 1]), [0, 0, 0, 1, 65_537]);
    // no gap is 65,536
    is(&one, &[], &[(0, 65_535), (0, 65_535)], [21, 1, 6, 0, 0]);
    // two ends at one tick have no gap
    let same = thread(&[], &[skip((65_535, 65_535)), skip((1, 9))]);
    is(
        &sheet(0, &[], &[same.clone(), same]),
        &[],
        &[(1, 65_535), (0, 65_535), (0, 65_536), (1, 65_540)],
        [0, 0, 0, 1, 65_540],
    );
}

#[test]
fn starting_values() {
    let one = sheet(0, &[(-5, -3)], &[thread(&[(7, 9)], &[]), thread(&[(0, 0)], &[])]);
    for (values, expected) in [
        (&[-5, 7, 0][..], [0, 0, 0, 1, 0]),
        (&[-3, 9, 0], [0, 0, 0, 1, 0]),
        (&[-6, 9, 0], [4, 1, 0, 0, 0]),
        (&[-2, 6, 1], [4, 1, 0, 0, 0]),
        (&[-4, 6, 1], [4, 1, 7, 0, 0]),
        (&[-4, 10, 0], [4, 1, 7, 0, 0]),
        (&[-4, 8, 1], [4, 1, 14, 0, 0]),
        (&[-4, 8, -1], [4, 1, 14, 0, 0]),
        (&[-4, 8], [1, 1, 14, 0, 0]),
        (&[], [1, 1, 0, 0, 0]),
        (&[-4, 8, 0, 0], [2, 1, 21, 0, 0]),
    ] {
        is(&one, values, &[], expected);
    }
    is(&one, &[-4, 8], &[(0, 1)], [2, 1, 14, 0, 0]);
}

#[test]
fn fields() {
    for (record, expected) in [
        (&[33][..], [1, 1, 0, 0, 0]),
        (&[32, 0], [1, 1, 0, 0, 0]),
        (&[32, 0, 9], [2, 1, 0, 0, 0]),
        (&[33, 0, 3, 0, 0], [1, 1, 0, 0, 0]),
        (&[33, 0, 4, 9, 9, 9], [1, 1, 0, 0, 0]),
        (&[33, 0, 4, 9, 9, 9, 9], [3, 1, 0, 0, 0]),
        (&[33, 0, 2, 0, 0, 2], [3, 1, 0, 0, 0]),
        (&[33, 0, 3, 0, 0, 2, 33, 0], [1, 1, 6, 0, 0]),
        (&[33, 0, 3, 0, 0, 2, 32, 0, 4, 0, 0, 0, 0], [2, 1, 6, 0, 0]),
    ] {
        assert_eq!(numbers(&b(), record), expected, "{record:?}");
    }
    assert_eq!(numbers(&b(), &[0; 65_537]), [9, 1, 0, 0, 0]);
    assert_eq!(numbers(&b(), &[0; 65_536]), [2, 1, 0, 0, 0]);
    // the sheet's own number first
    assert_eq!(numbers(&b()[..35], &[0; 65_537]), [7, 0, 27, 0, 0]);
    assert_eq!(numbers(&[1; 16_385], &[]), [9, 0, 0, 0, 0]);
}

#[test]
fn no_result() {
    let one = |value: &[u8]| {
        sheet(
            0,
            &[],
            &[thread(
                &[(-7, 7), (-2, 2)],
                &[skip((1, 1)), assign((1, 2), 0, value), jump((1, 1), 4, &below(0, -3)), skip((5, 5))],
            )],
        )
    };
    let divide = one(&both(21, register(0), register(1)));
    is(&divide, &[-7, 0], &[(0, 1), (0, 3)], [10, 1, 20, 0, 0]);
    is(&divide, &[-7, 0], &[(0, 1), (0, 4)], [21, 1, 20, 0, 0]);
    is(&divide, &[-7, 0], &[(0, 1), (1, 3)], [5, 1, 20, 0, 0]);
    // -7 by 2 and 7 by -2 are -4, 7 by 2 is 3
    is(&divide, &[-7, 2], &[(0, 1), (0, 2), (0, 3)], [0, 0, 0, 1, 3]);
    is(&divide, &[7, -2], &[(0, 1), (0, 2), (0, 3)], [0, 0, 0, 1, 3]);
    is(&divide, &[7, 2], &[(0, 1), (0, 2), (0, 3)], [0, 0, 0, 0, 3]);
    let times = one(&both(20, constant(i32::MIN), register(1)));
    is(&times, &[0, -1], &[(0, 1), (0, 2)], [16, 1, 20, 0, 0]);
    is(&times, &[0, 1], &[(0, 1), (0, 2), (0, 3)], [0, 0, 0, 1, 3]);
}

/// Finished runs, least and greatest tick, runs ended by 10 and by 16.
#[derive(PartialEq, Debug)]
struct Count(u64, u64, u64, u64, u64);

/// Tries every thread and every gap up to `most` behind a record, as far as the time limit.
fn count(bytes: &[u8], sheet: &Sheet, most: u64, before: &[u8], tick: u64, count_of: &mut Count) {
    let limit = u64::from(u32::from_be_bytes([bytes[3], bytes[4], bytes[5], bytes[6]]));
    for thread in 0..sheet.threads.len() as u8 {
        for next in tick..=tick + most {
            let record = [before, &event(thread, next)].concat();
            let answer = follow(bytes, &record);
            match answer.refusal {
                0 if answer.finished => {
                    *count_of =
                        Count(count_of.0 + 1, count_of.1.min(next), count_of.2.max(next), count_of.3, count_of.4);
                }
                0 if next <= limit => count(bytes, sheet, most, &record, next, count_of),
                10 => count_of.3 += 1,
                16 => count_of.4 += 1,
                _ => {}
            }
        }
    }
}

#[test]
fn runs_as_the_oracle_counts_them() {
    let mut generator = Generator::new(9);
    let (mut sheets, mut runs, mut faults) = (0, 0, 0);
    while sheets < 400 {
        let bytes = generator.entry().sheet;
        let Ok(sheet) = read(&bytes) else { continue };
        let greatest =
            sheet.threads.iter().flat_map(|thread| &thread.statements).map(|statement| statement.greatest).max();
        let Some((figures, true)) = every_run(&bytes, 200) else { continue };
        let most = greatest.unwrap_or(0) + 1;
        if figures.stuck > 0 || most > 10 || figures.longest == 0 {
            continue;
        }
        let ranges = ranges(&sheet);
        let mut found = Count(0, u64::MAX, 0, 0, 0);
        let mut starts = vec![vec![]];
        for (low, high) in ranges {
            let with = |start: &Vec<i32>| (low..=high).map(|value| [&start[..], &[value]].concat()).collect::<Vec<_>>();
            starts = starts.iter().flat_map(with).collect();
        }
        for start in starts {
            count(&bytes, &sheet, most, &record(&start, &[]), 0, &mut found);
        }
        let expected = Count(figures.finished, figures.low, figures.high, figures.no_reading, figures.off_the_scale);
        assert_eq!(found, expected, "{bytes:?}");
        sheets += 1;
        runs += figures.finished;
        faults += figures.no_reading + figures.off_the_scale;
    }
    assert!(runs > 1000 && faults > 100, "{runs} {faults}");
}

/// "A finished record of an accepted sheet ends inside its label."
#[test]
fn accepted_sheets() {
    let mut generator = Generator::new(5);
    let mut finished = 0;
    for _ in 0..3000 {
        let bytes = generator.entry().sheet;
        if !answer(&bytes, 12_000).is_some_and(|answer| answer.refusal == 0) {
            continue;
        }
        let label = [11, 15].map(|at| u32::from_be_bytes([bytes[at], bytes[at + 1], bytes[at + 2], bytes[at + 3]]));
        let sheet = read(&bytes).expect("it reads");
        for _ in 0..10 {
            let run = random_run(&sheet, &mut generator.random, usize::MAX);
            let answer = follow(&bytes, &run.bytes());
            assert_eq!((answer.refusal, answer.finished), (0, true), "{bytes:?}");
            assert!(u64::from(label[0]) <= answer.tick && answer.tick <= u64::from(label[1]), "{bytes:?}");
            finished += 1;
        }
    }
    assert!(finished > 5000, "{finished}");
}
