//! Tests of the change and its taking back: sheets counted by hand, sheets made with the times in place, and
//! random ones.

use crate::chain_cases;
use crate::chain_corpus::{corpus_of, Chain, STEP};
use crate::chain_never::change as numbers;
use crate::chain_orders::backwards;
use crate::chain_steps::{made, Making, Step};
use crate::entries::{self, Entry};
use crate::field::Fault;
use crate::generator::Generator;
use crate::retime_asked::{asked, named, own_times, Times, EDGES, GOOD, TOP};
use crate::retime_back::take_back;
use crate::retime_change::{change, change_told, Change};
use crate::retime_sheets::{a, b, c, longest, too_long};
use crate::sheet_parts::*;
use crate::sheet_reads::reads;
use std::collections::BTreeSet;

/// Refusal and place of a taking back, and the sheet after it.
fn back(sheet: &[u8], change: Change) -> ((u8, usize), Vec<u8>) {
    let mut after = sheet.to_vec();
    let told = take_back(&mut after, change);
    (told.map_or_else(|Fault { refusal, place }| (refusal, place), |()| (0, 0)), after)
}

fn refused(sheet: &[u8], change: Change, refusal: u8, place: usize) {
    assert_eq!(back(sheet, change), ((refusal, place), sheet.to_vec()), "{change:?}");
}

/// B with these bytes from `at` on.
fn b_with(at: usize, bytes: &[u8]) -> Vec<u8> {
    let mut sheet = b();
    sheet[at..at + bytes.len()].copy_from_slice(bytes);
    sheet
}

/// Sheet B: skip 2..3 at 27, its times at 30 to 33, its code at 34; halt at 35.
#[test]
fn sheet_b() {
    let mut sheet = b();
    let told = change_told(&mut sheet, asked(0, 0, (0x0102, 0x0304)));
    let did = Change::of([0, 0, 2, 3, 0x0102, 0x0304]);
    assert_eq!(told, (Fault { refusal: 0, place: 0 }, did));
    assert_eq!(sheet, b_with(30, &[1, 2, 3, 4]));
    assert_eq!(back(&sheet, did), ((0, 0), b()));
    // taken back twice: B does not show the new times
    refused(&b(), did, 18, 0);
    // the times that it has: a change all the same, and so is its taking back
    let told = change_told(&mut b(), asked(0, 0, (2, 3)));
    assert_eq!(told, (Fault { refusal: 0, place: 0 }, Change::of([0, 0, 2, 3, 2, 3])));
    assert_eq!(back(&b(), told.1), ((0, 0), b()));
    assert_eq!(back(&b(), Change::of([0, 1, 0, 0, 0, 0])), ((0, 0), b()));
    // never a change, but the statement shows the new times
    assert_eq!(back(&b(), numbers((0, 0), (65_535, 65_535), (2, 3))), ((0, 0), b_with(30, &[255; 4])));
}

/// "zeros if refused": they name thread 0, statement 0 and times 0 and 0, which only a halt may have.
#[test]
fn zeros() {
    let zeros = Change::of([0; 6]);
    for (name, times, refusal) in [((0, 0), (3, 2), 4), ((0, 2), (1, 1), 5), ((1, 0), (0, 0), 5), ((0, 1), (1, 1), 4)] {
        let told = change_told(&mut b(), asked(name.0, name.1, times));
        assert_eq!(told, (Fault { refusal, place: 0 }, zeros));
    }
    assert_eq!(change_told(&mut b()[..42], asked(0, 0, (1, 1))), (Fault { refusal: 1, place: 35 }, zeros));
    refused(&b(), zeros, 4, 0);
    refused(&c(), zeros, 4, 0);
    refused(&b()[..42], zeros, 1, 35);
    assert_eq!(back(&a(), zeros), ((0, 0), a()));
}

/// "the sheet's own number, then 5 for no such statement, then 4 for old times it may not have, then 18"
#[test]
fn in_order() {
    for (name, old) in [((0, 0), (2, 3)), ((0, 0), (0, 0)), ((0, 9), (3, 2)), ((TOP, TOP), (TOP, TOP))] {
        for new in [(2, 3), (9, 9), (TOP, 0)] {
            refused(&b()[..42], numbers(name, old, new), 1, 35);
            refused(&b()[..35], numbers(name, old, new), 7, 27);
            refused(&[], numbers(name, old, new), 1, 0);
        }
    }
    for name in [(0, 2), (1, 0), (256, 0), (0, 256), (1 << 32, 0), (0, 1 << 32), (TOP, 0), (0, TOP)] {
        for (old, new) in [((2, 3), (2, 3)), ((3, 2), (2, 3)), ((2, 3), (9, 9)), ((0, 0), (0, 0))] {
            refused(&b(), numbers(name, old, new), 5, 0);
        }
    }
    for old in EDGES {
        for new in [(2, 3), (9, 9), (3, 2), old] {
            refused(&b(), numbers((0, 0), old, new), 4, 0);
        }
    }
    for new in
        [(2, 4), (1, 3), (3, 2), (65_538, 65_539), (2, 65_539), (65_538, 3), (2, (1 << 32) + 3), (0, 0), (TOP, TOP)]
    {
        refused(&b(), numbers((0, 0), (1, 1), new), 18, 0);
    }
    // of the halt
    for (old, new, refusal) in
        [((0, 1), (0, 0), 4), ((1, 1), (9, 9), 4), ((65_536, 0), (0, 0), 4), ((0, 0), (0, 1), 18)]
    {
        refused(&b(), numbers((0, 1), old, new), refusal, 0);
    }
    refused(&b(), numbers((0, 1), (0, 0), (65_536, 65_536)), 18, 0);
}

/// "also when two name one statement": 2..3, then 4..5, then 6..7.
#[test]
fn one_statement_twice() {
    let twice = Making::of(&b()).changes(&[((0, 0), (4, 5)), ((0, 0), (6, 7))]);
    assert_eq!(twice.changes, [Change::of([0, 0, 2, 3, 4, 5]), Change::of([0, 0, 4, 5, 6, 7])]);
    assert_eq!(twice.sheet, b_with(30, &[0, 6, 0, 7]));
    refused(&twice.sheet, twice.changes[0], 18, 0);
    assert_eq!(back(&twice.sheet, twice.changes[1]), ((0, 0), b_with(30, &[0, 4, 0, 5])));
    assert_eq!(twice.clone().backs(&[1, 0]).sheet, b());
    assert_eq!(twice.clone().backs(&[0, 1, 0]).sheet, b());
    assert_eq!(twice.backs(&[0, 1]).sheet, b_with(30, &[0, 4, 0, 5]));
}

/// What someone else writes: times of the statement, its code, the label.
#[test]
fn written_since() {
    let changed = b_with(30, &[1, 2, 3, 4]);
    let did = Change::of([0, 0, 2, 3, 0x0102, 0x0304]);
    for at in 30..34 {
        let mut written = changed.clone();
        written[at] ^= 1;
        refused(&written, did, 18, 0);
    }
    let turned = |at: usize, byte: u8| {
        let mut written = changed.clone();
        written[at] = byte;
        written
    };
    // code 0 with times: 4 at the statement; the label's high above the limit: 4 at 0; no such tag: 2
    refused(&turned(34, 0), did, 4, 27);
    refused(&turned(18, 11), did, 4, 0);
    refused(&turned(35, 7), did, 2, 35);
    // the label stays as it was written
    assert_eq!(back(&turned(18, 9), did), ((0, 0), b_with(18, &[9])));
    // a halt that was the skip: old times 2..3 are 4 before the halt's times are looked at
    refused(&b_with(30, &[0, 0, 0, 0, 0]), did, 4, 0);
}

/// Sheets of 16,384 bytes and one more.
#[test]
fn long_sheets() {
    let shown = numbers((0, 23), (2, 2), (1, 1));
    let (told, after) = back(&longest(), shown);
    assert_eq!((told, after == longest(), reads(&after)), ((0, 0), false, Ok(())));
    assert_eq!(back(&after, numbers((0, 23), (1, 1), (2, 2))), ((0, 0), longest()));
    refused(&too_long(), shown, 9, 0);
}

/// A sheet with these times on statements of each code.
fn with_times(times: &[(u16, u16); 6]) -> Vec<u8> {
    let first = [assign(times[0], 0, &register(0)), lock(times[1], 0), unlock(times[2], 0)];
    let second = [jump(times[3], 0, &[33]), store(times[4], 0, 0), load(times[5], 0, 0)];
    sheet_of([9, 9, 0, 9], 1, &[(1, 2)], &[thread(&[(0, 1)], &first), thread(&[(2, 2)], &second)])
}

/// The sheet with the new times in place, taken back, is the one with the old times in place.
#[test]
fn as_if_made_so() {
    let all = [(1, 2), (2, 2), (3, 4), (1, 1), (2, 5), (65_535, 65_535)];
    for (at, name) in [(0, 0), (0, 1), (0, 2), (1, 0), (1, 1), (1, 2)].into_iter().enumerate() {
        for old in [(1, 1), (256, 257), (0x1234, 0xABCD), (65_535, 65_535)] {
            let mut before = all;
            before[at] = old;
            let wide = |(least, greatest): (u16, u16)| -> Times { (least.into(), greatest.into()) };
            let did = numbers(name, wide(old), wide(all[at]));
            assert_eq!(back(&with_times(&all), did), ((0, 0), with_times(&before)));
        }
    }
}

/// On random sheets: "taking back restores the sheet to the very bytes before", "Several changes with nothing
/// else written between, taken back last first, restore the first sheet"
#[test]
fn random_sheets() {
    let mut generator = Generator::new(5);
    let mut lists = 0;
    while lists < 3000 {
        let sheet = generator.entry().sheet;
        let named = named(&sheet);
        if reads(&sheet).is_err() || sheet.len() > 400 {
            continue;
        }
        let mut chain = Making::of(&sheet);
        for _ in 0..1 + generator.random.below(6) {
            let (thread, statement, place) = generator.random.pick(&named);
            let halts = own_times(&sheet, place) == (0, 0);
            let times = if halts { (0, 0) } else { generator.random.pick(&GOOD) };
            let mut after = chain.sheet.clone();
            let did = change(&mut after, asked(thread, statement, times)).unwrap();
            assert_eq!(did, numbers((thread, statement), own_times(&chain.sheet, place), times));
            assert_eq!(own_times(&after, place), times);
            assert_eq!(back(&after, did), ((0, 0), chain.sheet.clone()));
            chain = chain.change((thread, statement), times);
        }
        let count = chain.changes.len();
        assert_eq!(chain.backs(&backwards(count)).sheet, sheet);
        lists += 1;
    }
}

/// In a corpus: what is refused leaves every byte, what is not writes at most the four of the statement that
/// is named. No two entries are the same, and what is written of them is read again.
#[test]
fn steps_of_the_corpus() {
    let cases = chain_cases::all(2, 800);
    for case in &cases {
        let mut sheet = case.sheet.clone();
        for step in &case.steps {
            let before = sheet.clone();
            let stated = made(&mut sheet, step);
            let name = match step {
                Step::Change(asked) => (asked.thread, asked.statement),
                Step::Back(change) => (change.thread, change.statement),
                Step::Written(at, bytes) => {
                    assert_eq!((stated.at, &stated.otherwise), (*at, bytes));
                    assert!((1..=4).contains(&bytes.len()));
                    continue;
                }
            };
            assert!(stated.refusal == 0 || (sheet == before && stated.change == [0; 6]));
            if let Some(&(_, _, place)) = named(&before).iter().find(|named| (named.0, named.1) == name) {
                assert!(stated.otherwise.is_empty() || stated.at >= place + 3);
                assert!(stated.at + stated.otherwise.len() <= place + 7);
            }
        }
    }
    let bytes = corpus_of(cases);
    let read: Vec<Chain> = entries::read(&bytes).unwrap();
    let all: BTreeSet<Vec<u8>> = read.iter().map(Chain::bytes).collect();
    assert_eq!(all.len(), read.len());
    assert_eq!(entries::corpus(read.iter().map(Chain::bytes).collect()), bytes);
    let steps = |chain: &Chain| chain.bytes().len() == 9 + chain.case.sheet.len() + STEP * chain.case.steps.len();
    assert!(read.iter().all(|chain| chain.is_answered() && steps(chain)));
}
