//! Tests of the mend: sheets counted by hand, and what holds of random ones.

use crate::entries::{self, Entry};
use crate::generator::Generator;
use crate::mend_answer::{answered, Answered, Case, MAX_SHEET};
use crate::mend_cases;
use crate::mend_corpus::{corpus_of, Mend};
use crate::mend_garbled::*;
use crate::mend_long::of_length;
use crate::oracle::{check, fields_refused};
use crate::retime_sheets::{b, of_the_paper};
use crate::sheet_parts::{sheet_of, skip};
use std::collections::BTreeSet;

const LARGE: usize = 20_000;
const NUMBERS: usize = 300;

/// With buffers that are long enough.
fn mend(sheet: &[u8]) -> Answered {
    lent(sheet, LARGE, NUMBERS)
}

fn lent(sheet: &[u8], room: usize, numbers: usize) -> Answered {
    answered(&Case { sheet: sheet.to_vec(), room, numbers })
}

/// It is refused so, and both outputs are all zeros.
fn refused(told: Answered, refusal: u8, place: usize) {
    assert_eq!((told.refusal, told.place, told.written, told.listed), (refusal, place, 0, 0));
    assert!(told.sheet.iter().all(|&byte| byte == 0) && told.list.iter().all(|&number| number == 0));
}

/// It is accepted with this list and these bytes; the rest of both outputs is zero.
fn mended(told: Answered, list: &[usize], sheet: &[u8]) {
    assert_eq!((told.refusal, told.place, told.written, told.listed), (0, 0, sheet.len(), list.len()));
    assert_eq!((&told.sheet[..sheet.len()], &told.list[..list.len()]), (sheet, list));
    assert!(told.sheet[sheet.len()..].iter().all(|&byte| byte == 0));
    assert!(told.list[list.len()..].iter().all(|&number| number == 0));
}

/// Limit 10, budget 100, label 0..10, no locks: 23 bytes, by hand.
fn hand() -> Vec<u8> {
    vec![1, 0, 16, 0, 0, 0, 10, 0, 0, 0, 100, 0, 0, 0, 0, 0, 0, 0, 10, 3, 0, 1, 0]
}

/// Statements by hand, of 8 and 9 bytes.
const SKIP: [u8; 8] = [6, 0, 5, 0, 1, 0, 1, 1];
const HALT: [u8; 8] = [6, 0, 5, 0, 0, 0, 0, 0];
const THREAD: [u8; 4] = [4, 0, 1, 0];

fn goto(target: u8) -> [u8; 10] {
    [6, 0, 7, 0, 1, 0, 1, 3, target, 32]
}

#[test]
fn ranges() {
    // 5..-6 at 23, then a good thread
    let rest = [&THREAD[..], &SKIP, &HALT].concat();
    let variable = |ends: [u8; 8]| [hand(), vec![2, 0, 8], ends.to_vec(), rest.clone()].concat();
    let (five, less_six) = ([0, 0, 0, 5], [255, 255, 255, 250]);
    let sheet = variable([five, less_six].concat().try_into().unwrap());
    mended(mend(&sheet), &[1, 23], &variable([less_six, five].concat().try_into().unwrap()));
    // a register -1..-2 at 27
    let register = |low: u8, high: u8| {
        let field = [5, 0, 8, 255, 255, 255, low, 255, 255, 255, high];
        [&hand()[..], &[4, 0, 1, 1], &field, &SKIP, &HALT].concat()
    };
    mended(mend(&register(255, 254)), &[1, 27], &register(254, 255));
    refused(lent(&register(255, 254), LARGE, 1), 19, 0);
    mended(lent(&register(255, 254), 54, 2), &[1, 27], &register(254, 255));
    refused(lent(&register(255, 254), 53, 2), 19, 0);
    // -2147483648..2147483647 is in order
    let widest = variable([128, 0, 0, 0, 127, 255, 255, 255]);
    mended(mend(&widest), &[], &widest);
    mended(mend(&variable([127, 255, 255, 255, 128, 0, 0, 0])), &[1, 23], &widest);
}

#[test]
fn label_and_times() {
    let with = |label: [u8; 2], times: [u8; 4]| {
        let mut sheet = [hand(), THREAD.to_vec(), SKIP.to_vec(), HALT.to_vec()].concat();
        (sheet[14], sheet[18]) = (label[0], label[1]);
        sheet[30..34].copy_from_slice(&times);
        sheet
    };
    mended(mend(&with([3, 2], [0, 2, 0, 1])), &[1, 0, 1, 27], &with([2, 3], [0, 1, 0, 2]));
    mended(mend(&with([3, 2], [128, 0, 0, 1])), &[1, 0, 1, 27], &with([2, 3], [0, 1, 128, 0]));
    mended(mend(&with([2, 3], [0, 1, 128, 0])), &[], &with([2, 3], [0, 1, 128, 0]));
    mended(mend(&with([2, 3], [1, 0, 0, 255])), &[1, 27], &with([2, 3], [0, 255, 1, 0]));
    // "An exchange that does not heal is 4"
    refused(mend(&with([11, 2], [0, 2, 0, 1])), 4, 0);
    refused(mend(&with([2, 3], [0, 2, 0, 0])), 4, 27);
    // a halt with times
    let mut sheet = with([2, 3], [0, 1, 0, 1]);
    sheet[39] = 1;
    refused(mend(&sheet), 4, 35);
}

#[test]
fn halts() {
    let skips = |count: usize| [hand(), THREAD.to_vec(), SKIP.repeat(count)].concat();
    // the 64th skip at 27 + 63 * 8; a halt would be the 65th
    refused(mend(&skips(64)), 8, 531);
    mended(mend(&skips(63)), &[2, 523], &[skips(63), HALT.to_vec()].concat());
    refused(mend(&skips(65)), 8, 539);
    let after = |target: u8, count: usize| [&hand()[..], &THREAD, &goto(target), &SKIP.repeat(count)].concat();
    refused(mend(&after(200, 63)), 8, 533);
    refused(mend(&after(200, 62)), 5, 27);
    mended(mend(&after(1, 0)), &[2, 27], &[after(1, 0), HALT.to_vec()].concat());
    refused(mend(&after(2, 0)), 5, 27);
    // the second thread at 35, its statement at 39, in the mended sheet 47
    refused(mend(&[&hand()[..], &THREAD, &SKIP, &THREAD, &goto(2)].concat()), 5, 39);
    // exchanged, and a halt behind it
    let crossed = [&hand()[..], &THREAD, &[6, 0, 5, 0, 2, 0, 1, 1]].concat();
    let healed = [&hand()[..], &THREAD, &[6, 0, 5, 0, 1, 0, 2, 1], &HALT].concat();
    mended(mend(&crossed), &[1, 27, 2, 27], &healed);
    // an absent field is at the original's end: 39, not 47
    refused(mend(&[&hand()[..], &THREAD, &SKIP, &THREAD].concat()), 1, 39);
    // B's first 35 bytes are B without its halt
    mended(mend(&b()[..35]), &[2, 27], &b());
}

/// The label, 8 variables, and in each of 4 threads 8 registers, 63 statements and a halt: 297 changes.
#[test]
fn most_changes() {
    let threads = vec![open(&[(1, 0); 8], &vec![skip((2, 1)); 63]); 4];
    let sheet = sheet_of([10, 100, 9, 1], 0, &[(1, 0); 8], &threads);
    let told = lent(&sheet, sheet.len() + 32, 594);
    assert_eq!((told.refusal, told.written, told.listed), (0, 2527, 594));
    // the first thread's last statement: 23 + 8 * 11, then 4 + 8 * 11, then 62 skips
    assert_eq!(told.list[2 * (9 + 70)..][..4], [1, 699, 2, 699]);
    refused(lent(&sheet, sheet.len() + 32, 593), 19, 0);
    refused(lent(&sheet, sheet.len() + 31, 594), 19, 0);
}

/// A thread closes on a whole header of tag 4 or where nothing remains.
#[test]
fn closings() {
    let with = |behind: &[u8]| [&hand()[..], &THREAD, &SKIP.repeat(64), behind].concat();
    // 64 statements end at 539: where the thread closes, the halt is the 65th
    for (behind, refusal, place) in [
        (&[][..], 8, 531),
        (&[4, 0, 1], 8, 531),
        (&[4, 255, 255], 8, 531),
        (&[4], 1, 539),
        (&[4, 0], 1, 539),
        (&[5, 0, 0], 2, 539),
        (&[6, 0, 5, 0], 8, 539),
        (&[9, 0, 0], 2, 539),
    ] {
        refused(mend(&with(behind)), refusal, place);
    }
    let one = |behind: &[u8]| [&hand()[..], &THREAD, &SKIP, behind].concat();
    refused(mend(&one(&[4, 0, 1])), 1, 35);
    refused(mend(&one(&[4, 0, 2, 0, 0])), 3, 35);
    refused(mend(&one(&[4, 0, 1, 9])), 4, 35);
}

/// 9 for the original first, then the reader's numbers, then 9 for the mended sheet, then 19.
#[test]
fn lengths() {
    let whole = of_length(MAX_SHEET - 8, &[]);
    assert_eq!(whole.len(), 16_376);
    let last = 16_368;
    mended(lent(&whole, MAX_SHEET, 2), &[2, last], &[whole.clone(), HALT.to_vec()].concat());
    refused(lent(&whole, MAX_SHEET - 1, 2), 19, 0);
    refused(mend(&of_length(MAX_SHEET - 7, &[])), 9, 0);
    refused(lent(&of_length(MAX_SHEET, &[]), 0, 0), 9, 0);
    refused(mend(&of_length(MAX_SHEET, &[4, 0, 2, 0, 0])), 3, MAX_SHEET - 5);
    refused(mend(&of_length(MAX_SHEET + 1, &[4, 0, 2, 0, 0])), 9, 0);
    refused(mend(&vec![0; MAX_SHEET]), 2, 0);
    refused(mend(&vec![0; MAX_SHEET + 1]), 9, 0);
}

/// The listed changes made on the original, the last first, so that the places before them stay.
fn applied(sheet: &[u8], list: &[usize]) -> Vec<u8> {
    let mut sheet = sheet.to_vec();
    for change in list.chunks(2).rev() {
        let place = change[1];
        match change[0] {
            1 => exchange(&mut sheet, place),
            _ => {
                let behind = place + 3 + usize::from(sheet[place + 1]) * 256 + usize::from(sheet[place + 2]);
                sheet.splice(behind..behind, HALT);
            }
        }
    }
    sheet
}

/// "A sheet that reads well is copied with no changes listed. The mended sheet reads well."
fn holds(sheet: &[u8]) -> bool {
    let told = mend(sheet);
    let read = check(sheet, 0);
    if told.refusal != 0 {
        assert!((1..=9).contains(&read.refusal), "what reads well is not refused");
        return false;
    }
    let (bytes, list) = (&told.sheet[..told.written], &told.list[..told.listed]);
    assert_eq!(fields_refused(bytes), None);
    assert_eq!(applied(sheet, list), bytes);
    assert_eq!(list.is_empty(), bytes == sheet);
    assert!(read.refusal <= 9 || list.is_empty());
    assert!(list.chunks(2).map(|change| (change[1], change[0])).is_sorted());
    mended(mend(bytes), &[], bytes);
    true
}

#[test]
fn random_sheets() {
    let mut generator = Generator::new(3);
    let (mut accepted, mut refused) = (0, 0);
    while accepted < 4000 || refused < 2000 {
        let sheet = generator.entry().sheet;
        let sheet = if sheet.len() < 2000 { generator.random.garbled_and_damaged(&sheet) } else { continue };
        *(if holds(&sheet) { &mut accepted } else { &mut refused }) += 1;
    }
    of_the_paper().iter().for_each(|sheet| assert!(holds(sheet)));
}

/// What the card writer garbles is mended: the very sheet is there again.
#[test]
fn garbled_sheets() {
    for sheet in [b(), mixed(), two()] {
        for garbled in every_subset(&sheet) {
            let told = mend(&garbled);
            assert_eq!((told.refusal, &told.sheet[..told.written]), (0, &sheet[..]));
        }
    }
}

/// No two entries of a corpus are the same, and what is written of them is read again.
#[test]
fn entries_of_the_corpus() {
    let cases = mend_cases::all(2, 300);
    assert!(cases.iter().all(|case| case.sheet.len() <= LARGE && case.room <= LARGE && case.numbers <= 2000));
    let bytes = corpus_of(cases);
    let read: Vec<Mend> = entries::read(&bytes).unwrap();
    let all: BTreeSet<Vec<u8>> = read.iter().map(Mend::bytes).collect();
    assert_eq!(all.len(), read.len());
    assert_eq!(entries::corpus(read.iter().map(Mend::bytes).collect()), bytes);
    assert!(read.iter().all(Mend::is_answered));
}
