//! The mend against another way to it: read the sheet, and where the reader refuses crossed ends or a thread
//! without a halt, make that one change and read again, until nothing is refused or no change helps.

use crate::generator::Generator;
use crate::mend_answer::{answered, Answered, Case, MAX_SHEET};
use crate::mend_cases;
use crate::mend_garbled::{crossable, exchange, HALT_LENGTH};
use crate::oracle::fields_refused;
use crate::sheet_parts::halt;

const OFF_RANGE: u8 = 4;
const NO_HALT: u8 = 7;

/// A sheet on its way: its bytes now, and the changes so far by their places in it.
struct Way {
    sheet: Vec<u8>,
    halts: Vec<usize>,
    list: Vec<usize>,
}

impl Way {
    /// The place in the original: a halt that was added counts as the field before it.
    fn original(&self, place: usize) -> usize {
        let before = self.halts.iter().filter(|&&halt| halt <= place).count();
        match self.halts.contains(&place) {
            true => self.list[self.list.len() - 1],
            false => place - HALT_LENGTH * before,
        }
    }

    /// The ends of the field change places; false if they were exchanged before or do not differ.
    fn exchanged(&mut self, place: usize) -> bool {
        let change = [1, self.original(place)];
        let new = crossable(&self.sheet).contains(&place) && !self.list.chunks(2).any(|other| other == change);
        if new {
            exchange(&mut self.sheet, place);
            self.list.extend(change);
        }
        new
    }

    fn with_halt(&mut self, place: usize) {
        self.list.extend([2, self.original(place)]);
        let behind = place + 3 + usize::from(u16::from_be_bytes([self.sheet[place + 1], self.sheet[place + 2]]));
        self.sheet.splice(behind..behind, halt());
        self.halts.push(behind);
    }
}

/// Whether an exchange heals: the field at this place is no longer refused with 4.
fn heals(sheet: &[u8], place: usize) -> bool {
    let mut other = sheet.to_vec();
    exchange(&mut other, place);
    fields_refused(&other) != Some((OFF_RANGE, place))
}

/// The reader's number and place with the changes made, and the way there.
fn made(sheet: &[u8]) -> (Option<(u8, usize)>, Way) {
    let mut way = Way { sheet: sheet.to_vec(), halts: vec![], list: vec![] };
    loop {
        match fields_refused(&way.sheet) {
            Some((OFF_RANGE, place)) if heals(&way.sheet, place) && way.exchanged(place) => {}
            Some((NO_HALT, place)) => way.with_halt(place),
            Some((number, place)) => return (Some((number, way.original(place))), way),
            None => return (None, way),
        }
    }
}

fn as_made(case: &Case) {
    let Answered { refusal, place, written, listed, sheet, list } = answered(case);
    if case.sheet.len() > MAX_SHEET {
        assert_eq!((refusal, place), (9, 0));
        return;
    }
    let (told, way) = made(&case.sheet);
    if let Some(told) = told {
        assert_eq!((refusal, place), told);
        return;
    }
    let short = way.sheet.len() > case.room || way.list.len() > case.numbers;
    match (way.sheet.len() > MAX_SHEET, short) {
        (true, _) => assert_eq!((refusal, place), (9, 0)),
        (false, true) => assert_eq!((refusal, place), (19, 0)),
        (false, false) => {
            assert_eq!((refusal, place), (0, 0));
            assert_eq!((&sheet[..written], &list[..listed]), (&way.sheet[..], &way.list[..]));
        }
    }
}

#[test]
fn as_the_reader_asks() {
    mend_cases::all(4, 600).iter().for_each(as_made);
    let mut generator = Generator::new(6);
    for _ in 0..20_000 {
        let sheet = generator.entry().sheet;
        if sheet.len() < 2000 {
            let sheet = generator.random.garbled_and_damaged(&sheet);
            as_made(&Case { sheet, room: MAX_SHEET, numbers: 600 });
        }
    }
}
