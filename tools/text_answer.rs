//! What a conversion of a text gives, with what is refused, and what the lent buffer holds behind it (02, ticket 2).
//! Written from the papers over oracle.rs, which reads sheets; sentences in quotation marks are those of the papers.

use crate::field::{field, OUT_OF_TURN};
use crate::oracle::fields_refused;
use crate::text_lines::{lines, Line, FIRST_TAG, REGISTER_TAG, THREAD_TAG};
use crate::text_words::Unreadable;
use std::ops::RangeInclusive;

const OFF_RANGE: u8 = 4;
const TOO_LONG: u8 = 9;
const OUTPUT_FULL: u8 = 19;
const UNREADABLE: u8 = 20;
pub const MAX_SHEET: usize = 16_384;
/// A tag that is never due.
const UNDUE: u8 = 0;

const LIMITS: RangeInclusive<u32> = 1..=1_000_000;
const BUDGETS: RangeInclusive<u32> = 1..=10_000_000;

/// A text, and the bytes lent for the sheet.
#[derive(Clone, PartialEq, Eq, PartialOrd, Ord, Debug)]
pub struct Case {
    pub text: Vec<u8>,
    pub room: usize,
}

/// "It returns number, place and length written"; and all of the buffer.
#[derive(Clone, PartialEq, Eq, Debug)]
pub struct Answered {
    pub refusal: u8,
    pub place: usize,
    pub written: usize,
    pub sheet: Vec<u8>,
}

/// The sheet of some lines, and where in it the field of each line stands.
pub struct Made {
    pub sheet: Vec<u8>,
    places: Vec<usize>,
}

/// "a number too big for its field is 4, first in its line": in that field's place one is put that is never due, so
/// that the reader stops there before it looks at anything else of it.
fn put(sheet: &mut Vec<u8>, tag: u8, body: &[u8], too_big: bool) -> usize {
    let place = sheet.len();
    sheet.extend(field(if too_big { UNDUE } else { tag }, body));
    place
}

/// The registers of the thread that the first of these lines opens, as its field has them; as many as a byte holds at
/// most.
fn registers(lines: &[Line]) -> u8 {
    let count = lines[1..].iter().take_while(|line| line.tag == REGISTER_TAG).count();
    count.min(255) as u8
}

/// The sheet of these lines, of which the first three make one field.
pub fn made(lines: &[Line]) -> Made {
    let mut sheet = Vec::new();
    let (first, rest) = lines.split_at(3);
    let body = first.iter().flat_map(|line| line.body.clone()).collect::<Vec<u8>>();
    let place = put(&mut sheet, FIRST_TAG, &body, first.iter().any(|line| line.too_big));
    let mut places = vec![place; 3];
    for (nth, line) in rest.iter().enumerate() {
        let place = match line.tag {
            THREAD_TAG => put(&mut sheet, THREAD_TAG, &[registers(&rest[nth..])], false),
            tag => put(&mut sheet, tag, &line.body, line.too_big),
        };
        places.push(place);
    }
    Made { sheet, places }
}

/// Which of limit, budget and label is at fault if their field is, "the earlier if two".
fn at_fault(first: &[Line]) -> usize {
    let is_off = |line: &Line, range: &RangeInclusive<u32>| {
        let number = line.body.iter().fold(0, |number, &byte| number << 8 | u32::from(byte));
        line.too_big || !range.contains(&number)
    };
    [LIMITS, BUDGETS].iter().zip(first).position(|(range, line)| is_off(line, range)).unwrap_or(2)
}

/// "the number 01 gives the sheet it would make, at the start of the line at fault"
fn refused(lines: &[Line], made: &Made) -> Option<(u8, usize)> {
    let (number, place) = fields_refused(&made.sheet)?;
    let line = match place {
        0 => at_fault(lines),
        _ => made.places.iter().position(|&at| at == place).expect("a field stands at the reader's place"),
    };
    Some((if number == OUT_OF_TURN { OFF_RANGE } else { number }, lines[line].start))
}

/// The sheet, or number and place of what is refused.
fn converted(case: &Case) -> Result<Vec<u8>, (u8, usize)> {
    // "20 unreadable text or a line out of turn or missing"
    let lines = lines(&case.text).map_err(|Unreadable(place)| (UNREADABLE, place))?;
    let made = made(&lines);
    // "9 is first, place 0"
    if made.sheet.len() > MAX_SHEET {
        return Err((TOO_LONG, 0));
    }
    if let Some(told) = refused(&lines, &made) {
        return Err(told);
    }
    // "then 19 output full, place 0"
    if made.sheet.len() > case.room {
        return Err((OUTPUT_FULL, 0));
    }
    Ok(made.sheet)
}

/// "The converter writes a sheet into a lent buffer, the rest zero, or zeroes that buffer"
pub fn answered(case: &Case) -> Answered {
    let (told, mut sheet) = match converted(case) {
        Ok(sheet) => ((0, 0), sheet),
        Err(told) => (told, Vec::new()),
    };
    let written = sheet.len();
    sheet.resize(case.room, 0);
    Answered { refusal: told.0, place: told.1, written, sheet }
}
