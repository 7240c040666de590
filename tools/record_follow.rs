//! Follows a record of a job through a sheet (02, ticket 9). Written from the papers, it shares no
//! code with the library it is compared with; sentences in quotation marks are those of the papers.

use crate::field::{body, Fault, HEADER};
use crate::record_rule::State;
use crate::record_sheet::{read, signed, Sheet};
use crate::sheet_parts::Range;

pub const OFF_RANGE: u8 = 4;
pub const NO_SUCH_NAME: u8 = 5;
pub const TOO_LONG: u8 = 9;
pub const NO_READING: u8 = 10;
pub const OFF_THE_SCALE: u8 = 16;
pub const NOT_A_RUN: u8 = 21;

pub const SHEET: u8 = 0;
pub const RECORD: u8 = 1;

/// "Starting values are tag 32, length 4, in sheet order."
pub const START_TAG: u8 = 32;
pub const START_LENGTH: usize = 4;
/// "one field for each event (tag 33, length 3: thread, clock)"
pub const EVENT_TAG: u8 = 33;
pub const EVENT_LENGTH: usize = 3;
/// "9, place 0, for a record over 65,536 bytes"
pub const LONGEST: usize = 65_536;

/// File 0 is the sheet, 1 the record; where nothing is refused it is 0, and so is the place.
#[derive(Clone, Copy, PartialEq, Eq, Debug)]
pub struct Followed {
    pub refusal: u8,
    pub file: u8,
    pub place: usize,
    pub finished: bool,
    pub tick: u64,
}

impl Followed {
    pub fn numbers(&self) -> [usize; 5] {
        [self.refusal.into(), self.file.into(), self.place, self.finished.into(), self.tick as usize]
    }
}

/// "starting values of variables and of each thread's registers", "in sheet order"
pub fn ranges(sheet: &Sheet) -> Vec<Range> {
    let registers = sheet.threads.iter().flat_map(|thread| &thread.registers);
    sheet.variables.iter().chain(registers).copied().collect()
}

/// The starting values, and the place behind them.
fn starting(sheet: &Sheet, record: &[u8]) -> Result<(Vec<i32>, usize), Fault> {
    let mut values = Vec::new();
    let mut place = 0;
    for (low, high) in ranges(sheet) {
        let value = signed(&record[body(record, place, START_TAG, Some(START_LENGTH))?]);
        if value < low || high < value {
            return Err(Fault { refusal: OFF_RANGE, place });
        }
        values.push(value);
        place += HEADER + START_LENGTH;
    }
    Ok((values, place))
}

/// Whether the run is finished, and the last tick.
fn replay(sheet: &Sheet, record: &[u8]) -> Result<(bool, u64), Fault> {
    if record.len() > LONGEST {
        return Err(Fault { refusal: TOO_LONG, place: 0 });
    }
    let (values, mut place) = starting(sheet, record)?;
    let mut state = State::new(sheet, &values);
    let mut tick = 0;
    while place < record.len() {
        let refuse = |refusal| Fault { refusal, place };
        let body = &record[body(record, place, EVENT_TAG, Some(EVENT_LENGTH))?];
        let (thread, clock) = (usize::from(body[0]), u16::from_be_bytes([body[1], body[2]]));
        if thread >= sheet.threads.len() {
            return Err(refuse(NO_SUCH_NAME));
        }
        // "the recorder's clock has sixteen bits and starts over at zero"
        tick += u64::from(clock.wrapping_sub(tick as u16));
        if !state.may_end(sheet, thread, tick) {
            return Err(refuse(NOT_A_RUN));
        }
        state.end(sheet, thread, tick).map_err(refuse)?;
        place += HEADER + EVENT_LENGTH;
    }
    Ok((state.finished(sheet), tick))
}

pub fn follow(sheet: &[u8], record: &[u8]) -> Followed {
    let answer = |Fault { refusal, place }, file, finished, tick| Followed { refusal, file, place, finished, tick };
    match read(sheet).map(|sheet| replay(&sheet, record)) {
        Err(fault) => answer(fault, SHEET, false, 0),
        Ok(Err(fault)) => answer(fault, RECORD, false, 0),
        Ok(Ok((finished, tick))) => answer(Fault { refusal: 0, place: 0 }, SHEET, finished, tick),
    }
}
