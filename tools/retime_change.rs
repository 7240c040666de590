//! New times for one statement of a sheet (02, ticket 7): the change with what it did (02, ticket 8), and
//! the preview of what the changed sheet gives. Written from the papers over oracle.rs, which reads and
//! searches sheets; sentences in quotation marks are those of the papers.

use crate::field::{Fault, HEADER};
use crate::generator::fields;
use crate::oracle::{check, Answer};
use crate::sheet_reads::reads;

pub const OFF_RANGE: u8 = 4;
pub const NO_SUCH_NAME: u8 = 5;
pub const COPY_SHORT: u8 = 19;

/// "4 | number of registers, 0..8; opens a thread"
const THREAD_TAG: u8 = 4;
/// "6 | a statement: least and greatest time (2 bytes each), code, operands"
const STATEMENT_TAG: u8 = 6;
pub const CODE: usize = HEADER + 4;
pub const HALT: u8 = 0;
const MOST: u64 = 65_535;

/// "A fitter wants to set new times on one statement, named by thread and statement number from 0"
#[derive(Clone, Copy, PartialEq, Eq, PartialOrd, Ord, Debug)]
pub struct Asked {
    pub thread: u64,
    pub statement: u64,
    pub least: u64,
    pub greatest: u64,
}

/// "The change of ticket 7 now also returns the old and new times with thread and statement number"
#[derive(Clone, Copy, PartialEq, Eq, PartialOrd, Ord, Default, Debug)]
pub struct Change {
    pub thread: u64,
    pub statement: u64,
    pub old_least: u64,
    pub old_greatest: u64,
    pub new_least: u64,
    pub new_greatest: u64,
}

impl Change {
    /// Thread, statement, old least and greatest, new least and greatest.
    pub fn of([thread, statement, old_least, old_greatest, new_least, new_greatest]: [u64; 6]) -> Change {
        Change { thread, statement, old_least, old_greatest, new_least, new_greatest }
    }

    pub fn numbers(self) -> [u64; 6] {
        let Change { thread, statement, old_least, old_greatest, new_least, new_greatest } = self;
        [thread, statement, old_least, old_greatest, new_least, new_greatest]
    }
}

/// The places of the statements, thread by thread, as far as the fields go.
pub fn statements(sheet: &[u8]) -> Vec<Vec<usize>> {
    let mut threads: Vec<Vec<usize>> = Vec::new();
    for place in fields(sheet) {
        match (sheet[place], threads.last_mut()) {
            (THREAD_TAG, _) => threads.push(Vec::new()),
            (STATEMENT_TAG, Some(thread)) => thread.push(place),
            _ => {}
        }
    }
    threads
}

/// The place of the statement that is named, if there is such a statement.
pub fn place_of(sheet: &[u8], asked: Asked) -> Option<usize> {
    let threads = statements(sheet);
    let thread = threads.get(usize::try_from(asked.thread).ok()?)?;
    thread.get(usize::try_from(asked.statement).ok()?).copied()
}

/// "Halt has times 0 and 0; all others have least at least 1, greatest at most 65,535", "every low at
/// most its high"
pub fn may_have(code: u8, asked: Asked) -> bool {
    let Asked { least, greatest, .. } = asked;
    if code == HALT {
        return least == 0 && greatest == 0;
    }
    1 <= least && least <= greatest && greatest <= MOST
}

/// The code of the statement at this place, if the sheet goes so far.
pub fn code_at(sheet: &[u8], place: usize) -> Option<u8> {
    sheet.get(place + CODE).copied()
}

/// Where the statement's four time bytes stand. "Refused: the sheet's own number from 1 to 9, then 19 for
/// a short copy buffer (preview only), then 5 for no such statement, then 4 for times that
/// statement may not have, these three with place 0 and steps 0"
fn times_at(sheet: &[u8], copy: Option<usize>, asked: Asked) -> Result<usize, Fault> {
    let refuse = |refusal| Err(Fault { refusal, place: 0 });
    reads(sheet)?;
    if copy.is_some_and(|copy| copy < sheet.len()) {
        return refuse(COPY_SHORT);
    }
    let Some(place) = place_of(sheet, asked) else {
        return refuse(NO_SUCH_NAME);
    };
    if !code_at(sheet, place).is_some_and(|code| may_have(code, asked)) {
        return refuse(OFF_RANGE);
    }
    Ok(place + HEADER)
}

/// "The change writes the four time bytes in the sheet and no other byte." The high byte comes first.
pub fn write_times(sheet: &mut [u8], at: usize, asked: Asked) {
    sheet[at..at + 2].copy_from_slice(&(asked.least as u16).to_be_bytes());
    sheet[at + 2..at + 4].copy_from_slice(&(asked.greatest as u16).to_be_bytes());
}

/// The times that stand here, least and greatest.
pub fn times_shown(sheet: &[u8], at: usize) -> (u64, u64) {
    let time = |at: usize| u64::from(u16::from_be_bytes([sheet[at], sheet[at + 1]]));
    (time(at), time(at + 2))
}

pub fn change(sheet: &mut [u8], asked: Asked) -> Result<Change, Fault> {
    let at = times_at(sheet, None, asked)?;
    let (old_least, old_greatest) = times_shown(sheet, at);
    write_times(sheet, at, asked);
    let Asked { thread, statement, least: new_least, greatest: new_greatest } = asked;
    Ok(Change { thread, statement, old_least, old_greatest, new_least, new_greatest })
}

/// Refusal and place, 0 and 0 where the change is made, and what it did, "zeros if refused".
pub fn change_told(sheet: &mut [u8], asked: Asked) -> (Fault, Change) {
    match change(sheet, asked) {
        Ok(made) => (Fault { refusal: 0, place: 0 }, made),
        Err(fault) => (fault, Change::default()),
    }
}

/// "The preview answers exactly as changing a copy in one more lent buffer and running the search would".
/// The copy buffer has `copy` bytes, the work buffer `work` numbers.
pub fn preview(sheet: &[u8], copy: usize, work: usize, asked: Asked) -> Answer {
    match times_at(sheet, Some(copy), asked) {
        Ok(at) => {
            let mut changed = sheet.to_vec();
            write_times(&mut changed, at, asked);
            check(&changed, work)
        }
        Err(Fault { refusal, place }) => Answer { refusal, place, steps: 0, low: 0, high: 0 },
    }
}
