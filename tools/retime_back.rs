//! A change of times taken back (02, ticket 8). Written from the papers over retime_change.rs, which says
//! which statement is named, which times it may have and how they are written; sentences in quotation
//! marks are those of the papers.

use crate::field::{Fault, HEADER};
use crate::retime_change::*;
use crate::sheet_reads::reads;

pub const CHANGED_SINCE: u8 = 18;

/// The statement of a change and its old times.
pub fn old_of(change: Change) -> Asked {
    let Change { thread, statement, old_least, old_greatest, .. } = change;
    Asked { thread, statement, least: old_least, greatest: old_greatest }
}

/// Whether the statement at this place shows the new times of a change. They are only compared: new times
/// that it may not have are times that it does not show.
pub fn shows_new(sheet: &[u8], place: usize, change: Change) -> bool {
    let (least, greatest) = times_shown(sheet, place + HEADER);
    least == change.new_least && greatest == change.new_greatest
}

/// "Refused: the sheet's own number, then 5 for no such statement, then 4 for old times it may not have,
/// then 18 changed since, these with place 0." Otherwise the four time bytes are written and no other.
pub fn take_back(sheet: &mut [u8], change: Change) -> Result<(), Fault> {
    let refused = |refusal| Err(Fault { refusal, place: 0 });
    let old = old_of(change);
    reads(sheet)?;
    let Some(place) = place_of(sheet, old) else {
        return refused(NO_SUCH_NAME);
    };
    if !code_at(sheet, place).is_some_and(|code| may_have(code, old)) {
        return refused(OFF_RANGE);
    }
    if !shows_new(sheet, place, change) {
        return refused(CHANGED_SINCE);
    }
    write_times(sheet, place + HEADER, old);
    Ok(())
}
