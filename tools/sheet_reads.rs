//! Whether a sheet reads, by oracle.rs. A module of records.rs, retimes.rs, chains.rs and prints.rs.

use crate::field::Fault;
use crate::oracle::check;

/// The numbers of a sheet that does not read are 1 to 9.
const LAST_OF_SHEET: u8 = 9;

/// "the sheet's own number", with its place, if it does not read.
pub fn reads(sheet: &[u8]) -> Result<(), Fault> {
    // With a buffer of no length the oracle reads the sheet and takes no step.
    let read = check(sheet, 0);
    if read.refusal <= LAST_OF_SHEET {
        return Err(Fault { refusal: read.refusal, place: read.place });
    }
    Ok(())
}
