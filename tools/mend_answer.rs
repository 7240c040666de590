//! What a mend gives, with what is refused, and what the two lent buffers hold behind it (02, ticket 13).
//! Written from the papers over oracle.rs, which reads sheets; sentences in quotation marks are those of the
//! papers.

use crate::mend_sheet::mend;
use crate::oracle::fields_refused;

const TOO_LONG: u8 = 9;
const OUT_OF_SPACE: u8 = 19;
pub const MAX_SHEET: usize = 16_384;

/// A sheet, the bytes lent for the mended one and the numbers lent for the changes.
#[derive(Clone, PartialEq, Eq, PartialOrd, Ord, Debug)]
pub struct Case {
    pub sheet: Vec<u8>,
    pub room: usize,
    pub numbers: usize,
}

/// The four numbers, and all of both buffers.
#[derive(Clone, PartialEq, Eq, Debug)]
pub struct Answered {
    pub refusal: u8,
    pub place: usize,
    pub written: usize,
    pub listed: usize,
    pub sheet: Vec<u8>,
    pub list: Vec<usize>,
}

/// The mended sheet and the list of its changes, or number and place of what is refused.
fn mended(case: &Case) -> Result<(Vec<u8>, Vec<usize>), (u8, usize)> {
    // "9 tried on the original"
    if case.sheet.len() > MAX_SHEET {
        return Err((TOO_LONG, 0));
    }
    let mended = mend(&case.sheet);
    let (bytes, list) = (mended.bytes(), mended.changes.concat());
    // "the number and place the reader would give once those changes are made"
    if let Some((number, place)) = fields_refused(&bytes) {
        return Err((number, mended.place_in_original(place)));
    }
    // "then 9, place 0, where added halts make the sheet too long"
    if bytes.len() > MAX_SHEET {
        return Err((TOO_LONG, 0));
    }
    // "then 19 for either output, place 0"
    if bytes.len() > case.room || list.len() > case.numbers {
        return Err((OUT_OF_SPACE, 0));
    }
    Ok((bytes, list))
}

/// "The rest of both outputs is zero."; of what is refused, "both outputs zeroed".
pub fn answered(case: &Case) -> Answered {
    let (told, mut sheet, mut list) = match mended(case) {
        Ok((sheet, list)) => ((0, 0), sheet, list),
        Err(told) => (told, Vec::new(), Vec::new()),
    };
    let (written, listed) = (sheet.len(), list.len());
    sheet.resize(case.room, 0);
    list.resize(case.numbers, 0);
    Answered { refusal: told.0, place: told.1, written, listed, sheet, list }
}
