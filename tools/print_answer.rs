//! What printing a sheet gives, with what is refused, and what the lent buffer holds behind it (02, ticket 4). Written
//! from the papers over oracle.rs, which reads sheets; sentences in quotation marks are those of the papers.

use crate::field::Fault;
use crate::print_lines::printed;
use crate::sheet_reads::reads;

const OUTPUT_FULL: u8 = 19;

/// A sheet, and the bytes lent for its text.
#[derive(Clone, PartialEq, Eq, PartialOrd, Ord, Debug)]
pub struct Case {
    pub sheet: Vec<u8>,
    pub room: usize,
}

/// "number, place and length written"; and all of the buffer.
#[derive(Clone, PartialEq, Eq, Debug)]
pub struct Answered {
    /// 0 and 0 if it is not refused.
    pub told: Fault,
    pub written: usize,
    pub text: Vec<u8>,
}

/// The text, or number and place of what is refused.
fn text_of(case: &Case) -> Result<Vec<u8>, Fault> {
    // "Refused: the sheet's own number from 1 to 9"
    reads(&case.sheet)?;
    let text = printed(&case.sheet);
    // "then 19 when the text does not fit, place 0"
    if text.len() > case.room {
        return Err(Fault { refusal: OUTPUT_FULL, place: 0 });
    }
    Ok(text)
}

/// "the output zeroed on either, and past the text on success"
pub fn answered(case: &Case) -> Answered {
    let (told, mut text) = match text_of(case) {
        Ok(text) => (Fault { refusal: 0, place: 0 }, text),
        Err(told) => (told, Vec::new()),
    };
    let written = text.len();
    text.resize(case.room, 0);
    Answered { told, written, text }
}

/// The length of the sheet's text; 0 if it does not read.
pub fn needed(sheet: &[u8]) -> usize {
    text_of(&Case { sheet: sheet.to_vec(), room: usize::MAX }).map_or(0, |text| text.len())
}
