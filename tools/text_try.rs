//! Random texts through another converter. It lends 16,384 bytes.

use crate::entries::hex;
use crate::generator::Generator;
use crate::program_try::{self, escaped, Written};
use crate::text_answer::{answered, Answered, Case, MAX_SHEET};
use crate::text_random::text;

/// Sheets of more bytes are not taken.
const MOST_BYTES: usize = 3000;

fn due(text: &[u8]) -> Written {
    let Answered { refusal, place, written, sheet } = answered(&Case { text: text.to_vec(), room: MAX_SHEET });
    program_try::due(refusal, place, &sheet[..written])
}

/// Every second text is changed in one place.
pub fn try_program(program: &str, seed: u64, count: usize) {
    let mut generator = Generator::new(seed);
    let texts = (0..count).map(|nth| {
        let text = text(&mut generator, MOST_BYTES);
        match nth % 2 {
            1 => generator.random.damaged(text),
            _ => text,
        }
    });
    program_try::compare(program, "texts", texts, due, [escaped, hex]);
}
