//! Random sheets through another printer. It lends as many bytes as any text needs.

use crate::entries::hex;
use crate::field::Fault;
use crate::generator::{Generator, Random};
use crate::print_answer::{answered, Answered, Case};
use crate::program_try::{self, escaped, Written};
use crate::ROOM;

fn due(sheet: &[u8]) -> Written {
    let Answered { told: Fault { refusal, place }, written, text } =
        answered(&Case { sheet: sheet.to_vec(), room: ROOM });
    program_try::due(refusal, place, &text[..written])
}

/// Some of the sheets are damaged.
pub fn try_program(program: &str, seed: u64, count: usize) {
    let mut generator = Generator::new(seed);
    let sheets = (0..count).map(|_| Random::printable(&mut generator));
    program_try::compare(program, "sheets", sheets, due, [hex, escaped]);
}
