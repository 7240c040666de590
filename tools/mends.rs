//! Mends what the card writer garbles (02, ticket 13): ends that are exchanged, and closing halts that are
//! dropped. Makes and reads a corpus of mended sheets. Written from the papers, it shares no code with the
//! library it is compared with.
//!
//!     rustc --edition 2021 -O -o mends mends.rs     (rustc --edition 2021 --test for the tests)
//!
//!     mends make SEED COUNT > FILE      a corpus: the cases chosen by hand, then COUNT random ones
//!     mends plant FILE > FILE           the same, with planted entries among them
//!     mends histogram FILE              entries by refusal, by what is garbled and by the number of changes,
//!                                       pairs of faults in one entry, sizes
//!     mends list FILE                   each entry as text
//!     mends corpus FILE                 the entries that are answered otherwise
//!     mends mend SHEET [ROOM NUMBERS]   mends a file with ROOM bytes (16384) for the mended sheet and NUMBERS
//!                                       numbers (1024) for the changes: `refusal place written listed`, then
//!                                       a line `kind offset` for each change, on standard error; the
//!                                       mended bytes on standard output
//!
//! mend_sheet.rs has the mend, mend_answer.rs what is refused and what the two buffers hold; mend_corpus.rs
//! describes the corpus, mend_cases.rs has the cases, mend_plant.rs what is planted. The other modules serve
//! other programs too: oracle.rs reads sheets, generator.rs serves for random ones.

mod command_line;
#[allow(dead_code)]
mod entries;
mod fault_pairs;
#[allow(dead_code)]
mod field;
#[allow(dead_code)]
mod generator;
mod mend_answer;
mod mend_cases;
mod mend_corpus;
mod mend_damage;
mod mend_ends;
mod mend_garbled;
mod mend_halts;
mod mend_histogram;
mod mend_long;
mod mend_plant;
mod mend_random;
#[cfg(test)]
mod mend_reader_tests;
mod mend_rooms;
mod mend_sheet;
#[cfg(test)]
mod mend_tests;
#[allow(dead_code)]
mod oracle;
#[allow(dead_code)]
mod retime_sheets;
mod sheet_damage;
#[allow(dead_code)]
mod sheet_parts;

use command_line::{contents, fail, parsed, write};
use mend_answer::{answered, Answered, Case};
use mend_corpus::Mend;
use std::env;

const NAME: &str = "mends";
/// Bytes and numbers that are lent, unless others are given.
const ROOM: usize = 16_384;
const NUMBERS: usize = 1024;

fn read(file: &str) -> Vec<Mend> {
    entries::read(&contents(file)).unwrap_or_else(|| fail(&format!("{file}: not a corpus of mends")))
}

fn mend_file(file: &str, room: usize, numbers: usize) {
    let Answered { refusal, place, written, listed, sheet, list } =
        answered(&Case { sheet: contents(file), room, numbers });
    eprintln!("{refusal} {place} {written} {listed}");
    for change in list[..listed].chunks(2) {
        eprintln!("{} {}", change[0], change[1]);
    }
    write(&sheet[..written]);
}

fn main() {
    let arguments: Vec<String> = env::args().skip(1).collect();
    let arguments: Vec<&str> = arguments.iter().map(String::as_str).collect();
    match arguments[..] {
        ["make", seed, count] => write(&mend_corpus::corpus_of(mend_cases::all(parsed(seed), parsed(count)))),
        ["plant", file] => {
            write(&mend_plant::planted(&read(file)).unwrap_or_else(|| fail("too few entries to plant among")));
        }
        ["histogram", file] => mend_histogram::histogram(&read(file)),
        ["list", file] => mend_corpus::list(&read(file)),
        ["corpus", file] => entries::compare(&read(file)),
        ["mend", sheet] => mend_file(sheet, ROOM, NUMBERS),
        ["mend", sheet, room, numbers] => mend_file(sheet, parsed(room), parsed(numbers)),
        _ => fail("usage: mends make SEED COUNT | plant, histogram, list or corpus FILE | mend SHEET [ROOM NUMBERS]"),
    }
}
