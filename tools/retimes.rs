//! Sets new times on one statement of a sheet, previews what the changed sheet gives (02, ticket 7), and
//! takes a change back (02, ticket 8); makes and reads a corpus of changes and previews. Written from the
//! papers, it shares no code with the library it is compared with.
//!
//!     rustc --edition 2021 -O -o retimes retimes.rs     (rustc --edition 2021 --test for the tests)
//!
//!     retimes change SHEET THREAD STATEMENT LEAST GREATEST [OUT]
//!                                         refusal and place, then thread, statement, old and new times;
//!                                         if nothing is refused the changed sheet goes to OUT
//!     retimes take-back SHEET THREAD STATEMENT OLD_LEAST OLD_GREATEST NEW_LEAST NEW_GREATEST [OUT]
//!                                         refusal and place of a change taken back, by its numbers
//!     retimes preview SHEET THREAD STATEMENT LEAST GREATEST [COPY WORK]
//!                                         the five numbers of the changed sheet, with a copy buffer of
//!                                         COPY bytes (16384) and a work buffer of WORK numbers (12000)
//!     retimes make SEED COUNT > FILE      a corpus: the cases chosen by hand, then COUNT random ones
//!     retimes plant FILE > FILE           the same, with planted entries among them
//!     retimes histogram FILE              entries by refusal, pairs of faults in one entry, sizes
//!     retimes list FILE                   each entry as text: what is asked, its numbers, the sheet
//!     retimes corpus FILE                 the entries that are answered otherwise
//!
//! retime_change.rs has the change and the preview, retime_back.rs the taking back (chains.rs makes its
//! corpus); retime_corpus.rs describes the corpus, retime_cases.rs has the cases; field.rs, sheet_parts.rs,
//! sheet_reads.rs, entries.rs and command_line.rs have what serves other programs too. oracle.rs reads and
//! searches sheets, generator.rs serves for random sheets.

mod command_line;
#[allow(dead_code)]
mod entries;
mod fault_pairs;
#[allow(dead_code)]
mod field;
#[allow(dead_code)]
mod generator;
#[allow(dead_code)]
mod oracle;
#[allow(dead_code)]
mod record_sheets;
mod retime_asked;
mod retime_back;
mod retime_cases;
mod retime_change;
mod retime_corpus;
mod retime_histogram;
mod retime_random;
mod retime_sheets;
#[cfg(test)]
mod retime_tests;
mod sheet_parts;
mod sheet_reads;

use command_line::{contents, fail, parsed, write};
use field::Fault;
use retime_back::take_back;
use retime_change::{change_told, preview, Asked, Change};
use retime_corpus::Retime;
use std::{env, fs};

const NAME: &str = "retimes";
/// Bytes of a copy buffer and numbers of a work buffer, unless others are given.
const COPY: usize = 16_384;
const WORK: usize = 12_000;

fn read(file: &str) -> Vec<Retime> {
    entries::read(&contents(file)).unwrap_or_else(|| fail(&format!("{file}: not a corpus of new times")))
}

fn asked(numbers: &[&str; 4]) -> Asked {
    let [thread, statement, least, greatest] = numbers.map(parsed);
    Asked { thread, statement, least, greatest }
}

/// Where nothing is refused the sheet goes to a file, if one is named.
fn write_sheet(refusal: u8, sheet: &[u8], out: Option<&str>) {
    if let Some(out) = out.filter(|_| refusal == 0) {
        fs::write(out, sheet).unwrap_or_else(|error| fail(&format!("{out}: {error}")));
    }
}

/// Prints refusal and place, and what the change did.
fn change_file(file: &str, numbers: &[&str; 4], out: Option<&str>) {
    let mut sheet = contents(file);
    let (Fault { refusal, place }, made) = change_told(&mut sheet, asked(numbers));
    write_sheet(refusal, &sheet, out);
    println!("{refusal} {place} {}", made.numbers().map(|number| number.to_string()).join(" "));
}

/// Prints refusal and place.
fn take_back_file(file: &str, numbers: &[&str; 6], out: Option<&str>) {
    let mut sheet = contents(file);
    let told = take_back(&mut sheet, Change::of(numbers.map(parsed)));
    let Fault { refusal, place } = told.err().unwrap_or(Fault { refusal: 0, place: 0 });
    write_sheet(refusal, &sheet, out);
    println!("{refusal} {place}");
}

const USAGE: &str = "usage: retimes change SHEET THREAD STATEMENT LEAST GREATEST [OUT] | \
    take-back SHEET THREAD STATEMENT OLD_LEAST OLD_GREATEST NEW_LEAST NEW_GREATEST [OUT] | \
    preview SHEET THREAD STATEMENT LEAST GREATEST [COPY WORK] | make SEED COUNT | \
    plant, histogram, list or corpus FILE";

fn main() {
    let arguments: Vec<String> = env::args().skip(1).collect();
    let arguments: Vec<&str> = arguments.iter().map(String::as_str).collect();
    match arguments[..] {
        ["change", sheet, a, b, c, d] => change_file(sheet, &[a, b, c, d], None),
        ["change", sheet, a, b, c, d, out] => change_file(sheet, &[a, b, c, d], Some(out)),
        ["take-back", sheet, a, b, c, d, e, f] => take_back_file(sheet, &[a, b, c, d, e, f], None),
        ["take-back", sheet, a, b, c, d, e, f, out] => take_back_file(sheet, &[a, b, c, d, e, f], Some(out)),
        ["preview", sheet, a, b, c, d] => {
            println!("{}", preview(&contents(sheet), COPY, WORK, asked(&[a, b, c, d])));
        }
        ["preview", sheet, a, b, c, d, copy, work] => {
            println!("{}", preview(&contents(sheet), parsed(copy), parsed(work), asked(&[a, b, c, d])));
        }
        ["make", seed, count] => write(&retime_corpus::corpus_of(retime_cases::all(parsed(seed), parsed(count)))),
        ["plant", file] => {
            write(&entries::planted(&read(file)).unwrap_or_else(|| fail("too few entries to plant among")));
        }
        ["histogram", file] => retime_histogram::histogram(&read(file)),
        ["list", file] => retime_corpus::list(&read(file)),
        ["corpus", file] => entries::compare(&read(file)),
        _ => fail(USAGE),
    }
}
