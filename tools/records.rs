//! Follows a record of a job through a sheet (02, ticket 9), writes random runs as records, and makes
//! and reads a corpus of such records. Written from the papers, it shares no code with the library
//! it is compared with.
//!
//!     rustc --edition 2021 -O -o records records.rs     (rustc --edition 2021 --test for the tests)
//!
//!     records follow SHEET RECORD            refusal, file, place, finished and tick of two files
//!     records write SHEET SEED [MOST] > FILE a random run of a sheet, at most MOST events (100)
//!     records make SEED COUNT > FILE         a corpus: the cases chosen by hand, then COUNT random ones
//!     records plant FILE > FILE              the same, with planted entries among them
//!     records histogram FILE                 entries by refusal and file, ticks, turns of the clock
//!     records list FILE                      each entry as text: its numbers, the sheet, the record
//!     records corpus FILE                    the entries that are answered otherwise
//!
//! record_follow.rs has the follower, record_rule.rs the rule for runs on single values,
//! record_corpus.rs describes the corpus, record_cases.rs has the cases; field.rs, sheet_parts.rs,
//! sheet_reads.rs, entries.rs and command_line.rs have what serves other programs too. oracle.rs serves
//! to say whether a sheet reads, generator.rs for random sheets.

mod command_line;
#[allow(dead_code)]
mod entries;
mod field;
#[allow(dead_code)]
mod generator;
#[allow(dead_code)]
mod oracle;
mod record_cases;
mod record_corpus;
mod record_damage;
mod record_faults;
mod record_follow;
mod record_rule;
mod record_runs;
mod record_sheet;
mod record_sheets;
#[cfg(test)]
mod record_tests;
mod sheet_parts;
mod sheet_reads;

use command_line::{contents, fail, parsed, write};
use field::HEADER;
use generator::Random;
use record_corpus::Record;
use record_follow::{EVENT_LENGTH, START_LENGTH};
use std::env;

const NAME: &str = "records";
/// Events of a run that is written, unless another number is given.
const MOST: usize = 100;

fn read(file: &str) -> Vec<Record> {
    entries::read(&contents(file)).unwrap_or_else(|| fail(&format!("{file}: not a corpus of records")))
}

/// A record of at most so many events and 65,536 bytes.
fn write_run(file: &str, seed: u64, most: usize) {
    let sheet = record_sheet::read(&contents(file));
    let sheet = sheet.unwrap_or_else(|fault| fail(&format!("{file}: refusal {} at {}", fault.refusal, fault.place)));
    let starts = record_follow::ranges(&sheet).len() * (HEADER + START_LENGTH);
    let room = (record_follow::LONGEST - starts) / (HEADER + EVENT_LENGTH);
    write(&record_runs::random_run(&sheet, &mut Random(seed), most.min(room)).bytes());
}

const USAGE: &str = "usage: records follow SHEET RECORD | write SHEET SEED [MOST] | make SEED COUNT | \
    plant, histogram, list or corpus FILE";

fn main() {
    let arguments: Vec<String> = env::args().skip(1).collect();
    let arguments: Vec<&str> = arguments.iter().map(String::as_str).collect();
    match arguments[..] {
        ["follow", sheet, record] => {
            let numbers = record_follow::follow(&contents(sheet), &contents(record)).numbers();
            println!("{}", numbers.map(|number| number.to_string()).join(" "));
        }
        ["write", sheet, seed] => write_run(sheet, parsed(seed), MOST),
        ["write", sheet, seed, most] => write_run(sheet, parsed(seed), parsed(most)),
        ["make", seed, count] => write(&record_corpus::answered(record_cases::all(parsed(seed), parsed(count)))),
        ["plant", file] => {
            write(&entries::planted(&read(file)).unwrap_or_else(|| fail("too few entries to plant among")));
        }
        ["histogram", file] => record_corpus::histogram(&read(file)),
        ["list", file] => record_corpus::list(&read(file)),
        ["corpus", file] => entries::compare(&read(file)),
        _ => fail(USAGE),
    }
}
