//! Looks a name up in two files of sheets, the customer's and the house's (02, ticket 14),
//! and makes and reads a corpus of such lookups. Written from the papers, it shares no code
//! with the library it is compared with.
//!
//!     rustc --edition 2021 -O -o shelves shelves.rs     (rustc --edition 2021 --test for the tests)
//!
//!     shelves find NAME CUSTOMER HOUSE    refusal, file, place and size for a name and two files
//!     shelves make SEED COUNT > FILE      a corpus: the cases chosen by hand, then COUNT random ones
//!     shelves plant FILE > FILE           the same, with planted entries among them
//!     shelves histogram FILE              entries by refusal and file, sizes, places
//!     shelves list FILE                   each entry as text: its name and numbers, then the files
//!     shelves corpus FILE                 the entries that are answered otherwise
//!
//! lookup_corpus.rs describes the corpus, lookup_cases.rs has the cases; field.rs, entries.rs and
//! command_line.rs have what serves other programs too. Sentences in quotation marks are those of the specification.

mod command_line;
#[allow(dead_code)]
mod entries;
mod field;
mod lookup_cases;
mod lookup_corpus;

use command_line::{contents, fail, parsed, write};
use field::{body, Fault};
use lookup_corpus::Lookup;
use std::env;
use std::ops::Range;

pub const NO_SUCH_NAME: u8 = 5;

pub const CUSTOMER: u8 = 0;
pub const HOUSE: u8 = 1;

const NAME_TAG: u8 = 48;
const SHEET_TAG: u8 = 49;

// ---- the lookup

#[derive(PartialEq, Eq, Debug)]
pub struct Found<'a> {
    pub refusal: u8,
    pub file: u8,
    pub place: usize,
    pub part: &'a [u8],
}

impl Found<'_> {
    /// Refusal, file, place, and the part's size.
    pub fn numbers(&self) -> [usize; 4] {
        [self.refusal.into(), self.file.into(), self.place, self.part.len()]
    }
}

/// Where the sheet of the first pair with this name stands, if there is one.
fn sheet_of(name: u8, file: &[u8]) -> Result<Option<Range<usize>>, Fault> {
    let mut place = 0;
    while place < file.len() {
        let named = body(file, place, NAME_TAG, Some(1))?;
        let sheet = body(file, named.end, SHEET_TAG, None)?;
        if file[named.start] == name {
            return Ok(Some(sheet));
        }
        place = sheet.end;
    }
    Ok(None)
}

pub fn lookup<'a>(name: u8, customer: &'a [u8], house: &'a [u8]) -> Found<'a> {
    let refused = |refusal, file, place| Found { refusal, file, place, part: &house[..0] };
    for (file, bytes) in [(CUSTOMER, customer), (HOUSE, house)] {
        match sheet_of(name, bytes) {
            Ok(Some(sheet)) => return Found { refusal: 0, file, place: sheet.start, part: &bytes[sheet] },
            Ok(None) => {}
            Err(fault) => return refused(fault.refusal, file, fault.place),
        }
    }
    refused(NO_SUCH_NAME, HOUSE, 0)
}

// ---- the command line

fn read(file: &str) -> Vec<Lookup> {
    entries::read(&contents(file)).unwrap_or_else(|| fail(&format!("{file}: not a corpus of lookups")))
}

const NAME: &str = "shelves";
const USAGE: &str = "usage: shelves find NAME CUSTOMER HOUSE | make SEED COUNT | plant, histogram, list or corpus FILE";

fn main() {
    let arguments: Vec<String> = env::args().skip(1).collect();
    let arguments: Vec<&str> = arguments.iter().map(String::as_str).collect();
    match arguments[..] {
        ["find", name, customer, house] => {
            let (customer, house) = (contents(customer), contents(house));
            let [refusal, file, place, size] = lookup(parsed(name), &customer, &house).numbers();
            println!("{refusal} {file} {place} {size}");
        }
        ["make", seed, count] => write(&lookup_corpus::answered(lookup_cases::all(parsed(seed), parsed(count)))),
        ["plant", file] => {
            write(&entries::planted(&read(file)).unwrap_or_else(|| fail("too few entries to plant among")));
        }
        ["histogram", file] => lookup_corpus::histogram(&read(file)),
        ["list", file] => lookup_corpus::list(&read(file)),
        ["corpus", file] => entries::compare(&read(file)),
        _ => fail(USAGE),
    }
}

// ---- tests, counted by hand

#[cfg(test)]
mod tests {
    use super::*;

    /// Two pairs, 7 and 8. Fields at 0, 4, 10, 14; sheets at 7 and 17.
    const TWO: [u8; 18] = [48, 0, 1, 7, 49, 0, 3, 1, 2, 3, 48, 0, 1, 8, 49, 0, 1, 4];
    /// Three pairs, 8, 7 and 7. Fields at 0, 4, 7, 11, 15, 19; sheets at 7 (empty), 14 and 22.
    const THREE: [u8; 24] = [48, 0, 1, 8, 49, 0, 0, 48, 0, 1, 7, 49, 0, 1, 5, 48, 0, 1, 7, 49, 0, 2, 6, 6];

    fn numbers(name: u8, customer: &[u8], house: &[u8]) -> [usize; 4] {
        let found = lookup(name, customer, house);
        if found.refusal != 0 {
            assert!(std::ptr::eq(found.part, &house[..0]));
        }
        found.numbers()
    }

    /// A malformed file, as the customer's and as the house's.
    fn refused(name: u8, file: &[u8], refusal: usize, place: usize) {
        assert_eq!(numbers(name, file, &TWO), [refusal, 0, place, 0], "{file:?}");
        assert_eq!(numbers(name, &[], file), [refusal, 1, place, 0], "{file:?}");
    }

    #[test]
    fn the_customers_first() {
        assert_eq!(lookup(7, &TWO, &THREE), Found { refusal: 0, file: 0, place: 7, part: &[1, 2, 3] });
        assert_eq!(lookup(7, &THREE, &TWO), Found { refusal: 0, file: 0, place: 14, part: &[5] });
        assert_eq!(lookup(8, &TWO, &[]), Found { refusal: 0, file: 0, place: 17, part: &[4] });
        assert_eq!(lookup(8, &[48, 0, 1, 9, 49, 0, 0], &TWO), Found { refusal: 0, file: 1, place: 17, part: &[4] });
        assert_eq!(lookup(8, &THREE, &TWO), Found { refusal: 0, file: 0, place: 7, part: &[] });
        assert!(std::ptr::eq(lookup(7, &[], &THREE).part, &THREE[14..15]));
        assert!(std::ptr::eq(lookup(8, &THREE, &TWO).part, &THREE[7..7]));
        // an empty sheet that ends its file
        assert_eq!(numbers(8, &[], &THREE[..7]), [0, 1, 7, 0]);
        assert!(std::ptr::eq(lookup(8, &[], &THREE[..7]).part, &THREE[7..7]));
    }

    #[test]
    fn no_such_name() {
        for (customer, house) in [(&TWO[..], &THREE[..]), (&TWO, &[]), (&[], &TWO), (&[], &[])] {
            assert_eq!(numbers(9, customer, house), [5, 1, 0, 0]);
        }
    }

    #[test]
    fn every_truncation() {
        // by length: header short, body short or absent, with the field's place
        let places = [(1..=3, 0), (4..=9, 4), (11..=13, 10), (14..=17, 14)];
        for (lengths, place) in places {
            for length in lengths {
                refused(9, &TWO[..length], 1, place);
                refused(8, &TWO[..length], 1, place);
            }
        }
        refused(7, &TWO[..9], 1, 4);
        for length in 10..=18 {
            // behind the hit nothing is seen
            assert_eq!(numbers(7, &TWO[..length], &[1]), [0, 0, 7, 3]);
            assert_eq!(numbers(7, &[], &TWO[..length]), [0, 1, 7, 3]);
        }
    }

    #[test]
    fn one_fault() {
        refused(7, &[49, 0, 1, 7, 49, 0, 0], 2, 0);
        refused(7, &[48, 0, 1, 7, 48, 0, 1, 7, 49, 0, 0], 2, 4);
        refused(8, &[48, 0, 1, 7, 49, 0, 0, 49, 0, 0], 2, 7);
        refused(7, &[48, 0, 0, 49, 0, 0], 3, 0);
        refused(7, &[48, 0, 2, 7, 7, 49, 0, 0], 3, 0);
        refused(8, &[48, 0, 1, 7, 49, 0, 2, 5, 5, 48, 0, 0], 3, 9);
        refused(8, &[48, 0, 1, 7, 49, 0, 2, 5], 1, 4);
        refused(7, &[&[48, 1, 0], &[7; 256][..], &[49, 0, 0]].concat(), 3, 0);
        refused(7, &[&[48, 1, 1], &[7; 257][..], &[49, 0, 0]].concat(), 3, 0);
        // the high byte of a sheet's length
        assert_eq!(numbers(7, &[&[48, 0, 1, 7, 49, 1, 0], &[5; 256][..]].concat(), &[]), [0, 0, 7, 256]);
        refused(7, &[&[48, 0, 1, 7, 49, 1, 0], &[5; 255][..]].concat(), 1, 4);
    }

    #[test]
    fn two_faults() {
        // header short before tag, tag before body short, tag before length, body short before length
        refused(7, &[49, 0], 1, 0);
        refused(7, &[49, 0, 9], 2, 0);
        refused(7, &[49, 0, 2, 7, 7], 2, 0);
        refused(7, &[48, 0, 2, 7], 1, 0);
        refused(7, &[48, 0, 1, 7, 48, 0, 9], 2, 4);
        // the first of two fields, the customer's of two files
        refused(7, &[48, 0, 0, 48], 3, 0);
        assert_eq!(numbers(7, &[48, 0, 0], &[49, 0, 0]), [3, 0, 0, 0]);
        assert_eq!(numbers(9, &TWO[..17], &THREE[..6]), [1, 0, 14, 0]);
        assert_eq!(numbers(9, &TWO, &THREE[..6]), [1, 1, 4, 0]);
    }
}
