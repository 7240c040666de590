//! The corpus of lookups that shelves.rs makes and reads. Numbers have the high byte first:
//!
//!     entries                       4 bytes
//!     then for each entry
//!       name                        1 byte
//!       customer's file's length    4 bytes
//!       house's file's length       4 bytes
//!       refusal                     1 byte
//!       file                        1 byte, 0 the customer's, 1 the house's
//!       place                       4 bytes
//!       size of the part            4 bytes
//!       planted                     1 byte
//!       the customer's bytes, then the house's
//!
//! Planted is 0, but for the entries that try whoever compares. With 1, one of the four
//! numbers is wrong. With 2, 3 and 4 the numbers are right, and whoever compares the part's
//! bytes first takes another byte for its first, another for its last, or the part one byte
//! too short.

use crate::entries::{corpus, four, hex, number, Entry, FrontEntry, WRONG};
use crate::field::{BAD_LENGTH, OUT_OF_TURN, SHORT};
use crate::lookup_cases::Case;
use crate::{lookup, CUSTOMER, HOUSE, NO_SUCH_NAME};
use std::ops::Range;
use std::ptr;

/// Only entries with shorter files have copies.
const LONG: usize = 300;

pub struct Lookup {
    case: Case,
    /// refusal, file, place and size
    numbers: [usize; 4],
    planted: u8,
}

impl Entry for Lookup {
    const FRONT: usize = 20;

    fn new(front: &[u8], [customer, house]: [&[u8]; 2]) -> Lookup {
        let case = Case { name: front[0], customer: customer.to_vec(), house: house.to_vec() };
        let numbers = [9..10, 10..11, 11..15, 15..19].map(|at| number(&front[at]));
        Lookup { case, numbers, planted: front[Lookup::PLANTED] }
    }

    fn bytes(&self) -> Vec<u8> {
        let Case { name, customer, house } = &self.case;
        let [refusal, file, place, size] = self.numbers;
        let mut bytes = vec![*name];
        bytes.extend([four(customer.len()), four(house.len())].concat());
        bytes.extend([refusal as u8, file as u8]);
        bytes.extend([four(place), four(size)].concat());
        bytes.push(self.planted);
        bytes.extend([&customer[..], house].concat());
        bytes
    }

    fn planted(&self) -> u8 {
        self.planted
    }

    /// Whether the lookup gives these numbers and the very part that they state.
    fn is_answered(&self) -> bool {
        let Case { name, customer, house } = &self.case;
        let found = lookup(*name, customer, house);
        let [refusal, file, place, size] = self.numbers;
        let stated = match [customer, house].get(file) {
            Some(file) if refusal == 0 => file.get(place..place + size),
            _ => house.get(..0),
        };
        found.numbers() == self.numbers && stated.is_some_and(|part| ptr::eq(part, found.part))
    }
}

impl FrontEntry for Lookup {
    const NUMBERS: Range<usize> = 9..19;
    const PLANTED: usize = 19;
    /// Each change of the part twice.
    const OTHERS: [&'static [u8]; 2] = [&[2, 3, 4, 2, 3, 4], &[]];

    fn refusal(&self) -> usize {
        self.numbers[0]
    }

    /// A part that is changed has two bytes or more.
    fn may_have_copy(&self) -> bool {
        let [refusal, _, _, size] = self.numbers;
        self.case.customer.len().max(self.case.house.len()) < LONG && (refusal != 0 || size >= 2)
    }
}

/// A corpus of these cases with what the lookup gives them.
pub fn answered(cases: Vec<Case>) -> Vec<u8> {
    let bytes = |case: Case| {
        let numbers = lookup(case.name, &case.customer, &case.house).numbers();
        Lookup { case, numbers, planted: 0 }.bytes()
    };
    corpus(cases.into_iter().map(bytes).collect())
}

/// The planted entries are counted apart.
pub fn histogram(all: &[Lookup]) {
    let (entries, planted): (Vec<&Lookup>, Vec<&Lookup>) = all.iter().partition(|entry| entry.planted == 0);
    let bytes: usize = entries.iter().map(|entry| entry.bytes().len()).sum();
    println!("{} entries, {} bytes", entries.len(), bytes + 4);
    if !planted.is_empty() {
        let wrong = planted.iter().filter(|entry| entry.planted == WRONG).count();
        println!("planted besides: {wrong} with a wrong number, {} with a wrong part", planted.len() - wrong);
    }
    let count = |test: &dyn Fn(&Lookup) -> bool| entries.iter().filter(|entry| test(entry)).count();
    println!("| refusal | customer's file | house's file |\n|---|---|---|");
    for refusal in [0, SHORT, OUT_OF_TURN, BAD_LENGTH, NO_SUCH_NAME] {
        let of = |file: u8| count(&|entry| entry.numbers[..2] == [refusal.into(), file.into()]);
        println!("| {refusal} | {} | {} |", of(CUSTOMER), of(HOUSE));
    }
    let found = |size: Range<usize>| count(&|entry| entry.numbers[0] == 0 && size.contains(&entry.numbers[3]));
    println!("found with 0, 1, 2 to 255, more bytes: {:?}", [0..1, 1..2, 2..256, 256..usize::MAX].map(found));
    let placed = |place: Range<usize>| count(&|entry| place.contains(&entry.numbers[2]));
    println!("places 0, to 255, to 65535, above: {:?}", [0..1, 1..256, 256..65_536, 65_536..usize::MAX].map(placed));
    let customer = entries.iter().map(|entry| entry.case.customer.len()).max().unwrap_or(0);
    let house = entries.iter().map(|entry| entry.case.house.len()).max().unwrap_or(0);
    println!("longest customer's file {customer} bytes, longest house's file {house} bytes");
}

pub fn list(entries: &[Lookup]) {
    for Lookup { case, numbers: [refusal, file, place, size], planted } in entries {
        let planted = if *planted == 0 { String::new() } else { format!(" planted {planted}") };
        let (customer, house) = (hex(&case.customer), hex(&case.house));
        println!("{} {refusal} {file} {place} {size} {customer} {house}{planted}", case.name);
    }
}
