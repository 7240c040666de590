//! What stands in a corpus of mends.

use crate::entries::{Entry, WRONG};
use crate::fault_pairs::pairs;
use crate::mend_answer::MAX_SHEET;
use crate::mend_corpus::{Mend, WRONG_LIST, WRONG_SHEET};
use crate::mend_sheet::{mend, EXCHANGED, HALT_ADDED};
use crate::oracle::fields_refused;
use std::ops::Range;

/// The numbers that a mend can give.
const REFUSALS: [u8; 11] = [0, 1, 2, 3, 4, 5, 6, 7, 8, 9, 19];
/// What may be wrong, in the order in which it is told.
const FAULTS: [&str; 5] = ["9 at first", "the reader's", "9 when mended", "19, bytes", "19, numbers"];
/// By tag, what is exchanged.
const ENDS: [(&str, u8); 4] = [("label", 1), ("variable", 2), ("register", 5), ("statement", 6)];

/// An entry, and what the mend makes of its sheet whatever is refused.
struct Seen<'a> {
    entry: &'a Mend,
    changes: Vec<[usize; 2]>,
    length: usize,
    /// Number and place that the reader gives in the mended sheet.
    read: Option<(u8, usize)>,
}

impl Seen<'_> {
    fn of(entry: &Mend) -> Seen<'_> {
        let mended = mend(&entry.case.sheet);
        let bytes = mended.bytes();
        Seen { entry, read: fields_refused(&bytes), length: bytes.len(), changes: mended.changes }
    }

    fn refusal(&self) -> u8 {
        self.entry.stated.refusal
    }

    fn of_kind(&self, kind: usize) -> usize {
        self.changes.iter().filter(|change| change[0] == kind).count()
    }

    /// Whether the place counted in the mended sheet would be another.
    fn is_moved(&self) -> bool {
        let told = (self.refusal(), self.entry.stated.place);
        self.read.is_some_and(|(number, place)| number == told.0 && place != told.1)
    }

    /// Which of the faults it has, each by itself.
    fn faults(&self) -> [bool; 5] {
        let case = &self.entry.case;
        let short = [self.length > case.room, 2 * self.changes.len() > case.numbers];
        let first = case.sheet.len() > MAX_SHEET;
        [first, self.read.is_some(), self.length > MAX_SHEET && !first, short[0], short[1]]
    }
}

/// The planted entries are counted apart.
pub fn histogram(all: &[Mend]) {
    let (entries, planted): (Vec<&Mend>, Vec<&Mend>) = all.iter().partition(|entry| entry.planted == 0);
    let bytes: usize = entries.iter().map(|entry| entry.bytes().len()).sum();
    println!("{} entries, {} bytes", entries.len(), bytes + 4);
    if !planted.is_empty() {
        let of = |what: u8| planted.iter().filter(|entry| entry.planted == what).count();
        let [numbers, sheets, lists] = [WRONG, WRONG_SHEET, WRONG_LIST].map(of);
        println!("planted besides: {numbers} wrong numbers, {sheets} wrong sheets, {lists} wrong lists");
    }
    let seen: Vec<Seen> = entries.iter().map(|entry| Seen::of(entry)).collect();
    refusals(&seen);
    garblings(&seen);
    pairs(FAULTS, &seen.iter().map(Seen::faults).collect::<Vec<_>>());
    sizes(&seen);
}

fn count(seen: &[Seen], test: impl Fn(&Seen) -> bool) -> usize {
    seen.iter().filter(|entry| test(entry)).count()
}

/// By refusal, and by what is garbled in the sheets of each.
fn refusals(seen: &[Seen]) {
    println!("| refusal | entries | nothing garbled | ends only | halts only | both | place moved |\n|---|---|---|---|---|---|---|");
    for refusal in REFUSALS {
        let of = |ends: bool, halts: bool| {
            let garbled = |entry: &Seen| (entry.of_kind(EXCHANGED) > 0, entry.of_kind(HALT_ADDED) > 0) == (ends, halts);
            count(seen, |entry| entry.refusal() == refusal && garbled(entry))
        };
        println!(
            "| {refusal} | {} | {} | {} | {} | {} | {} |",
            count(seen, |entry| entry.refusal() == refusal),
            of(false, false),
            of(true, false),
            of(false, true),
            of(true, true),
            count(seen, |entry| entry.refusal() == refusal && entry.is_moved())
        );
    }
}

/// Of the accepted ones: how many changes, and of what.
fn garblings(seen: &[Seen]) {
    let accepted = |entry: &Seen| entry.refusal() == 0;
    let of = |changes: Range<usize>| count(seen, |entry| accepted(entry) && changes.contains(&entry.changes.len()));
    println!(
        "accepted with 0, 1, 2, 3, 4, 5 to 8, 9 to 16, more changes: {:?}",
        [0..1, 1..2, 2..3, 3..4, 4..5, 5..9, 9..17, 17..999].map(of)
    );
    let halts = |halts: usize| count(seen, |entry| accepted(entry) && entry.of_kind(HALT_ADDED) == halts);
    println!("accepted with 0, 1, 2, 3, 4 halts added: {:?}", [0, 1, 2, 3, 4].map(halts));
    for (name, tag) in ENDS {
        let exchanged = |entry: &Seen| {
            entry.changes.iter().any(|&[kind, place]| kind == EXCHANGED && entry.entry.case.sheet[place] == tag)
        };
        println!(
            "accepted with the ends of a {name} exchanged: {}",
            count(seen, |entry| accepted(entry) && exchanged(entry))
        );
    }
    let twice = |entry: &Seen| entry.changes.windows(2).any(|two| two[0][1] == two[1][1]);
    println!(
        "accepted with a statement that is exchanged and gets a halt: {}",
        count(seen, |entry| accepted(entry) && twice(entry))
    );
}

fn sizes(seen: &[Seen]) {
    let bytes_left = |left: Range<usize>| {
        count(seen, |entry| entry.refusal() == 0 && left.contains(&(entry.entry.case.room - entry.length)))
    };
    println!("accepted with 0, 1 to 8, more bytes left: {:?}", [0..1, 1..9, 9..99_999].map(bytes_left));
    let numbers_left = |left: Range<usize>| {
        let of = |entry: &Seen| entry.entry.case.numbers - 2 * entry.changes.len();
        count(seen, |entry| entry.refusal() == 0 && left.contains(&of(entry)))
    };
    println!("accepted with 0, 1 to 8, more numbers left: {:?}", [0..1, 1..9, 9..99_999].map(numbers_left));
    let length = |entry: &Seen| entry.entry.case.sheet.len();
    println!(
        "sheets above 200 bytes: {}, above 16,000: {}; longest {}",
        count(seen, |entry| length(entry) > 200),
        count(seen, |entry| length(entry) > 16_000),
        seen.iter().map(length).max().unwrap_or(0)
    );
    let no_room = |entry: &Seen| entry.entry.case.room == 0 || entry.entry.case.numbers == 0;
    println!("with a buffer of no length: {}", count(seen, no_room));
}
