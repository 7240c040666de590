//! What a corpus of texts holds: entries by refusal and by the kind of line at fault, pairs of faults, sizes.

use crate::entries::{Entry, WRONG};
use crate::fault_pairs::pairs;
use crate::oracle::fields_refused;
use crate::text_answer::{made, Answered, MAX_SHEET};
use crate::text_corpus::{Typed, WRONG_SHEET};
use crate::text_lines::{lines, Line, STATEMENT_TAG};
use std::ops::Range;

const REFUSALS: [u8; 9] = [0, 4, 5, 6, 7, 8, 9, 19, 20];
/// The first words of lines, but for statements.
const KINDS: [&str; 8] = ["limit", "budget", "label", "locks", "var", "thread", "reg", "statement"];
const FAULTS: [&str; 4] = ["9", "a number too big", "01's number", "19"];

/// An entry with the lines of its text, if it can be read, and the length of the sheet that they make.
struct Seen<'a> {
    entry: &'a Typed,
    lines: Option<Vec<Line>>,
    length: usize,
}

impl Seen<'_> {
    fn of(entry: &Typed) -> Seen<'_> {
        let lines = lines(&entry.case.text).ok();
        let length = lines.as_ref().map_or(0, |lines| made(lines).sheet.len());
        Seen { entry, lines, length }
    }

    fn refusal(&self) -> u8 {
        self.entry.stated.refusal
    }

    /// The kind of the line that the place is in.
    fn kind(&self) -> usize {
        let line =
            self.lines.iter().flatten().enumerate().filter(|(_, line)| line.start <= self.entry.stated.place).last();
        match line {
            Some((nth, _)) if nth < 4 => nth,
            Some((_, line)) if line.tag == STATEMENT_TAG => 7,
            Some((_, line)) => [4, 4, 5, 6][usize::from(line.tag).saturating_sub(2).min(3)],
            None => 0,
        }
    }

    /// Which faults a text that can be read has, each by itself.
    fn faults(&self) -> [bool; 4] {
        let Some(lines) = &self.lines else { return [false; 4] };
        let too_big = lines.iter().any(|line| line.too_big);
        let fitting: Vec<Line> =
            lines.iter().map(|line| Line { too_big: false, body: line.body.clone(), ..*line }).collect();
        let refused = self.length <= MAX_SHEET && fields_refused(&made(&fitting).sheet).is_some();
        [self.length > MAX_SHEET, too_big, refused, self.length > self.entry.case.room]
    }
}

/// The planted entries are counted apart.
pub fn histogram(all: &[Typed]) {
    let (entries, planted): (Vec<&Typed>, Vec<&Typed>) = all.iter().partition(|entry| entry.planted == 0);
    let bytes: usize = entries.iter().map(|entry| entry.bytes().len()).sum();
    println!("{} entries, {} bytes", entries.len(), bytes + 4);
    if !planted.is_empty() {
        let of = |what: u8| planted.iter().filter(|entry| entry.planted == what).count();
        let [numbers, sheets] = [WRONG, WRONG_SHEET].map(of);
        println!("planted besides: {numbers} wrong numbers, {sheets} wrong sheets");
    }
    let seen: Vec<Seen> = entries.iter().map(|entry| Seen::of(entry)).collect();
    refusals(&seen);
    kinds(&seen);
    pairs(FAULTS, &seen.iter().map(Seen::faults).collect::<Vec<_>>());
    sizes(&seen);
}

fn count(seen: &[Seen], test: impl Fn(&Seen) -> bool) -> usize {
    seen.iter().filter(|entry| test(entry)).count()
}

fn refusals(seen: &[Seen]) {
    let of = |refusal: u8| count(seen, |entry| entry.refusal() == refusal).to_string();
    println!("| refusal | {} |\n|---|{}", REFUSALS.map(|refusal| refusal.to_string()).join(" | "), "---|".repeat(9));
    println!("| entries | {} |", REFUSALS.map(of).join(" | "));
    let at_end = |entry: &Seen| entry.entry.stated.place == entry.entry.case.text.len();
    let unreadable = |entry: &Seen| entry.refusal() == 20;
    let (ends, newlines) = (
        count(seen, |entry| unreadable(entry) && at_end(entry)),
        count(seen, |entry| unreadable(entry) && entry.entry.case.text.get(entry.entry.stated.place) == Some(&b'\n')),
    );
    println!("20 at the text's end: {ends}, at a newline: {newlines}");
}

/// By the kind of the line at fault.
fn kinds(seen: &[Seen]) {
    println!("| refusal | {} |\n|---|{}", KINDS.join(" | "), "---|".repeat(KINDS.len()));
    for refusal in 4..9 {
        let of = |kind: usize| count(seen, |entry| entry.refusal() == refusal && entry.kind() == kind).to_string();
        println!("| {refusal} | {} |", (0..KINDS.len()).map(of).collect::<Vec<_>>().join(" | "));
    }
}

fn sizes(seen: &[Seen]) {
    let accepted = |entry: &Seen| entry.refusal() == 0;
    let left = |left: Range<usize>| {
        let of = |Answered { written, sheet, .. }: &Answered| sheet.len() - written;
        count(seen, |entry| accepted(entry) && left.contains(&of(&entry.entry.stated)))
    };
    println!("accepted with 0, 1 to 8, more bytes left: {:?}", [0..1, 1..9, 9..99_999].map(left));
    let length = |entry: &Seen| entry.entry.case.text.len();
    let above = |bytes: usize| count(seen, |entry| length(entry) > bytes);
    let longest = seen.iter().map(length).max().unwrap_or(0);
    println!("texts above 200 bytes: {}, above 10,000: {}; longest {longest}", above(200), above(10_000));
    println!("sheets of 16,384 bytes: {}", count(seen, |entry| entry.length == MAX_SHEET));
    println!("with no room: {}", count(seen, |entry| entry.entry.case.room == 0));
}
