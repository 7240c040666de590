//! Makes and reads the corpus: sheets with lengths of the work buffer and the
//! five numbers that the oracle gives.
//!
//!     rustc --edition 2021 -O -o corpus corpus.rs
//!
//!     corpus make SEED COUNT > FILE     the sheets at the edges, then random ones
//!     corpus small SEED COUNT > FILE    random sheets under 150 bytes and 100 steps
//!     corpus plant FILE > FILE          the same, with planted entries among them
//!     corpus histogram FILE             entries by refusal, sizes, steps
//!     corpus list FILE                  each entry as text: its numbers, then the sheet
//!
//! The file, numbers with the high byte first:
//!
//!     entries             4 bytes
//!     then for each entry
//!       sheet's length    2 bytes
//!       buffer's length   2 bytes
//!       refusal           1 byte
//!       place             2 bytes
//!       steps             4 bytes
//!       low               4 bytes
//!       high              4 bytes
//!       planted           1 byte
//!       the sheet's bytes
//!
//! An entry's sheet stands 20 bytes after the entry's start, the next entry right
//! after the sheet; the last sheet ends the file.
//!
//! Planted is 0, but for the entries that try whoever compares. With 1, one of the
//! five numbers is wrong. With 2, 3 and 4 the numbers are right, and whoever looks
//! at the buffer after the call changes its first number before that, its last, or
//! the number right behind it.

mod command_line;
#[allow(dead_code)]
mod generator;
#[allow(dead_code)]
mod oracle;

use command_line::{contents, fail, parsed};
use generator::{answer, fields, Entry, Generator};
use oracle::{recorded, Answer, Recorded, FRONT, WRONG};
use std::collections::{BTreeMap, BTreeSet};
use std::env;

const NAME: &str = "corpus";

/// How many entries of each refusal are kept at most, per thousand asked for.
const SHARES: [usize; 17] = [230, 60, 60, 50, 50, 60, 60, 40, 40, 0, 90, 80, 80, 70, 75, 80, 70];

/// Where an entry's five numbers stand, and what is planted.
const NUMBERS: std::ops::Range<usize> = 4..19;
const PLANTED: usize = 19;
/// The changes of the buffer that are planted.
const BUFFERS: std::ops::RangeInclusive<u8> = 2..=4;

impl Recorded {
    fn new(entry: Entry, answer: Answer) -> Recorded {
        Recorded { sheet: entry.sheet, length: entry.length, answer, planted: 0 }
    }
}

fn write(entries: &[Vec<u8>]) {
    command_line::write(&[(entries.len() as u32).to_be_bytes().to_vec(), entries.concat()].concat());
}

fn write_all(entries: Vec<Recorded>) {
    write(&entries.iter().map(Recorded::bytes).collect::<Vec<_>>());
}

/// The entries, some of them followed by a copy with something planted. Each byte
/// of the five numbers is wrong in one copy of an accepted sheet, in its lowest
/// bit, and in one of a refused sheet, in its highest; each change of the buffer is
/// planted once with either. The copies are spread evenly.
fn plant(entries: &[Recorded]) -> Vec<Vec<u8>> {
    let mut copies = BTreeMap::new();
    for (accepted, bit) in [(true, 0x01), (false, 0x80)] {
        let fits = |entry: &Recorded| {
            (entry.answer.refusal == 0) == accepted && entry.planted == 0 && entry.length > 0 && entry.sheet.len() < 300
        };
        let fitting: Vec<usize> = (0..entries.len()).filter(|&at| fits(&entries[at])).collect();
        let count = NUMBERS.len() + BUFFERS.count();
        if fitting.len() < count {
            fail("too few entries to plant among");
        }
        let mut chosen = (0..count).map(|copy| fitting[(2 * copy + 1) * fitting.len() / (2 * count)]);
        for byte in NUMBERS {
            let at = chosen.next().expect("one for each");
            let mut copy = entries[at].bytes();
            copy[byte] ^= bit;
            copy[PLANTED] = WRONG;
            copies.insert(at, copy);
        }
        for (at, change) in chosen.zip(BUFFERS) {
            let mut copy = entries[at].bytes();
            copy[PLANTED] = change;
            copies.insert(at, copy);
        }
    }
    let mut planted = Vec::new();
    for (at, entry) in entries.iter().enumerate() {
        planted.push(entry.bytes());
        planted.extend(copies.remove(&at));
    }
    planted
}

fn make(seed: u64, count: usize) -> Vec<Recorded> {
    let mut generator = Generator::new(seed);
    let mut seen = BTreeSet::new();
    let mut kept = Vec::new();
    let mut of = [0; SHARES.len()];
    for entry in generator.boundaries() {
        let Some(answer) = answer(&entry.sheet, entry.length) else { continue };
        if seen.insert(entry.clone()) {
            kept.push(Recorded::new(entry, answer));
        }
    }
    let mut tries = 0;
    let mut added = 0;
    while added < count && tries < 40 * count {
        tries += 1;
        let entry = generator.entry();
        // long sheets and long searches are rare
        let size = entry.sheet.len();
        if size > 600 || size > 220 && !generator.random.chance(30) {
            continue;
        }
        let Some(answer) = answer(&entry.sheet, entry.length) else { continue };
        let often = &mut of[usize::from(answer.refusal)];
        if *often * 1000 >= SHARES[usize::from(answer.refusal)] * count
            || answer.steps > 500 && !generator.random.chance(10)
            || !seen.insert(entry.clone())
        {
            continue;
        }
        *often += 1;
        added += 1;
        kept.push(Recorded::new(entry, answer));
    }
    kept
}

fn small(seed: u64, count: usize) -> Vec<Recorded> {
    let mut generator = Generator::new(seed);
    let mut kept = Vec::new();
    let mut of = [0; SHARES.len()];
    while kept.len() < count {
        let entry = generator.entry();
        if entry.sheet.len() >= 150 {
            continue;
        }
        let Some(answer) = answer(&entry.sheet, entry.length) else { continue };
        let often = &mut of[usize::from(answer.refusal)];
        if answer.steps >= 100 || *often * 10 > count {
            continue;
        }
        *often += 1;
        kept.push(Recorded::new(entry, answer));
    }
    kept
}

fn read(file: &str) -> Vec<Recorded> {
    recorded(&contents(file)).unwrap_or_else(|| fail(&format!("{file}: not a corpus")))
}

/// The planted entries are counted apart.
fn histogram(all: &[Recorded]) {
    let (entries, planted): (Vec<_>, Vec<_>) = all.iter().partition(|entry| entry.planted == 0);
    let bytes: usize = entries.iter().map(|entry| FRONT + entry.sheet.len()).sum();
    let steps: u64 = entries.iter().map(|entry| entry.answer.steps).sum();
    let most = entries.iter().map(|entry| entry.answer.steps).max().unwrap_or(0);
    println!("{} entries, {} bytes, {} steps in all, at most {} in one", entries.len(), bytes + 4, steps, most);
    if !planted.is_empty() {
        let wrong = planted.iter().filter(|entry| entry.planted == WRONG).count();
        println!("planted besides: {} with a wrong number, {} with a changed buffer", wrong, planted.len() - wrong);
    }
    println!("| refusal | entries |\n|---|---|");
    for refusal in 0..SHARES.len() as u8 {
        let count = entries.iter().filter(|entry| entry.answer.refusal == refusal).count();
        println!("| {refusal} | {count} |");
    }

    // what stands in the sheets that read
    let read: Vec<_> = entries.iter().filter(|entry| entry.answer.refusal == 0 || entry.answer.refusal > 9).collect();
    let (mut threads, mut statements, mut expressions) = ([0; 5], [0; 8], [0; 64]);
    for entry in &read {
        let places = fields(&entry.sheet);
        threads[places.iter().filter(|&&place| entry.sheet[place] == 4).count()] += 1;
        for (index, &place) in places.iter().enumerate().filter(|&(_, &place)| entry.sheet[place] == 6) {
            let end = places.get(index + 1).copied().unwrap_or(entry.sheet.len());
            let code = usize::from(entry.sheet[place + 7]);
            statements[code] += 1;
            let mut at = if code == 2 || code == 3 { place + 9 } else { end };
            while at < end {
                let code = usize::from(entry.sheet[at]);
                expressions[code] += 1;
                at += [5, 2].get(code.wrapping_sub(16)).unwrap_or(&1);
            }
        }
    }
    println!("\n{} sheets read; with 1, 2, 3, 4 threads: {:?}", read.len(), &threads[1..]);
    println!("statements with codes 0 to 7: {statements:?}");
    println!("parts of expressions with codes 16 to 21: {:?}, 32 to 37: {:?}", &expressions[16..22], &expressions[32..38]);
    let mut lengths: Vec<_> = entries.iter().map(|entry| entry.length).collect();
    lengths.sort();
    lengths.dedup();
    println!("{} lengths of the buffer, {} to {}", lengths.len(), lengths[0], lengths[lengths.len() - 1]);
}

fn list(entries: &[Recorded]) {
    for Recorded { sheet, length, answer, planted } in entries {
        let sheet: String = sheet.iter().map(|byte| format!("{byte:02X}")).collect();
        let planted = if *planted == 0 { String::new() } else { format!(" planted {planted}") };
        println!("{length} {answer} {sheet}{planted}");
    }
}

fn main() {
    let arguments: Vec<String> = env::args().skip(1).collect();
    let arguments: Vec<&str> = arguments.iter().map(String::as_str).collect();
    match arguments[..] {
        ["make", seed, count] => write_all(make(parsed(seed), parsed(count))),
        ["small", seed, count] => write_all(small(parsed(seed), parsed(count))),
        ["plant", file] => write(&plant(&read(file))),
        ["histogram", file] => histogram(&read(file)),
        ["list", file] => list(&read(file)),
        _ => fail("usage: corpus make SEED COUNT | small SEED COUNT | plant FILE | histogram FILE | list FILE"),
    }
}
