//! The cases of a corpus of records: sheets and records chosen by hand, then random ones from a
//! seed. The follower serves to choose random cases of each refusal.

use crate::entries::Cases;
use crate::generator::{Generator, Random};
use crate::record_damage::{events_near, malformed, values_near};
use crate::record_faults::{counted, without_result};
use crate::record_follow::{follow, ranges, EVENT_TAG, LONGEST, START_TAG};
use crate::record_rule::State;
use crate::record_runs::{event, random_run, record, Run};
use crate::record_sheet::{read, Sheet};
use crate::record_sheets::*;
use crate::sheet_parts::*;

#[derive(Clone, PartialEq, Eq, PartialOrd, Ord)]
pub struct Case {
    pub sheet: Vec<u8>,
    pub record: Vec<u8>,
}

/// Random sheets of more bytes are not taken.
const MOST_BYTES: usize = 220;
/// Events of a random run at most.
const MOST_EVENTS: usize = 60;
/// How many random cases of a record's refusal, 0 to 21, are kept at most, per hundred asked for;
/// and of a sheet's refusal in all.
const SHARES: [usize; 22] = [34, 7, 7, 6, 7, 7, 0, 0, 0, 0, 5, 0, 0, 0, 0, 0, 5, 0, 0, 0, 0, 14];
const SHARE_OF_SHEETS: usize = 8;
/// A sheet of more bytes stands beside one record only.
const LONG_SHEET: usize = 1000;

impl Cases<Case> {
    fn add(&mut self, sheet: &[u8], record: &[u8]) -> bool {
        self.put(Case { sheet: sheet.to_vec(), record: record.to_vec() })
    }

    /// A run's record, and instead of each event and behind the last those near it.
    fn near(&mut self, bytes: &[u8], sheet: &Sheet, run: &Run) {
        let mut state = State::new(sheet, &run.values);
        for (at, &(thread, tick)) in run.events.iter().enumerate() {
            let before = record(&run.values, &run.events[..at]);
            self.add(bytes, &before);
            for (thread, tick) in events_near(sheet, &state) {
                self.add(bytes, &[before.clone(), event(thread, tick)].concat());
            }
            if state.end(sheet, thread.into(), tick).is_err() {
                return;
            }
        }
        self.add(bytes, &run.bytes());
        for (thread, tick) in events_near(sheet, &state) {
            self.add(bytes, &[run.bytes(), event(thread, tick)].concat());
        }
    }

    fn runs(&mut self, sheets: &[Vec<u8>], count: usize, most: usize) {
        for bytes in sheets {
            let sheet = read(bytes).unwrap_or_else(|fault| panic!("{fault:?}: {bytes:?}"));
            let mut random = Random(1);
            for _ in 0..count {
                let run = tried(bytes, &sheet, &mut random, most);
                self.near(bytes, &sheet, &run);
            }
        }
    }

    /// Each starting value at the ends of its range and beyond; values of one range where another is due.
    fn starting(&mut self) {
        let whole = thread(&[(i32::MIN, i32::MAX), (0, 0)], &[]);
        let negative = thread(&[], &[]);
        for bytes in [apart(), sheet(0, &[], &[whole]), sheet(0, &[(-7, -7), (-300, -2), (256, 511)], &[negative])] {
            let ranges = ranges(&read(&bytes).expect("it reads"));
            let lows: Vec<i32> = ranges.iter().map(|range| range.0).collect();
            let highs: Vec<i32> = ranges.iter().map(|range| range.1).collect();
            self.add(&bytes, &record(&lows, &[]));
            self.add(&bytes, &record(&highs, &[]));
            for (at, &(low, high)) in ranges.iter().enumerate() {
                for value in values_near(low, high) {
                    let mut values = lows.clone();
                    values[at] = value;
                    self.add(&bytes, &record(&values, &[]));
                    values[ranges.len() - 1] = values[ranges.len() - 1].wrapping_sub(1);
                    self.add(&bytes, &record(&values, &[]));
                }
                for turned in 1..ranges.len() {
                    let mut values = lows.clone();
                    values[at..].rotate_left(turned % (ranges.len() - at));
                    self.add(&bytes, &record(&values, &[]));
                }
            }
        }
    }

    /// Malformed fields in the place of a start and of an event, at the end and with more behind; all tags.
    fn fields(&mut self) {
        let bytes = sheet(0, &[(-20, -15)], &[thread(&[(0, 9)], &[skip((2, 2)), skip((1, 3))])]);
        let whole = record(&[-16, 9], &[(0, 2), (0, 4)]);
        for place in [0, 7, 14, 20, 26] {
            let start = place < 14;
            let (tag, body) = if start { (START_TAG, &[255, 255, 255, 240][..]) } else { (EVENT_TAG, &[0, 0, 4][..]) };
            let (before, behind) = (&whole[..place], &whole[whole.len().min(place + 3 + body.len())..]);
            for field in malformed(tag, body) {
                self.add(&bytes, &[before, &field].concat());
                self.add(&bytes, &[before, &field, behind].concat());
            }
            for first in (0..=255).filter(|_| place == 7 || place == 20) {
                self.add(&bytes, &[before, &[first, 0, body.len() as u8], body].concat());
            }
        }
        for length in 0..whole.len() {
            self.add(&bytes, &whole[..length]);
        }
    }

    /// Arithmetic without a result, in an assignment, a comparison and an "and", at a right and a wrong tick.
    fn faults(&mut self) {
        for bytes in without_result() {
            for first in [0, 1] {
                for (one, other) in [
                    ((0, 2), (1, 3)),
                    ((0, 4), (1, 3)),
                    ((0, 1), (1, 1)),
                    ((2, 2), (1, 3)),
                    ((1, 3), (0, 3)),
                    ((1, 1), (0, 3)),
                ] {
                    self.add(&bytes, &record(&[first, 46_341], &[one, other]));
                }
            }
        }
    }

    /// Each number of a sheet that does not read, beside records that are runs, malformed and empty.
    fn sheets(&mut self) {
        let good = sheet(0, &[], &[thread(&[], &[skip((2, 3))])]);
        let sheets = unreadable(&good);
        let run = event(0, 2);
        for sheet in &sheets {
            let records: [&[u8]; 4] = [&run, &[], &[33, 0, 3, 9, 9, 9], &[32]];
            let count = if sheet.len() > LONG_SHEET { 1 } else { records.len() };
            for record in &records[..count] {
                self.add(sheet, record);
            }
        }
        self.add(&sheets[1], &run.repeat(LONGEST / run.len() + 1));
        self.add(&good, &run);
    }

    /// Records of 65,532 to 65,537 bytes.
    fn long(&mut self) {
        // 28 + 6 * 10,918 bytes; 21 + 6 * 10,919 and one more; 35 + 6 * 10,917
        for (variables, skips, turns, tail) in [(3, 2, 5458, 0), (2, 1, 5459, 1), (4, 1, 5458, 0)] {
            let bytes = counted(variables, skips, turns);
            let run = random_run(&read(&bytes).expect("it reads"), &mut Random(3), usize::MAX);
            self.add(&bytes, &[run.bytes(), vec![EVENT_TAG; tail]].concat());
        }
        let events: Vec<(u8, u64)> = (1..=10_922).map(|at| (0, at * 65_535)).collect();
        self.add(&loops()[1], &record(&[], &events));
        // malformed at its start
        self.add(&loops()[1], &vec![0; LONGEST + 1]);
    }

    /// Random cases, not too many of one refusal.
    fn random(&mut self, seed: u64, count: usize) {
        let mut generator = Generator::new(seed);
        let (mut of, mut of_sheets) = ([0; SHARES.len()], 0);
        while of.iter().sum::<usize>() + of_sheets < count {
            let long = generator.random.below(2) == 0;
            let bytes = if long { generator.random.long_sheet() } else { generator.entry().sheet };
            let random = &mut generator.random;
            let record = match read(&bytes) {
                _ if bytes.len() > MOST_BYTES => continue,
                Err(_) => event(0, 1),
                Ok(sheet) => {
                    let most = random.pick(&[3, 8, 8, 20, MOST_EVENTS]);
                    let whole = tried(&bytes, &sheet, random, most).bytes();
                    if random.below(3) == 0 {
                        whole
                    } else {
                        random.damaged(&whole, ranges(&sheet).len())
                    }
                }
            };
            let [refusal, file, ..] = follow(&bytes, &record).numbers();
            let (kept, share) = match file {
                0 if refusal != 0 => (&mut of_sheets, SHARE_OF_SHEETS),
                _ => (&mut of[refusal], SHARES[refusal]),
            };
            if *kept * 100 < share * count && self.add(&bytes, &record) {
                *kept += 1;
            }
        }
    }
}

/// A random run that the follower takes for one, or whose last event it refuses with 10 or 16.
fn tried(bytes: &[u8], sheet: &Sheet, random: &mut Random, most: usize) -> Run {
    let run = random_run(sheet, random, most);
    assert_eq!(follow(bytes, &run.bytes()).numbers(), run.numbers(), "{bytes:?} {:?}", run.bytes());
    run
}

/// The cases chosen by hand, then so many random ones.
pub fn all(seed: u64, count: usize) -> Vec<Case> {
    let mut cases = Cases::new();
    cases.runs(&plain(), 2, 9);
    cases.runs(&locking(), 2, 11);
    cases.runs(&messages(), 3, 9);
    cases.runs(&branches(), 4, 9);
    cases.runs(&quotients(), 1, 9);
    cases.runs(&loops(), 2, 7);
    cases.starting();
    cases.fields();
    cases.faults();
    cases.sheets();
    cases.long();
    let by_hand = cases.all.len();
    cases.random(seed, count);
    eprintln!("{by_hand} cases chosen by hand, {} random", cases.all.len() - by_hand);
    cases.all
}
