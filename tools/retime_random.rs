//! Random cases of a corpus of new times, from a seed. The preview serves to choose cases of each refusal.

use crate::entries::Cases;
use crate::generator::{answer, Entry, Generator, Random};
use crate::retime_asked::{absent, asked, named, near, own_times, EDGES, GOOD};
use crate::retime_change::{change, code_at, preview, Asked, HALT};
use crate::retime_corpus::Case;
use crate::sheet_reads::reads;

/// Sheets of more bytes, and searches of more steps, are not taken.
const MOST_BYTES: usize = 170;
const MOST_STEPS: u64 = 400;
/// Numbers of a work buffer at most.
const MOST_WORK: usize = 12_000;
/// How many random cases of a preview's refusal, 0 to 19, are kept at most, per hundred asked for.
const SHARES: [usize; 20] = [26, 3, 3, 2, 11, 7, 2, 2, 2, 0, 7, 6, 8, 8, 8, 10, 7, 0, 0, 7];

impl Random {
    /// Times for the statement at this place.
    fn times(&mut self, sheet: &[u8], place: usize) -> (u64, u64) {
        let halt = code_at(sheet, place) == Some(HALT);
        let number = |random: &mut Random, most: u64| 1 + random.next() % most;
        match self.below(8) {
            _ if halt && self.chance(50) => (0, 0),
            0 => self.pick(&near(sheet, place)),
            1 => self.pick(&GOOD),
            2 => self.pick(&EDGES),
            3 => (number(self, 65_535), number(self, 65_535)),
            most => {
                let least = number(self, [9, 9, 30, 300][most - 4]);
                (least, least + self.below(5) as u64)
            }
        }
    }

    /// A statement of the sheet, or now and then none of it.
    fn asked(&mut self, sheet: &[u8]) -> Asked {
        let named: Vec<_> = named(sheet).into_iter().filter(|&(_, _, place)| place + 8 <= sheet.len()).collect();
        if named.is_empty() || self.chance(8) {
            let (thread, statement) = self.pick(&absent(sheet));
            let times = if self.chance(50) { self.pick(&GOOD) } else { self.pick(&EDGES) };
            return asked(thread, statement, times);
        }
        let (thread, statement, place) = self.pick(&named);
        asked(thread, statement, self.times(sheet, place))
    }

    fn copy(&mut self, length: usize) -> usize {
        match self.below(12) {
            0 => length.saturating_sub(1),
            1 => self.below(length + 1),
            2 => length + 1,
            3 => length + self.below(200),
            _ => length,
        }
    }
}

/// The preview's refusal, or None if its search takes too many steps.
fn refusal(case: &Case) -> Option<u8> {
    let mut changed = case.sheet.clone();
    if change(&mut changed, case.asked).is_ok() && answer(&changed, case.work)?.steps > MOST_STEPS {
        return None;
    }
    Some(preview(&case.sheet, case.copy, case.work, case.asked).refusal)
}

impl Cases<Case> {
    /// Each statement of so many sheets that read with three times, the first with its own too.
    pub fn generated(&mut self, seed: u64, count: usize) {
        let mut generator = Generator::new(seed);
        let mut sheets = 0;
        while sheets < count {
            let Entry { sheet, length } = generator.entry();
            let named = named(&sheet);
            if sheet.len() > MOST_BYTES || named.len() < 3 || reads(&sheet).is_err() {
                continue;
            }
            sheets += 1;
            for (thread, statement, place) in named {
                let mut times = vec![own_times(&sheet, place)];
                times.extend([(); 3].map(|()| generator.random.times(&sheet, place)));
                for &times in &times[usize::from(statement > 0)..] {
                    let asked = asked(thread, statement, times);
                    let case = Case { sheet: sheet.clone(), asked, copy: sheet.len(), work: length.min(MOST_WORK) };
                    if refusal(&case).is_some() {
                        self.put(case);
                    }
                }
            }
        }
    }

    /// So many random cases, not too many of one refusal.
    pub fn random(&mut self, seed: u64, count: usize) {
        let mut generator = Generator::new(seed);
        let mut of = [0; SHARES.len()];
        while of.iter().sum::<usize>() < count {
            let Entry { sheet, length } = generator.entry();
            if sheet.len() > MOST_BYTES {
                continue;
            }
            let asked = generator.random.asked(&sheet);
            let copy = generator.random.copy(sheet.len());
            let case = Case { sheet, asked, copy, work: length.min(MOST_WORK) };
            let Some(refusal) = refusal(&case).map(usize::from) else { continue };
            if of[refusal] * 100 < SHARES[refusal] * count && self.put(case) {
                of[refusal] += 1;
            }
        }
    }
}
