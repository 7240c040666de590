//! Random chains of steps on random sheets, from a seed.

use crate::chain_steps::{Case, Making, Name};
use crate::entries::Cases;
use crate::generator::{Generator, Random};
use crate::retime_asked::{absent, named, near, own_times, Times, EDGES, GOOD};
use crate::retime_change::Change;
use crate::sheet_reads::reads;

/// Sheets of more bytes are not taken.
const MOST_BYTES: usize = 150;
const MOST_STEPS: usize = 12;
/// Of a hundred sheets that do not read so many are taken.
const UNREAD: usize = 15;

impl Random {
    fn name(&mut self, sheet: &[u8]) -> (Name, Option<usize>) {
        let named: Vec<_> = named(sheet).into_iter().filter(|&(_, _, place)| place + 8 <= sheet.len()).collect();
        if named.is_empty() || self.chance(5) {
            return (self.pick(&absent(sheet)), None);
        }
        let (thread, statement, place) = self.pick(&named);
        ((thread, statement), Some(place))
    }

    fn times(&mut self, sheet: &[u8], place: Option<usize>) -> Times {
        let own = place.map(|place| own_times(sheet, place));
        match (self.below(10), place) {
            (0, Some(place)) => self.pick(&near(sheet, place)),
            (1, _) => self.pick(&EDGES),
            (2 | 3, _) => self.pick(&GOOD),
            (4, _) => own.unwrap_or((0, 0)),
            _ if own == Some((0, 0)) => (0, 0),
            _ => {
                let least = 1 + self.below(30) as u64;
                (least, least + self.below(9) as u64)
            }
        }
    }

    /// A change that was made, with a number that is otherwise.
    fn other(&mut self, change: Change) -> Change {
        let mut numbers = change.numbers();
        let (at, with) = (self.below(6), self.below(6));
        match self.below(4) {
            0 => numbers.swap(at, with),
            1 => numbers[at] = numbers[at].wrapping_add(1 << self.pick(&[8, 16, 32, 63])),
            2 => numbers[at] = numbers[with],
            _ => numbers[at] = numbers[at].wrapping_add_signed(self.pick(&[-1, 1])),
        }
        Change::of(numbers)
    }

    /// The last of the changes, any of them, one with another number, or none of them.
    fn taken_back(&mut self, chain: &Making) -> Change {
        let Some(&last) = chain.changes.last() else { return self.made_up(chain) };
        match self.below(20) {
            0..=6 => last,
            7..=13 => self.pick(&chain.changes),
            14..=17 => {
                let change = self.pick(&chain.changes);
                self.other(change)
            }
            _ => self.made_up(chain),
        }
    }

    /// Mostly with the times that the statement shows.
    fn made_up(&mut self, chain: &Making) -> Change {
        let ((thread, statement), place) = self.name(&chain.sheet);
        let old = self.times(&chain.sheet, place);
        let shown = place.map_or((1, 1), |place| own_times(&chain.sheet, place));
        let new = if self.chance(70) { shown } else { self.times(&chain.sheet, place) };
        Change { thread, statement, old_least: old.0, old_greatest: old.1, new_least: new.0, new_greatest: new.1 }
    }

    /// A byte of a statement's times, or any byte; of a sheet that no longer reads, the bytes that it had at
    /// first, where four suffice for it.
    fn written(&mut self, chain: Making) -> Making {
        let first = chain.case.sheet.clone();
        if reads(&chain.sheet).is_err() {
            let differs = |at: &usize| chain.sheet[*at] != first[*at];
            let at = (0..first.len()).find(differs).unwrap_or(0);
            let end = first.len().min(at + 4);
            return chain.write(at, &first[at..end]);
        }
        let (_, place) = self.name(&chain.sheet);
        let at = match place {
            Some(place) if self.chance(60) => place + 3 + self.below(5),
            _ => self.below(first.len()),
        };
        let bits = 1 << self.below(8);
        chain.turn(at, bits)
    }

    fn step(&mut self, chain: Making) -> Making {
        let unread = reads(&chain.sheet).is_err();
        match self.below(20) {
            0..=7 => {
                let (name, place) = self.name(&chain.sheet);
                let times = self.times(&chain.sheet, place);
                chain.change(name, times)
            }
            8..=17 if !unread || self.chance(50) => {
                let change = self.taken_back(&chain);
                chain.take(change)
            }
            _ if chain.sheet.is_empty() => chain,
            _ => self.written(chain),
        }
    }
}

impl Cases<Case> {
    /// So many random chains, most of them of sheets that read.
    pub fn random(&mut self, seed: u64, count: usize) {
        let mut generator = Generator::new(seed);
        let until = self.all.len() + count;
        while self.all.len() < until {
            let sheet = generator.entry().sheet;
            if sheet.len() > MOST_BYTES || (reads(&sheet).is_err() && !generator.random.chance(UNREAD)) {
                continue;
            }
            let most = [3, 6, MOST_STEPS][generator.random.below(3)];
            let count = 1 + generator.random.below(most);
            let mut chain = Making::of(&sheet);
            for _ in 0..count {
                chain = generator.random.step(chain);
            }
            if !chain.case.steps.is_empty() {
                self.put(chain.case);
            }
        }
    }
}
