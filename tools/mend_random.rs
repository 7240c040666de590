//! Random cases of a corpus of mends, from a seed: random sheets, garbled and damaged at random. The mend
//! serves to choose cases of each refusal.

use crate::entries::Cases;
use crate::generator::{Generator, Random};
use crate::mend_answer::{answered, Case};
use crate::mend_cases::needed;
use crate::mend_garbled::{closing_halts, crossable, garbled};

/// Sheets of more bytes are not taken.
const MOST_BYTES: usize = 200;
/// How many random cases of a refusal, 0 to 19, are kept at most, per hundred asked for.
const SHARES: [usize; 20] = [40, 8, 9, 7, 9, 8, 5, 0, 4, 0, 0, 0, 0, 0, 0, 0, 0, 0, 0, 10];

impl Random {
    /// Each field's ends exchanged and each closing halt dropped with one of these chances.
    fn garble(&mut self, sheet: &[u8]) -> Vec<u8> {
        let (ends, halts) = (self.pick(&[0, 20, 50, 100]), self.pick(&[0, 30, 60, 100]));
        let crossed: Vec<usize> = crossable(sheet).into_iter().filter(|_| self.chance(ends)).collect();
        let dropped: Vec<usize> = closing_halts(sheet).into_iter().filter(|_| self.chance(halts)).collect();
        garbled(sheet, &crossed, &dropped)
    }

    /// The sheet garbled, and now and then damaged.
    pub fn garbled_and_damaged(&mut self, sheet: &[u8]) -> Vec<u8> {
        let garbled = self.garble(sheet);
        if self.chance(40) {
            return self.damage(garbled);
        }
        garbled
    }

    /// About what is needed.
    fn lent(&mut self, needed: usize) -> usize {
        match self.below(20) {
            0 => needed.saturating_sub(1),
            1 => self.below(needed + 1),
            2..=8 => needed,
            9 => needed + self.below(40),
            _ => needed + self.below(4),
        }
    }
}

impl Cases<Case> {
    /// So many random cases, not too many of one refusal.
    pub fn random(&mut self, seed: u64, count: usize) {
        let mut generator = Generator::new(seed);
        self.draw(count, &SHARES, || {
            let sheet = generator.short_sheet(MOST_BYTES);
            let random = &mut generator.random;
            let sheet = random.garbled_and_damaged(&sheet);
            let (bytes, numbers) = needed(&sheet);
            let case = Case { sheet, room: random.lent(bytes), numbers: random.lent(numbers) };
            let refusal = answered(&case).refusal;
            (case, refusal)
        });
    }
}
