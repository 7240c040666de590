//! Random cases of a corpus of printed sheets, from a seed: sheets of generator.rs, some of them damaged, and sheets of
//! random expressions. The printer serves to choose cases of each refusal.

use crate::entries::Cases;
use crate::generator::{Generator, Random};
use crate::print_answer::{answered, needed, Case};
use crate::print_cases::of_statements;
use crate::print_phrases::operands;
use crate::sheet_parts::*;

/// Sheets of more bytes are not taken.
const MOST_BYTES: usize = 260;
/// How many random cases of a refusal, 0 to 19, are kept at most, per hundred asked for.
const SHARES: [usize; 20] = [50, 8, 8, 7, 8, 8, 7, 4, 3, 0, 0, 0, 0, 0, 0, 0, 0, 0, 0, 10];

impl Random {
    /// An expression that is at most so deep.
    fn value(&mut self, depth: usize) -> Vec<u8> {
        if depth < 2 || self.chance(25) {
            let some = operands();
            return match self.chance(50) {
                true => some[self.below(some.len())].clone(),
                false => constant(self.next() as i32 >> self.below(32)),
            };
        }
        both(self.pick(&[18, 19, 20, 21]), self.value(depth - 1), self.value(depth - 1))
    }

    fn asked(&mut self, depth: usize) -> Vec<u8> {
        if depth < 2 || self.chance(10) {
            return vec![self.pick(&[32, 33])];
        }
        match self.below(6) {
            0 | 1 => not(self.asked(depth - 1)),
            2 | 3 => both(35, self.asked(depth - 1), self.asked(depth - 1)),
            _ => both(self.pick(&[36, 37]), self.value((depth - 1).min(4)), self.value((depth - 1).min(4))),
        }
    }

    /// An assignment or an if with a random expression, or both.
    fn of_expressions(&mut self) -> Vec<u8> {
        let (depth, both) = (self.between(3, 7), self.chance(20));
        let mut statements = Vec::new();
        if both || self.chance(50) {
            statements.push(assign((1, self.pick(&[1, 10, 65_535])), 1, &self.value(depth - 1)));
        }
        if both || statements.is_empty() {
            statements.push(jump((3, 30), 0, &self.asked(depth)));
        }
        of_statements(&statements)
    }

    /// A sheet of either kind, and now and then damaged.
    pub fn printable(generator: &mut Generator) -> Vec<u8> {
        let sheet = match generator.random.chance(40) {
            true => generator.random.of_expressions(),
            false => generator.short_sheet(MOST_BYTES),
        };
        match generator.random.chance(35) {
            true => generator.random.damage(sheet),
            false => sheet,
        }
    }
}

impl Cases<Case> {
    /// So many random cases, not too many of one refusal.
    pub fn random(&mut self, seed: u64, count: usize) {
        let mut generator = Generator::new(seed);
        self.draw(count, &SHARES, || {
            let sheet = Random::printable(&mut generator);
            let (needed, random) = (needed(&sheet), &mut generator.random);
            let shorter = [needed.saturating_sub(1), random.below(needed + 1)];
            let longer = [0, 1, 3, 8, 0, 2, 40, 300].map(|more| needed + more);
            let rooms = if random.chance(12) { &shorter[..] } else { &longer };
            let case = Case { sheet, room: random.pick(rooms) };
            let refusal = answered(&case).told.refusal;
            (case, refusal)
        });
    }
}
