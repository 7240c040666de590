//! Random names, sheets and files, from a seed.

#[path = "random.rs"]
mod random;

use super::{NAME, OTHER};
use crate::field::field;
pub use random::Random;

impl Random {
    pub fn name(&mut self) -> u8 {
        self.pick(&[0, NAME, NAME, OTHER, 9, 48, 49, 255])
    }

    fn sheet(&mut self) -> Vec<u8> {
        let length = if self.below(40) == 0 { 250 + self.below(20) } else { self.below(7) };
        let mut byte = || if self.below(2) == 0 { self.next() as u8 } else { self.pick(&[0, 1, NAME, 48, 49]) };
        (0..length).map(|_| byte()).collect()
    }

    /// Up to five pairs, half of the time with something changed.
    pub fn file(&mut self) -> Vec<u8> {
        let mut fields = Vec::new();
        for _ in 0..self.below(6) {
            fields.extend([field(48, &[self.name()]), field(49, &self.sheet())]);
        }
        if fields.is_empty() || self.below(2) == 0 {
            return fields.concat();
        }
        let (at, other) = (self.below(fields.len()), self.below(fields.len()));
        match self.below(8) {
            0 => drop(fields.remove(at)),
            1 => fields.insert(at, fields[other].clone()),
            2 => fields.swap(at, other),
            3 => fields[at][0] = self.pick(&[0, 47, 48, 49, 50, 176, 255]),
            4 => fields[at][2] = self.pick(&[0, 1, 2, 3, 255]),
            5 => fields[at][1] = self.pick(&[0, 1, 255]),
            6 => fields[at] = field(48, &self.sheet()),
            _ => {
                let whole = fields.concat();
                let length = self.below(whole.len());
                return whole[..length].to_vec();
            }
        }
        fields.concat()
    }
}
