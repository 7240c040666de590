//! The commands that texts.rs and prints.rs have for a corpus that is made: planting, and what is printed of it.

use crate::command_line::{contents, fail, write};
use crate::entries::{self, Entry};

/// What a program does with the entries of its corpus.
pub struct Commands<E> {
    /// What the corpus is of.
    pub of: &'static str,
    pub planted: fn(&[E]) -> Option<Vec<u8>>,
    pub expected: fn(&[E]) -> String,
    pub histogram: fn(&[E]),
    pub list: fn(&[E]),
}

impl<E: Entry> Commands<E> {
    fn read(&self, file: &str) -> Vec<E> {
        entries::read(&contents(file)).unwrap_or_else(|| fail(&format!("{file}: not a corpus of {}", self.of)))
    }

    /// Does what these words ask for, or ends with the usage if they are none of the commands.
    pub fn run(&self, words: &[&str], usage: &str) {
        let &[command, file] = words else { fail(usage) };
        match command {
            "plant" => {
                write(&(self.planted)(&self.read(file)).unwrap_or_else(|| fail("too few entries to plant among")))
            }
            "expected" => write((self.expected)(&self.read(file)).as_bytes()),
            "histogram" => (self.histogram)(&self.read(file)),
            "list" => (self.list)(&self.read(file)),
            "corpus" => entries::compare(&self.read(file)),
            _ => fail(usage),
        }
    }
}
