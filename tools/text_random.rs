//! Random cases of a corpus of texts, from a seed: random sheets written as texts in random forms, and such texts with
//! a byte changed, put in or taken out, a number or a word otherwise, or cut off. The conversion serves to choose cases
//! of each refusal.

use crate::entries::Cases;
use crate::generator::{Generator, Random};
use crate::text_answer::{answered, Case, MAX_SHEET};
use crate::text_cases::needed;
use crate::text_print::Form;

/// Texts of more bytes are not taken.
const MOST_BYTES: usize = 400;
/// How many random cases of a refusal, 0 to 20, are kept at most, per hundred asked for.
const SHARES: [usize; 21] = [36, 0, 0, 0, 10, 9, 5, 5, 4, 0, 0, 0, 0, 0, 0, 0, 0, 0, 0, 6, 40];
/// Bytes that texts are made of, and some others.
const BYTES: &[u8] = b"  \n\n0123456789.-+*/<=!&():rxlthreadgosifmvbu\t\r\0#";
const WORDS: [&str; 20] = [
    "0",
    "1",
    "9",
    "256",
    "65536",
    "2147483648",
    "r0",
    "r7",
    "x1",
    "l8",
    "halt",
    "skip",
    "thread",
    "(",
    ")",
    "-",
    "true",
    "..",
    "!",
    "&&",
];

impl Random {
    /// The text of a sheet in some form.
    pub fn printed(&mut self, sheet: &[u8]) -> Option<Vec<u8>> {
        let [spaces, parentheses, zeros] = [(); 3].map(|()| self.pick(&[0, 0, 5, 30]));
        let mut text = Form { random: self, spaces, parentheses, zeros }.text(sheet)?;
        if self.chance(20) {
            text.pop();
        }
        Some(text)
    }

    /// The text with something otherwise.
    pub fn damaged(&mut self, mut text: Vec<u8>) -> Vec<u8> {
        if text.is_empty() {
            return text;
        }
        let at = self.below(text.len());
        match self.below(12) {
            0..=2 => text[at] = self.pick(BYTES),
            3 => text[at] = self.next() as u8,
            4 | 5 => text.insert(at, self.pick(BYTES)),
            6 | 7 => drop(text.remove(at)),
            8 => text.truncate(at),
            9 => {
                let next = (at + 1) % text.len();
                text.swap(at, next);
            }
            10 => self.line_moved(&mut text),
            _ => self.word_changed(&mut text, at),
        }
        text
    }

    /// A line doubled, removed or put elsewhere.
    fn line_moved(&mut self, text: &mut Vec<u8>) {
        let mut lines: Vec<Vec<u8>> = text.split_inclusive(|&byte| byte == b'\n').map(<[u8]>::to_vec).collect();
        let line = lines[self.below(lines.len())].clone();
        match self.below(3) {
            0 => lines.insert(self.below(lines.len() + 1), line),
            1 => drop(lines.remove(self.below(lines.len()))),
            _ => {
                let other = self.below(lines.len());
                lines[other] = line;
            }
        }
        *text = lines.concat();
    }

    /// The word about this place made another.
    fn word_changed(&mut self, text: &mut Vec<u8>, at: usize) {
        let in_word = |byte: &u8| byte.is_ascii_alphanumeric();
        let start = text[..at].iter().rposition(|byte| !in_word(byte)).map_or(0, |before| before + 1);
        let end = text[at..].iter().position(|byte| !in_word(byte)).map_or(text.len(), |length| at + length);
        let word = self.pick(&WORDS).bytes();
        drop(text.splice(start..end, word));
    }

    fn room(&mut self, needed: usize) -> usize {
        match self.below(20) {
            0 => needed.saturating_sub(1),
            1 => self.below(needed + 1),
            2..=9 => needed,
            10 => needed + self.below(60),
            _ => needed + self.below(4),
        }
    }
}

/// A random text, of a sheet that reads or does not.
pub fn text(generator: &mut Generator, most: usize) -> Vec<u8> {
    loop {
        let sheet = generator.short_sheet(most);
        if let Some(text) = generator.random.printed(&sheet) {
            return text;
        }
    }
}

impl Cases<Case> {
    /// So many random cases, not too many of one refusal.
    pub fn random(&mut self, seed: u64, count: usize) {
        let mut generator = Generator::new(seed);
        self.draw(count, &SHARES, || loop {
            let mut text = text(&mut generator, MOST_BYTES);
            let random = &mut generator.random;
            if random.chance(60) {
                text = random.damaged(text);
            }
            if text.len() > MOST_BYTES {
                continue;
            }
            let room = match needed(&text) {
                0 => random.below(40),
                bytes => random.room(bytes),
            };
            let case = Case { text, room: room.min(MAX_SHEET) };
            let refusal = answered(&case).refusal;
            return (case, refusal);
        });
    }
}
