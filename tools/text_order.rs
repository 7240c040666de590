//! Cases of the order of lines: left out, doubled, moved, blank, run together, and each sequence of a few kinds.

use crate::entries::Cases;
use crate::text_answer::Case;

const LINES: [&str; 12] = [
    "limit 9",
    "budget 8",
    "label 0..7",
    "locks 1",
    "var 0..1",
    "var 2..3",
    "thread",
    "reg 4..5",
    "1..2 skip",
    "halt",
    "thread",
    "halt",
];
const FRONT: &str = "limit 1\nbudget 1\nlabel 0..1\nlocks 0\n";
const KINDS: [&str; 6] = ["var 0..0\n", "thread\n", "reg 0..0\n", "1..1 skip\n", "halt\n", "\n"];

/// Each sequence of so many kinds.
fn sequences(length: usize) -> Vec<String> {
    (0..length).fold(vec![String::new()], |shorter, _| {
        shorter.iter().flat_map(|before| KINDS.map(|kind| before.clone() + kind)).collect()
    })
}

impl Cases<Case> {
    pub fn order(&mut self) {
        let joined = |lines: &[&str]| lines.iter().map(|line| line.to_string() + "\n").collect::<String>();
        for at in 0..LINES.len() {
            let (before, behind) = LINES.split_at(at);
            self.fit(joined(&[before, &behind[1..]].concat()).as_bytes());
            self.fit(joined(&[before, &behind[..1], behind].concat()).as_bytes());
            for blank in ["", " ", "   "] {
                self.fit(joined(&[before, &[blank], behind].concat()).as_bytes());
            }
            for between in ["", " ", "\r\n", " \n ", "\n\n"] {
                self.fit([joined(&LINES[..at]).trim_end(), between, &joined(behind)].concat().as_bytes());
            }
            for to in 0..at {
                let mut moved = LINES.to_vec();
                let line = moved.remove(at);
                moved.insert(to, line);
                self.fit(joined(&moved).as_bytes());
            }
        }
        self.ends();
        for length in 0..4 {
            for sequence in sequences(length) {
                self.fit((FRONT.to_string() + &sequence).as_bytes());
            }
        }
        for sequence in sequences(2) {
            self.fit((FRONT.to_string() + "thread\nhalt\n" + &sequence + "halt\n").as_bytes());
        }
    }

    /// The text's end behind each byte, and what may stand there.
    fn ends(&mut self) {
        let text = LINES.map(|line| line.to_string() + "\n").concat();
        for end in 0..=text.len() {
            self.fit(text[..end].as_bytes());
        }
        for end in
            ["", " ", "\n", "\n ", " \n", "\n\n", "\r", "\0", "\n\0", "\nx", " x", "\n#", "\t", "  \n  ", "\n\n\n"]
        {
            self.fit((text.trim_end().to_string() + end).as_bytes());
        }
        for text in
            ["\n", " ", "l", "limit", "li mit 1\n", "Limit 1\n", "\u{FEFF}limit 1\n", "limit 1\r\n", "limi", "x"]
        {
            self.fit(text.as_bytes());
        }
    }
}
