//! The lines of a text (02, ticket 2), each with what it says, in the bytes that a sheet has for it. Written from the
//! papers; sentences in quotation marks are those of the papers.

use crate::text_words::{Read, Text};

pub const FIRST_TAG: u8 = 1;
pub const VARIABLE_TAG: u8 = 2;
pub const LOCKS_TAG: u8 = 3;
pub const THREAD_TAG: u8 = 4;
pub const REGISTER_TAG: u8 = 5;
pub const STATEMENT_TAG: u8 = 6;

/// Behind times, in the order of the codes from 1 on; an assignment begins with its register.
const STATEMENTS: [&str; 7] = ["skip", "r", "if", "store", "load", "unlock", "lock"];
/// "`halt` has no times": its body.
const HALT: [u8; 5] = [0; 5];

/// A line: where it starts, the tag of its field, what it adds to that field's body, and whether one of its numbers is
/// too big. `limit`, `budget` and `label` make one field; what a `thread` adds is not known before its `reg` lines are.
pub struct Line {
    pub start: usize,
    pub tag: u8,
    pub body: Vec<u8>,
    pub too_big: bool,
}

impl Text<'_> {
    /// A line that begins with this word.
    fn header(&mut self, word: &str) -> Read<Line> {
        let start = self.place();
        self.word(word)?;
        let (tag, body) = match word {
            "label" => (FIRST_TAG, self.ends(Text::number::<4>)?),
            "locks" => (LOCKS_TAG, self.number::<1>()?.to_vec()),
            _ => (FIRST_TAG, self.number::<4>()?.to_vec()),
        };
        Ok(Line { start, tag, body, too_big: self.end_of_line()? })
    }

    /// Two numbers and `..` between them.
    fn ends<const BYTES: usize>(&mut self, end: fn(&mut Self) -> Read<[u8; BYTES]>) -> Read<Vec<u8>> {
        let low = end(self)?;
        self.word("..")?;
        Ok([low, end(self)?].concat())
    }

    /// The line behind one of this tag: "then `var` lines, then each `thread` followed by its `reg` lines", and one
    /// statement or more.
    fn next_line(&mut self, before: u8) -> Read<Line> {
        let start = self.place();
        let words = match before {
            LOCKS_TAG | VARIABLE_TAG => &["var", "thread"][..],
            THREAD_TAG | REGISTER_TAG => &["reg", "halt"],
            _ => &["thread", "halt"],
        };
        let has_times = words.contains(&"halt") && self.peek().is_some_and(|byte| byte.is_ascii_digit());
        let (tag, body) = match has_times {
            true => (STATEMENT_TAG, self.statement()?),
            false => match words[self.one_of(words)?] {
                "var" => (VARIABLE_TAG, self.ends(Text::signed)?),
                "reg" => (REGISTER_TAG, self.ends(Text::signed)?),
                "thread" => (THREAD_TAG, Vec::new()),
                _ => (STATEMENT_TAG, HALT.to_vec()),
            },
        };
        Ok(Line { start, tag, body, too_big: self.end_of_line()? })
    }

    /// "its times as `2..3`, then ..."
    fn statement(&mut self) -> Read<Vec<u8>> {
        let times = self.ends(Text::number::<2>)?;
        let which = self.one_of(&STATEMENTS)?;
        let operands = match STATEMENTS[which] {
            "r" => {
                let register = self.rest_of_name::<1>()?;
                self.word(":=")?;
                [register.to_vec(), self.arithmetic(0)?].concat()
            }
            "if" => {
                let condition = self.condition(0)?;
                self.word("goto")?;
                [self.number::<1>()?.to_vec(), condition].concat()
            }
            "store" => self.register_and_variable("to")?,
            "load" => self.register_and_variable("from")?,
            "unlock" | "lock" => self.name("l")?.to_vec(),
            _ => Vec::new(),
        };
        Ok([times, vec![which as u8 + 1], operands].concat())
    }

    fn register_and_variable(&mut self, between: &str) -> Read<Vec<u8>> {
        let register = self.name("r")?;
        self.word(between)?;
        Ok([register, self.name("x")?].concat())
    }
}

/// The lines of a text that can be read.
pub fn lines(text: &[u8]) -> Read<Vec<Line>> {
    let mut text = Text::new(text);
    let mut lines = Vec::new();
    for word in ["limit", "budget", "label", "locks"] {
        lines.push(text.header(word)?);
    }
    let mut before = LOCKS_TAG;
    while before != STATEMENT_TAG || !text.is_over() {
        let line = text.next_line(before)?;
        before = line.tag;
        lines.push(line);
    }
    Ok(lines)
}
