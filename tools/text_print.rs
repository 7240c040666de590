//! Texts of sheets (02, ticket 2), in any of the forms that the notation leaves: with spaces, needless parentheses and
//! leading zeros at random, or with none of them. A sheet need not read: names, times, targets and counts may be wrong,
//! as long as its fields are of a form that a text can say.

use crate::generator::{fields, Random};

const OPERATORS: [&str; 4] = ["+", "-", "*", "/"];
/// In the order of the codes; an assignment begins with its register.
const WORDS: [&str; 8] = ["halt", "skip", "", "if", "store", "load", "unlock", "lock"];

/// How a text is written: chances out of a hundred.
pub struct Form<'a> {
    pub random: &'a mut Random,
    /// Of a space more before or behind a word.
    pub spaces: usize,
    /// Of a parenthesis that is not needed.
    pub parentheses: usize,
    /// Of a leading zero.
    pub zeros: usize,
}

/// The words of an expression, and how tightly it binds: 4 a leaf, 3 a product, a comparison or a negation, 2 a
/// sum, 1 an and.
type Phrase = (Vec<String>, u8);

/// An expression's bytes still to be printed.
struct Rest<'a>(&'a [u8]);

impl<'a> Rest<'a> {
    fn take(&mut self, count: usize) -> Option<&'a [u8]> {
        let taken = self.0.get(..count)?;
        self.0 = &self.0[count..];
        Some(taken)
    }
}

fn number(bytes: &[u8]) -> u64 {
    bytes.iter().fold(0, |number, &byte| number << 8 | u64::from(byte))
}

impl Form<'_> {
    fn digits(&mut self, number: u64) -> String {
        let zeros = if self.random.chance(self.zeros) { self.random.between(1, 3) } else { 0 };
        format!("{}{number}", "0".repeat(zeros))
    }

    fn signed(&mut self, bytes: &[u8]) -> Vec<String> {
        let value = number(bytes) as u32 as i32;
        let minus = value < 0 || value == 0 && self.random.chance(self.zeros);
        let digits = self.digits(u64::from(value.unsigned_abs()));
        if minus {
            vec![String::from("-"), digits]
        } else {
            vec![digits]
        }
    }

    fn name(&mut self, letter: char, name: u8) -> String {
        format!("{letter}{}", self.digits(name.into()))
    }

    fn enclosed((words, _): Phrase) -> Phrase {
        ([vec![String::from("(")], words, vec![String::from(")")]].concat(), 4)
    }

    /// In a parenthesis if it binds less tightly than it must, or by chance.
    fn part(&mut self, phrase: Phrase, least: u8) -> Vec<String> {
        let mut phrase = if phrase.1 < least { Self::enclosed(phrase) } else { phrase };
        while self.random.chance(self.parentheses) {
            phrase = Self::enclosed(phrase);
        }
        phrase.0
    }

    fn arithmetic(&mut self, rest: &mut Rest) -> Option<Phrase> {
        let code = rest.take(1)?[0];
        Some(match code {
            16 => (self.signed(rest.take(4)?), 4),
            17 => (vec![self.name('r', rest.take(1)?[0])], 4),
            18..=21 => {
                let binds = if code < 20 { 2 } else { 3 };
                let (left, right) = (self.arithmetic(rest)?, self.arithmetic(rest)?);
                let (left, right) = (self.part(left, binds), self.part(right, binds + 1));
                ([left, vec![OPERATORS[usize::from(code) - 18].into()], right].concat(), binds)
            }
            _ => return None,
        })
    }

    fn condition(&mut self, rest: &mut Rest) -> Option<Phrase> {
        let code = rest.take(1)?[0];
        let join = |left, word: &str, right| [left, vec![word.to_string()], right].concat();
        Some(match code {
            32 | 33 => (vec![["true", "false"][usize::from(code) - 32].to_string()], 4),
            34 => {
                let operand = self.condition(rest)?;
                ([vec![String::from("!")], self.part(operand, 3)].concat(), 3)
            }
            35 => {
                let (left, right) = (self.condition(rest)?, self.condition(rest)?);
                (join(self.part(left, 1), "&&", self.part(right, 3)), 1)
            }
            36 | 37 => {
                let (left, right) = (self.arithmetic(rest)?, self.arithmetic(rest)?);
                let word = if code == 36 { "==" } else { "<" };
                (join(self.part(left, 1), word, self.part(right, 1)), 3)
            }
            _ => return None,
        })
    }

    /// The words behind a statement's times.
    fn action(&mut self, body: &[u8]) -> Option<Vec<String>> {
        let (code, operands) = (body[4], &body[5..]);
        let mut words = vec![WORDS.get(usize::from(code))?.to_string()];
        let mut rest = Rest(operands.get(1..).unwrap_or(&[]));
        match (code, operands) {
            (0 | 1, []) => return Some(words),
            (2, [register, ..]) => {
                let value = self.arithmetic(&mut rest)?;
                words = vec![self.name('r', *register), String::from(":=")];
                words.extend(self.part(value, 1));
            }
            (3, [target, ..]) => {
                let condition = self.condition(&mut rest)?;
                words.extend(self.part(condition, 1));
                words.extend([String::from("goto"), self.digits((*target).into())]);
            }
            (4 | 5, [register, variable]) => {
                let between = if code == 4 { "to" } else { "from" };
                words.extend([self.name('r', *register), between.to_string(), self.name('x', *variable)]);
                return Some(words);
            }
            (6 | 7, [lock]) => {
                words.push(self.name('l', *lock));
                return Some(words);
            }
            _ => return None,
        }
        rest.0.is_empty().then_some(words)
    }

    fn ends(&mut self, bytes: &[u8]) -> Vec<String> {
        let (low, high) = bytes.split_at(bytes.len() / 2);
        [vec![self.digits(number(low))], vec![String::from("..")], vec![self.digits(number(high))]].concat()
    }

    fn range(&mut self, word: &str, body: &[u8]) -> Vec<String> {
        let (low, high) = body.split_at(4);
        [vec![word.to_string()], self.signed(low), vec![String::from("..")], self.signed(high)].concat()
    }

    /// The lines of a field, each as its words.
    fn lines(&mut self, tag: u8, body: &[u8]) -> Option<Vec<Vec<String>>> {
        let headed = |word: &str, words: Vec<String>| [vec![word.to_string()], words].concat();
        Some(match (tag, body.len()) {
            (1, 16) => vec![
                headed("limit", vec![self.digits(number(&body[..4]))]),
                headed("budget", vec![self.digits(number(&body[4..8]))]),
                headed("label", self.ends(&body[8..])),
            ],
            (2, 8) => vec![self.range("var", body)],
            (3, 1) => vec![headed("locks", vec![self.digits(body[0].into())])],
            (4, 1) => vec![headed("thread", vec![])],
            (5, 8) => vec![self.range("reg", body)],
            // "`halt` has no times": others than 0 and 0 cannot be said
            (6, 5) if body[4] == 0 => {
                if body[..4] == [0; 4] {
                    vec![headed("halt", vec![])]
                } else {
                    return None;
                }
            }
            (6, 5..) => vec![[self.ends(&body[..4]), self.action(body)?].concat()],
            _ => return None,
        })
    }

    fn gap(&mut self) -> String {
        let more = if self.random.chance(self.spaces) { self.random.between(1, 3) } else { 0 };
        " ".repeat(more)
    }

    /// Words with spaces between them where they are needed, and by chance.
    pub fn line(&mut self, words: &[String]) -> String {
        let mut line = self.gap();
        for word in words {
            let of_words = |byte: Option<&u8>| byte.is_some_and(u8::is_ascii_alphanumeric);
            let meet = of_words(line.as_bytes().last()) && of_words(word.as_bytes().first());
            line += &(if meet { " " } else { "" }.to_string() + &self.gap() + word);
        }
        line + &self.gap()
    }

    /// The text of a sheet whose fields are whole and of the forms that a text can say, if they are.
    pub fn text(&mut self, sheet: &[u8]) -> Option<Vec<u8>> {
        let mut text = String::new();
        let mut end = 0;
        for place in fields(sheet) {
            let body = sheet.get(place + 3..place + 3 + number(&sheet[place + 1..place + 3]) as usize)?;
            for words in self.lines(sheet[place], body)? {
                text += &(self.line(&words) + "\n");
            }
            end = place + 3 + body.len();
        }
        (end == sheet.len()).then_some(text.into_bytes())
    }
}

/// The same with nothing that is not needed.
pub fn plain(sheet: &[u8]) -> Option<Vec<u8>> {
    Form { random: &mut Random(0), spaces: 0, parentheses: 0, zeros: 0 }.text(sheet)
}
