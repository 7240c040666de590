//! A text byte by byte (02, ticket 2): its spaces, words and numbers, and the ends of its lines. Written from the
//! papers; sentences in quotation marks are those of the papers.

/// The place of what cannot be read: "at the first byte that cannot go on or the text's end". Whoever reads a
/// word stops at the first byte that none of the words that may stand there has.
#[derive(Clone, Copy, PartialEq, Eq, Debug)]
pub struct Unreadable(pub usize);

pub type Read<T> = Result<T, Unreadable>;

const SPACE: u8 = b' ';
const NEWLINE: u8 = b'\n';

pub struct Text<'a> {
    bytes: &'a [u8],
    place: usize,
    /// Whether a number of the line so far is too big for its field.
    too_big: bool,
}

impl<'a> Text<'a> {
    pub fn new(bytes: &'a [u8]) -> Text<'a> {
        Text { bytes, place: 0, too_big: false }
    }

    pub fn place(&self) -> usize {
        self.place
    }

    pub fn is_over(&self) -> bool {
        self.place == self.bytes.len()
    }

    pub fn stop<T>(&self) -> Read<T> {
        Err(Unreadable(self.place))
    }

    fn byte(&self) -> Option<u8> {
        self.bytes.get(self.place).copied()
    }

    /// "Spaces are free between words": the first byte behind them, None at the text's end.
    pub fn peek(&mut self) -> Option<u8> {
        while self.byte() == Some(SPACE) {
            self.place += 1;
        }
        self.byte()
    }

    /// The start of a word. A space before it is "needed only where letters or digits of two words would meet".
    fn begin(&mut self) -> Read<()> {
        let next = self.peek();
        let before = self.place.checked_sub(1).map(|place| self.bytes[place]);
        let of_words = |byte: Option<u8>| byte.is_some_and(|byte| byte.is_ascii_alphanumeric());
        if of_words(next) && of_words(before) {
            return self.stop();
        }
        Ok(())
    }

    /// Which of these words stands here. None of them begins another.
    pub fn one_of(&mut self, words: &[&str]) -> Read<usize> {
        self.begin()?;
        let start = self.place;
        loop {
            let so_far = &self.bytes[start..self.place];
            if let Some(found) = words.iter().position(|word| word.as_bytes() == so_far) {
                return Ok(found);
            }
            let Some(next) = self.byte() else { return self.stop() };
            let longer = [so_far, &[next]].concat();
            if !words.iter().any(|word| word.as_bytes().starts_with(&longer)) {
                return self.stop();
            }
            self.place += 1;
        }
    }

    pub fn word(&mut self, word: &str) -> Read<()> {
        self.one_of(&[word]).map(|_| ())
    }

    /// The number whose first digit is here. One of any length is read; a very great one counts as a great one.
    fn digits(&mut self) -> Read<i128> {
        let start = self.place;
        let mut number: u64 = 0;
        while let Some(digit @ b'0'..=b'9') = self.byte() {
            number = number.saturating_mul(10).saturating_add(u64::from(digit - b'0'));
            self.place += 1;
        }
        if self.place == start {
            return self.stop();
        }
        Ok(i128::from(number))
    }

    /// "a number too big for its field is 4, first in its line": it is noted, and 0 stands for it.
    fn fitting(&mut self, number: i128, least: i128, most: i128) -> i128 {
        if (least..=most).contains(&number) {
            return number;
        }
        self.too_big = true;
        0
    }

    /// A number without a minus, in as many bytes as its field has.
    pub fn number<const BYTES: usize>(&mut self) -> Read<[u8; BYTES]> {
        self.begin()?;
        self.rest_of_name()
    }

    /// The same where it is the rest of a word, directly behind the letter.
    pub fn rest_of_name<const BYTES: usize>(&mut self) -> Read<[u8; BYTES]> {
        let number = self.digits()?;
        let fitting = self.fitting(number, 0, (1 << (8 * BYTES)) - 1) as u64;
        let mut bytes = [0; BYTES];
        bytes.copy_from_slice(&fitting.to_be_bytes()[8 - BYTES..]);
        Ok(bytes)
    }

    /// A register, a variable or a lock, by its letter: one word, one byte.
    pub fn name(&mut self, letter: &str) -> Read<[u8; 1]> {
        self.word(letter)?;
        self.rest_of_name()
    }

    /// "A minus where an operand is due belongs to the constant after it."; the ends of `var` and `reg` have one too.
    pub fn signed(&mut self) -> Read<[u8; 4]> {
        let minus = self.peek() == Some(b'-');
        if minus {
            self.place += 1;
        }
        self.begin()?;
        let number = self.digits()?;
        let number = if minus { -number } else { number };
        Ok((self.fitting(number, i32::MIN.into(), i32::MAX.into()) as i32).to_be_bytes())
    }

    /// "Spaces are free ... at a line's ends"; "the last newline may be missing". Gives whether a number of the line
    /// is too big.
    pub fn end_of_line(&mut self) -> Read<bool> {
        match self.peek() {
            Some(NEWLINE) => self.place += 1,
            Some(_) => return self.stop(),
            None => {}
        }
        Ok(std::mem::take(&mut self.too_big))
    }
}
