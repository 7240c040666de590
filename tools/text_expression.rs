//! The expressions of a text, read into the bytes that a sheet has for them, operator first (02, ticket 2; 01, "The
//! sheet"). Written from the papers; sentences in quotation marks are those of the papers.

use crate::expression_codes::*;
use crate::text_words::{Read, Text};

/// "a parenthesis 33 deep included"
const DEEPEST: usize = 32;

/// What a parenthesis holds where either may stand.
enum Part {
    Arithmetic(Vec<u8>),
    Condition(Vec<u8>),
}
use Part::*;

/// Operands joined "from left to right": the last operator stands first.
struct Chain {
    codes: Vec<u8>,
    operands: Vec<u8>,
}

impl Chain {
    fn of(first: Vec<u8>) -> Chain {
        Chain { codes: Vec::new(), operands: first }
    }

    fn join(&mut self, code: u8, operand: Vec<u8>) {
        self.codes.push(code);
        self.operands.extend(operand);
    }

    fn bytes(mut self) -> Vec<u8> {
        self.codes.reverse();
        [self.codes, self.operands].concat()
    }
}

/// `open` is how many parentheses are open here.
impl Text<'_> {
    pub fn arithmetic(&mut self, open: usize) -> Read<Vec<u8>> {
        let first = self.operand(open)?;
        self.sum(first, open)
    }

    /// "Multiply and divide bind before plus and minus, all from left to right": a sum whose first operand is read.
    fn sum(&mut self, first: Vec<u8>, open: usize) -> Read<Vec<u8>> {
        let mut chain = Chain::of(self.product(first, open)?);
        while let Some(sign @ (b'+' | b'-')) = self.peek() {
            self.one_of(&["+", "-"])?;
            let operand = self.operand(open)?;
            chain.join(if sign == b'+' { PLUS } else { MINUS }, self.product(operand, open)?);
        }
        Ok(chain.bytes())
    }

    fn product(&mut self, first: Vec<u8>, open: usize) -> Read<Vec<u8>> {
        let mut chain = Chain::of(first);
        while let Some(sign @ (b'*' | b'/')) = self.peek() {
            self.one_of(&["*", "/"])?;
            chain.join(if sign == b'*' { TIMES } else { DIVIDE }, self.operand(open)?);
        }
        Ok(chain.bytes())
    }

    fn operand(&mut self, open: usize) -> Read<Vec<u8>> {
        match self.peek() {
            Some(b'(') => self.parenthesis(open, Text::arithmetic),
            Some(b'r') => Ok([[REGISTER], self.name("r")?].concat()),
            _ => Ok([&[CONSTANT], &self.signed()?[..]].concat()),
        }
    }

    /// A parenthesis and what it holds.
    fn parenthesis<T>(&mut self, open: usize, inner: fn(&mut Self, usize) -> Read<T>) -> Read<T> {
        if open == DEEPEST {
            return self.stop();
        }
        self.word("(")?;
        let held = inner(self, open + 1)?;
        self.word(")")?;
        Ok(held)
    }

    pub fn condition(&mut self, open: usize) -> Read<Vec<u8>> {
        let first = self.negation(open)?;
        self.conjunction(first, open)
    }

    /// "`&&` binds last, from the left": an and whose first part is read.
    fn conjunction(&mut self, first: Vec<u8>, open: usize) -> Read<Vec<u8>> {
        let mut chain = Chain::of(first);
        while self.peek() == Some(b'&') {
            self.word("&&")?;
            chain.join(AND, self.negation(open)?);
        }
        Ok(chain.bytes())
    }

    /// "`!` takes the whole comparison or next `!` after it"
    fn negation(&mut self, open: usize) -> Read<Vec<u8>> {
        let mut bytes = Vec::new();
        while self.peek() == Some(b'!') {
            self.word("!")?;
            bytes.push(NOT);
        }
        let taken = match self.peek() {
            Some(b't' | b'f') => vec![[TRUE, FALSE][self.one_of(&["true", "false"])?]],
            _ => match self.operand_or_condition(open)? {
                Condition(bytes) => bytes,
                Arithmetic(first) => {
                    let left = self.sum(first, open)?;
                    self.comparison(left, open)?
                }
            },
        };
        bytes.extend(taken);
        Ok(bytes)
    }

    /// A comparison whose left side is read.
    fn comparison(&mut self, left: Vec<u8>, open: usize) -> Read<Vec<u8>> {
        let code = [EQUAL, LESS][self.one_of(&["==", "<"])?];
        Ok([vec![code], left, self.arithmetic(open)?].concat())
    }

    /// The first operand of a comparison, or a condition in a parenthesis.
    fn operand_or_condition(&mut self, open: usize) -> Read<Part> {
        match self.peek() {
            Some(b'(') => self.parenthesis(open, Text::either),
            _ => self.operand(open).map(Arithmetic),
        }
    }

    /// What a parenthesis holds whose kind is told by its contents.
    fn either(&mut self, open: usize) -> Read<Part> {
        if let Some(b'!' | b't' | b'f') = self.peek() {
            return self.condition(open).map(Condition);
        }
        let first = match self.operand_or_condition(open)? {
            Condition(first) => first,
            Arithmetic(first) => {
                let sum = self.sum(first, open)?;
                if !matches!(self.peek(), Some(b'=' | b'<')) {
                    return Ok(Arithmetic(sum));
                }
                self.comparison(sum, open)?
            }
        };
        self.conjunction(first, open).map(Condition)
    }
}
