//! Expressions in the printed form (02, ticket 4). Written from the papers; sentences in quotation marks are those of
//! the papers. The bytes are those of an expression that reads: others give a panic.

use crate::expression_codes::*;
use crate::print_words::{name, signed, take, unsigned};

/// How tightly a printed expression holds together, the loosest first. "Multiply and divide bind before plus and
/// minus"; "`&&` binds last"; "`!` takes the whole comparison or next `!` after it".
#[derive(Clone, Copy, PartialEq, Eq, PartialOrd, Ord)]
enum Binds {
    And,
    /// A comparison or what begins with `!`.
    Taken,
    Sum,
    Product,
    Leaf,
}
use Binds::*;

struct Phrase {
    text: String,
    binds: Binds,
}

impl Phrase {
    fn leaf(text: &str) -> Phrase {
        Phrase { text: text.to_string(), binds: Leaf }
    }

    /// Where nothing looser than this may stand bare: "parentheses only where the tree would otherwise change".
    fn at_least(self, least: Binds) -> String {
        if self.binds < least {
            return format!("({})", self.text);
        }
        self.text
    }
}

/// Two operands about an operator. "all from left to right": the left one may bind as loosely as the operator, the
/// right one must bind as `right` says.
fn joined(first: Phrase, word: &str, second: Phrase, binds: Binds, right: Binds) -> Phrase {
    let (left, right) = (first.at_least(binds), second.at_least(right));
    Phrase { text: format!("{left} {word} {right}"), binds }
}

fn arithmetic(bytes: &mut &[u8]) -> Phrase {
    let code = unsigned(take(bytes, 1)) as u8;
    let (word, binds, right) = match code {
        CONSTANT => return Phrase::leaf(&signed(take(bytes, 4))),
        REGISTER => return Phrase::leaf(&name("r", take(bytes, 1))),
        PLUS => ("+", Sum, Product),
        MINUS => ("-", Sum, Product),
        TIMES => ("*", Product, Leaf),
        DIVIDE => ("/", Product, Leaf),
        _ => panic!("no arithmetic"),
    };
    let (first, second) = (arithmetic(bytes), arithmetic(bytes));
    joined(first, word, second, binds, right)
}

fn comparison(bytes: &mut &[u8], word: &str) -> Phrase {
    let (first, second) = (arithmetic(bytes), arithmetic(bytes));
    Phrase { text: format!("{} {word} {}", first.text, second.text), binds: Taken }
}

fn condition(bytes: &mut &[u8]) -> Phrase {
    match unsigned(take(bytes, 1)) as u8 {
        TRUE => Phrase::leaf("true"),
        FALSE => Phrase::leaf("false"),
        NOT => {
            let operand = condition(bytes).at_least(Taken);
            Phrase { text: format!("!{operand}"), binds: Taken }
        }
        AND => {
            let (first, second) = (condition(bytes), condition(bytes));
            joined(first, "&&", second, And, Taken)
        }
        EQUAL => comparison(bytes, "=="),
        LESS => comparison(bytes, "<"),
        _ => panic!("no condition"),
    }
}

/// What is assigned.
pub fn value_text(mut bytes: &[u8]) -> String {
    arithmetic(&mut bytes).text
}

/// What an `if` asks.
pub fn condition_text(mut bytes: &[u8]) -> String {
    condition(&mut bytes).text
}
