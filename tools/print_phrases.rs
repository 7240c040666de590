//! Cases of expressions: every way in which a few operators may stand in each other, nesting up to twelve deep, negative
//! constants on either side.

use crate::entries::Cases;
use crate::print_answer::Case;
use crate::print_cases::of_statements;
use crate::sheet_parts::*;

const OPERATORS: [u8; 4] = [18, 19, 20, 21];
const COMPARISONS: [u8; 2] = [36, 37];
/// Stand for a leaf and for an operator of two operands.
const LEAF: u8 = 0;
const OPERATOR: u8 = 2;
const NOT: u8 = 34;
const AND: u8 = 35;

/// Every expression of so many parts, operator first: a leaf, two expressions joined, and, if there is one, something
/// before an expression.
pub fn shapes(parts: usize, before: Option<u8>, join: u8) -> Vec<Vec<u8>> {
    if parts == 1 {
        return vec![vec![LEAF]];
    }
    let mut all = Vec::new();
    if let Some(code) = before {
        all.extend(shapes(parts - 1, before, join).into_iter().map(|rest| [vec![code], rest].concat()));
    }
    for left in 1..parts - 1 {
        for first in shapes(left, before, join) {
            for second in shapes(parts - 1 - left, before, join) {
                all.push(both(join, first.clone(), second));
            }
        }
    }
    all
}

/// A shape with these operators, in order, and these leaves, over and over from the nth on.
fn filled(shape: &[u8], operators: &[u8], leaves: &[Vec<u8>], nth: usize) -> Vec<u8> {
    let (mut operators, mut leaves) = (operators.iter(), leaves.iter().cycle().skip(nth));
    let part = |&code: &u8| match code {
        LEAF => leaves.next().expect("leaves have no end").clone(),
        OPERATOR => vec![*operators.next().expect("an operator for each")],
        other => vec![other],
    };
    shape.iter().flat_map(part).collect()
}

/// The lowest value stands among them, and a minus on either side.
pub fn operands() -> Vec<Vec<u8>> {
    vec![register(0), constant(-5), constant(7), register(1), constant(i32::MIN), constant(0), constant(-1)]
}

/// Leaves of conditions, comparisons among them.
fn simple() -> Vec<Vec<u8>> {
    let negative = both(36, constant(-1), register(1));
    vec![vec![32], below(0, 5), vec![33], negative, below(1, -5)]
}

fn assigned(value: &[u8]) -> Vec<u8> {
    assign((1, 1), 0, value)
}

fn asked(condition: &[u8]) -> Vec<u8> {
    jump((1, 1), 0, condition)
}

/// So many operators in a row, the further ones in the right operand where `right` says so of the nth.
fn chain(code: impl Fn(usize) -> u8, count: usize, leaf: &[u8], right: impl Fn(usize) -> bool) -> Vec<u8> {
    (0..count).fold(leaf.to_vec(), |inner, nth| match right(nth) {
        true => both(code(nth), leaf.to_vec(), inner),
        false => both(code(nth), inner, leaf.to_vec()),
    })
}

/// The ways to the further operators of a chain: left, right, in turn.
const WAYS: [fn(usize) -> bool; 4] = [|_| false, |_| true, |nth| nth % 2 == 0, |nth| nth % 3 == 0];

impl Cases<Case> {
    fn assigned(&mut self, value: &[u8]) {
        self.fit(&of_statements(&[assigned(value)]));
    }

    fn asked(&mut self, condition: &[u8]) {
        self.fit(&of_statements(&[asked(condition)]));
    }

    pub fn arithmetic(&mut self) {
        let leaves = operands();
        for first in OPERATORS {
            leaves.iter().for_each(|leaf| {
                self.assigned(&both(first, leaf.clone(), register(0)));
                self.assigned(&both(first, register(0), leaf.clone()));
            });
            for second in OPERATORS {
                for (nth, shape) in shapes(5, None, OPERATOR).iter().enumerate() {
                    (0..3).for_each(|turn| self.assigned(&filled(shape, &[first, second], &leaves, 2 * turn + nth)));
                }
                for third in OPERATORS {
                    let of = |shape: &Vec<u8>| assigned(&filled(shape, &[first, second, third], &leaves, first.into()));
                    self.fit(&of_statements(&shapes(7, None, OPERATOR).iter().map(of).collect::<Vec<_>>()));
                }
            }
        }
        self.four_operators();
        self.deep_arithmetic();
    }

    /// Every shape with sums and products in every order.
    fn four_operators(&mut self) {
        for bits in 0..16 {
            let operator = |at: usize| [[18, 19], [20, 21]][bits >> at & 1][at % 2];
            let operators = [0, 1, 2, 3].map(operator);
            let of = |shape: &Vec<u8>| assigned(&filled(shape, &operators, &operands(), bits));
            self.fit(&of_statements(&shapes(9, None, OPERATOR).iter().map(of).collect::<Vec<_>>()));
        }
    }

    /// Twelve deep is read, thirteen is not.
    fn deep_arithmetic(&mut self) {
        for right in WAYS {
            for count in [2, 10, 11, 12] {
                for code in OPERATORS {
                    self.assigned(&chain(|_| code, count, &register(1), right));
                }
                self.assigned(&chain(|nth| OPERATORS[nth % 4], count, &constant(-12), right));
                self.assigned(&chain(|nth| OPERATORS[nth / 2 % 4], count, &constant(i32::MIN), right));
            }
            for code in COMPARISONS {
                let deep = chain(|nth| OPERATORS[nth % 4], 10, &register(0), right);
                self.asked(&both(code, deep.clone(), register(1)));
                self.asked(&both(code, constant(-3), deep));
            }
        }
    }

    pub fn conditions(&mut self) {
        let leaves = simple();
        for parts in 1..8 {
            for (nth, shape) in shapes(parts, Some(NOT), AND).iter().enumerate() {
                // the longer ones are many
                let turns = if parts < 6 { leaves.len() } else { 2 };
                (0..turns).for_each(|turn| self.asked(&filled(shape, &[], &leaves, nth + turn)));
            }
        }
        self.comparisons();
        self.deep_conditions();
    }

    /// Arithmetic on either side of a comparison, alone, behind a `!` and beside a `&&`.
    fn comparisons(&mut self) {
        for code in COMPARISONS {
            for operator in OPERATORS {
                let one = |nth| filled(&[OPERATOR, LEAF, LEAF], &[operator], &operands(), nth);
                let [left, right, all] =
                    [(one(0), register(1)), (constant(-2), one(1)), (one(2), one(3))].map(|(a, b)| both(code, a, b));
                self.asked(&both(AND, left.clone(), right.clone()));
                self.asked(&both(AND, all.clone(), not(left.clone())));
                for condition in [left, right, all] {
                    self.asked(&condition);
                    self.asked(&not(condition.clone()));
                    self.asked(&not(not(condition)));
                }
            }
        }
    }

    fn deep_conditions(&mut self) {
        for count in [9, 10, 11, 12] {
            for (leaf, more) in simple().iter().zip([0, 1, 0, 1, 1]) {
                let count = count - more;
                self.asked(&[vec![NOT; count], leaf.clone()].concat());
                WAYS.into_iter().for_each(|right| self.asked(&chain(|_| AND, count, leaf, right)));
                let mixed =
                    |nth: usize, inner: Vec<u8>| if nth % 2 == 0 { both(AND, leaf.clone(), inner) } else { not(inner) };
                self.asked(&(0..count).fold(leaf.clone(), |inner, nth| mixed(nth, inner)));
                self.asked(&(0..count).fold(leaf.clone(), |inner, nth| mixed(nth + 1, inner)));
            }
        }
    }
}
