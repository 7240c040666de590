//! The rule for runs on single values (01, "A timed run", with 02's tickets 1 and 5), and the
//! arithmetic that it needs. Written from the papers; sentences in quotation marks are theirs.

use crate::record_follow::{NO_READING, OFF_THE_SCALE};
use crate::record_sheet::{signed, Sheet, Statement, HALT, LOCK};

// ---- arithmetic

/// The next bytes of an expression; the rest begins behind them.
fn taken<'a>(rest: &mut &'a [u8], count: usize) -> &'a [u8] {
    let (taken, behind) = rest.split_at(count);
    *rest = behind;
    taken
}

/// "The new board's divide goes toward minus infinity". The divisor is not 0.
fn quotient(dividend: i64, divisor: i64) -> i64 {
    // with a divisor above 0, div_euclid goes toward minus infinity
    (dividend * divisor.signum()).div_euclid(divisor.abs())
}

/// The value of the expression that begins here, or 10 or 16. "the left operand speaks first, then
/// the right, then the operator; for a divide, zero before size"
fn value(rest: &mut &[u8], registers: &[i32]) -> Result<i32, u8> {
    let operator = match taken(rest, 1)[0] {
        16 => return Ok(signed(taken(rest, 4))),
        17 => return Ok(registers[usize::from(taken(rest, 1)[0])]),
        operator => operator,
    };
    let left = i64::from(value(rest, registers)?);
    let right = i64::from(value(rest, registers)?);
    let result = match operator {
        18 => left + right,
        19 => left - right,
        20 => left * right,
        _ if right == 0 => return Err(NO_READING),
        _ => quotient(left, right),
    };
    i32::try_from(result).map_err(|_| OFF_THE_SCALE)
}

/// Whether the condition that begins here holds, or 10 or 16.
fn holds(rest: &mut &[u8], registers: &[i32]) -> Result<bool, u8> {
    match taken(rest, 1)[0] {
        32 => Ok(true),
        33 => Ok(false),
        34 => Ok(!holds(rest, registers)?),
        35 => {
            // "Both sides of "and" are always worked out."
            let left = holds(rest, registers)?;
            let right = holds(rest, registers)?;
            Ok(left && right)
        }
        code => {
            let left = value(rest, registers)?;
            let right = value(rest, registers)?;
            Ok(if code == 36 { left == right } else { left < right })
        }
    }
}

// ---- the rule for runs

pub struct Own {
    pub statement: usize,
    pub clock: u64,
    pub registers: Vec<i32>,
}

/// "A run has, for each thread, a statement, a clock starting at 0 and register values; values
/// for variables; an owner or none for each lock, at first none."
pub struct State {
    pub threads: Vec<Own>,
    variables: Vec<i32>,
    owners: [Option<usize>; 8],
}

impl State {
    /// The starting state with these values, "every thread at its statement 0".
    pub fn new(sheet: &Sheet, values: &[i32]) -> State {
        let mut values = values.iter().copied();
        let variables = values.by_ref().take(sheet.variables.len()).collect();
        let mut threads = Vec::new();
        for thread in &sheet.threads {
            let registers = values.by_ref().take(thread.registers.len()).collect();
            threads.push(Own { statement: 0, clock: 0, registers });
        }
        State { threads, variables, owners: [None; 8] }
    }

    pub fn statement<'a>(&self, sheet: &'a Sheet, thread: usize) -> &'a Statement {
        &sheet.threads[thread].statements[self.threads[thread].statement]
    }

    /// "A thread is live unless it stands at halt."
    pub fn live(&self, sheet: &Sheet, thread: usize) -> bool {
        self.statement(sheet, thread).code != HALT
    }

    /// "The run finishes when all stand at halt"
    pub fn finished(&self, sheet: &Sheet) -> bool {
        (0..self.threads.len()).all(|thread| !self.live(sheet, thread))
    }

    /// "some live thread with clock c ends its statement at tick e, where e − c lies within its
    /// times, e is at least every thread's clock, and each live thread's clock plus its greatest
    /// time is at least e"
    pub fn may_end(&self, sheet: &Sheet, thread: usize, tick: u64) -> bool {
        if !self.live(sheet, thread) {
            return false;
        }
        let statement = self.statement(sheet, thread);
        let clock = self.threads[thread].clock;
        if tick < clock + statement.least || clock + statement.greatest < tick {
            return false;
        }
        if self.threads.iter().any(|other| tick < other.clock) {
            return false;
        }
        let mut live = (0..self.threads.len()).filter(|&other| self.live(sheet, other));
        live.all(|other| tick <= self.threads[other].clock + self.statement(sheet, other).greatest)
    }

    /// "The statement takes effect then and the clock becomes e." Err is 10 or 16.
    pub fn end(&mut self, sheet: &Sheet, thread: usize, tick: u64) -> Result<(), u8> {
        let statement = self.statement(sheet, thread);
        let own = &mut self.threads[thread];
        let operand = |at: usize| usize::from(statement.operands[at]);
        let mut next = own.statement + 1;
        match statement.code {
            2 => own.registers[operand(0)] = value(&mut &statement.operands[1..], &own.registers)?,
            3 => {
                if holds(&mut &statement.operands[1..], &own.registers)? {
                    next = operand(0);
                }
            }
            4 => self.variables[operand(1)] = own.registers[operand(0)],
            5 => own.registers[operand(0)] = self.variables[operand(1)],
            6 => {
                // "Unlock frees a lock that the thread owns, however often taken"
                if self.owners[operand(0)] == Some(thread) {
                    self.owners[operand(0)] = None;
                }
            }
            LOCK => {
                // "free, or owned already, it is owned"; "owned by another, the thread stays"
                if *self.owners[operand(0)].get_or_insert(thread) != thread {
                    next = own.statement;
                }
            }
            _ => {}
        }
        own.statement = next;
        own.clock = tick;
        Ok(())
    }
}
