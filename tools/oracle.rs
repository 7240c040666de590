//! A separately written tool for sheets: it reads a sheet, follows all orders
//! of the threads over intervals, and follows timed runs over single values.
//! It shares no code with the library it is compared with.
//!
//!     rustc -O -o oracle oracle.rs         (rustc --test for the tests below)
//!
//!     oracle check [LENGTH]     the five numbers of the sheet on standard input
//!     oracle hex [LENGTH]       the same, the sheet given as hexadecimal text
//!     oracle runs SEED COUNT    COUNT random timed runs
//!     oracle all CAP            every timed run, at most CAP events
//!     oracle bench LENGTH       steps of the search per second
//!     oracle corpus FILE        the entries of a corpus that are answered otherwise
//!
//! Sentences in quotation marks are those of the specification.

#[path = "random.rs"]
mod random;

use self::random::Random;
use std::convert::TryFrom;
use std::env;
use std::fmt;
use std::fs;
use std::io::{self, Read};
use std::panic;
use std::process;
use std::time::{Duration, Instant};

const MAX_SHEET: usize = 16_384;
const MAX_LOCKS: usize = 8;
const MAX_VARIABLES: usize = 8;
const MAX_THREADS: usize = 4;
const MAX_REGISTERS: usize = 8;
const MAX_STATEMENTS: usize = 64;
const MAX_NESTING: usize = 12;
const MAX_LIMIT: u64 = 1_000_000;
pub const MAX_BUDGET: u64 = 10_000_000;
/// "A state ... fills 100 numbers of the buffer"
pub const STATE_LENGTH: usize = 100;
/// The small program "lends 12,000 numbers".
const DEFAULT_LENGTH: usize = 12_000;

const SHORT: u8 = 1;
const OUT_OF_TURN: u8 = 2;
const BAD_LENGTH: u8 = 3;
const OFF_RANGE: u8 = 4;
const NO_SUCH_NAME: u8 = 5;
const BAD_EXPRESSION: u8 = 6;
const NO_HALT: u8 = 7;
const TOO_MANY: u8 = 8;
const TOO_LONG: u8 = 9;
const NO_READING: u8 = 10;
const STUCK: u8 = 11;
const PAST_THE_LIMIT: u8 = 12;
pub const OUT_OF_STEPS: u8 = 13;
pub const OUT_OF_ROOM: u8 = 14;
const LABEL_BROKEN: u8 = 15;
const OFF_THE_SCALE: u8 = 16;

// ---------------------------------------------------------------------------
// The program
// ---------------------------------------------------------------------------

#[derive(Clone, Copy, PartialEq, Eq, Debug)]
struct Interval {
    low: i32,
    high: i32,
}

impl Interval {
    const ZERO: Interval = Interval { low: 0, high: 0 };

    fn single(value: i32) -> Interval {
        Interval { low: value, high: value }
    }
}

#[derive(Clone, Copy, PartialEq, Eq, Debug)]
enum Operator {
    Plus,
    Minus,
    Times,
    Divide,
}

#[derive(Debug)]
enum Arithmetic {
    Constant(i32),
    Register(usize),
    Operation(Operator, Box<Arithmetic>, Box<Arithmetic>),
}

#[derive(Debug)]
enum Condition {
    True,
    False,
    Not(Box<Condition>),
    And(Box<Condition>, Box<Condition>),
    Equal(Arithmetic, Arithmetic),
    Less(Arithmetic, Arithmetic),
}

#[derive(Debug)]
enum Action {
    Halt,
    Skip,
    Assign { register: usize, value: Arithmetic },
    If { target: usize, condition: Condition },
    Store { register: usize, variable: usize },
    Load { register: usize, variable: usize },
    Unlock { lock: usize },
    Lock { lock: usize },
}

#[derive(Debug)]
struct Statement {
    /// offset of the statement's field in the sheet
    place: usize,
    least: u64,
    greatest: u64,
    action: Action,
}

#[derive(Debug)]
struct Thread {
    registers: Vec<Interval>,
    statements: Vec<Statement>,
}

#[derive(Debug)]
struct Program {
    limit: u64,
    budget: u64,
    label_low: u64,
    label_high: u64,
    variables: Vec<Interval>,
    threads: Vec<Thread>,
}

// ---------------------------------------------------------------------------
// The reader
// ---------------------------------------------------------------------------

#[derive(Clone, Copy, PartialEq, Eq, Debug)]
struct Refusal {
    number: u8,
    place: usize,
}

fn refuse<T>(number: u8, place: usize) -> Result<T, Refusal> {
    Err(Refusal { number, place })
}

/// "The reader holds the sheet's bytes and its place in them."
struct Reader<'a> {
    bytes: &'a [u8],
    place: usize,
}

const HEADER: usize = 3;

impl<'a> Reader<'a> {
    fn at_end(&self) -> bool {
        self.place == self.bytes.len()
    }

    /// The tag of the next field. "the sheet ends where a field is due, inside
    /// a header"; the place of an absent field is "the sheet's length".
    fn tag(&self) -> Result<u8, Refusal> {
        if self.bytes.len() - self.place < HEADER {
            return refuse(SHORT, self.place);
        }
        Ok(self.bytes[self.place])
    }

    /// The body of the next field, whose header is whole; the reader moves
    /// past it.
    fn body(&mut self) -> Result<&'a [u8], Refusal> {
        let header = &self.bytes[self.place..self.place + HEADER];
        let length = usize::from(u16::from_be_bytes([header[1], header[2]]));
        let rest = &self.bytes[self.place + HEADER..];
        if rest.len() < length {
            return refuse(SHORT, self.place);
        }
        self.place += HEADER + length;
        Ok(&rest[..length])
    }

    /// A body of exactly `length` bytes.
    fn body_of(&mut self, length: usize) -> Result<&'a [u8], Refusal> {
        let place = self.place;
        let body = self.body()?;
        if body.len() != length {
            return refuse(BAD_LENGTH, place);
        }
        Ok(body)
    }
}

fn unsigned(bytes: &[u8]) -> u64 {
    bytes.iter().fold(0, |number, &byte| number << 8 | u64::from(byte))
}

fn signed(bytes: &[u8]) -> i32 {
    i32::from_be_bytes([bytes[0], bytes[1], bytes[2], bytes[3]])
}

fn read_program(bytes: &[u8]) -> Result<Program, Refusal> {
    // "9 comes first, place 0."
    if bytes.len() > MAX_SHEET {
        return refuse(TOO_LONG, 0);
    }
    read_fields(bytes)
}

/// The same without 9: the fields of a sheet of any length.
fn read_fields(bytes: &[u8]) -> Result<Program, Refusal> {
    let mut reader = Reader { bytes, place: 0 };

    // "1 | time limit, step budget, label low, label high | first, once"
    if reader.tag()? != 1 {
        return refuse(OUT_OF_TURN, 0);
    }
    let body = reader.body_of(16)?;
    let limit = unsigned(&body[0..4]);
    let budget = unsigned(&body[4..8]);
    let label_low = unsigned(&body[8..12]);
    let label_high = unsigned(&body[12..16]);
    if !(1..=MAX_LIMIT).contains(&limit)
        || !(1..=MAX_BUDGET).contains(&budget)
        || label_low > label_high
        || label_high > limit
    {
        return refuse(OFF_RANGE, 0);
    }

    // "3 | number of locks, 0..8 | second, once"
    let place = reader.place;
    if reader.tag()? != 3 {
        return refuse(OUT_OF_TURN, place);
    }
    let locks = usize::from(reader.body_of(1)?[0]);
    if locks > MAX_LOCKS {
        return refuse(OFF_RANGE, place);
    }

    // "2 | lowest and highest starting value of a variable | then 0 to 8"
    let mut variables = Vec::new();
    while reader.tag()? == 2 {
        if variables.len() == MAX_VARIABLES {
            return refuse(TOO_MANY, reader.place);
        }
        variables.push(read_range(&mut reader)?);
    }

    // "4 | number of registers, 0..8; opens a thread | 1 to 4 threads"
    let mut threads = Vec::new();
    while threads.is_empty() || !reader.at_end() {
        let place = reader.place;
        if reader.tag()? != 4 {
            return refuse(OUT_OF_TURN, place);
        }
        if threads.len() == MAX_THREADS {
            return refuse(TOO_MANY, place);
        }
        threads.push(read_thread(&mut reader, variables.len(), locks)?);
    }

    Ok(Program { limit, budget, label_low, label_high, variables, threads })
}

/// A field of tag 2 or 5, whose tag was seen to be due.
fn read_range(reader: &mut Reader) -> Result<Interval, Refusal> {
    let place = reader.place;
    let body = reader.body_of(8)?;
    let range = Interval { low: signed(&body[0..4]), high: signed(&body[4..8]) };
    if range.low > range.high {
        return refuse(OFF_RANGE, place);
    }
    Ok(range)
}

/// A thread, from its field of tag 4 to its closing.
fn read_thread(reader: &mut Reader, variables: usize, locks: usize) -> Result<Thread, Refusal> {
    let place = reader.place;
    let count = usize::from(reader.body_of(1)?[0]);
    if count > MAX_REGISTERS {
        return refuse(OFF_RANGE, place);
    }
    let mut registers = Vec::new();
    while registers.len() < count {
        if reader.tag()? != 5 {
            return refuse(OUT_OF_TURN, reader.place);
        }
        registers.push(read_range(reader)?);
    }

    let names = Names { registers: count, variables, locks };
    let mut statements: Vec<Statement> = Vec::new();
    loop {
        // "A thread closes when the tag of a full header is 4 (after its first
        // statement) or no bytes remain"
        if !statements.is_empty() && (reader.at_end() || reader.tag()? == 4) {
            close_thread(&statements)?;
            return Ok(Thread { registers, statements });
        }
        if reader.tag()? != 6 {
            return refuse(OUT_OF_TURN, reader.place);
        }
        if statements.len() == MAX_STATEMENTS {
            return refuse(TOO_MANY, reader.place);
        }
        statements.push(read_statement(reader, &names)?);
    }
}

/// "closing checks halt, then targets in statement order"
fn close_thread(statements: &[Statement]) -> Result<(), Refusal> {
    let last = &statements[statements.len() - 1];
    if !matches!(last.action, Action::Halt) {
        return refuse(NO_HALT, last.place);
    }
    for statement in statements {
        if let Action::If { target, .. } = statement.action {
            if target >= statements.len() {
                return refuse(NO_SUCH_NAME, statement.place);
            }
        }
    }
    Ok(())
}

/// How many of each name exist where a statement is read.
struct Names {
    registers: usize,
    variables: usize,
    locks: usize,
}

/// "A statement's contents: length under 5 (3), code (4), length for the code
/// (3), times (4), names (5), expression from left to right."
fn read_statement(reader: &mut Reader, names: &Names) -> Result<Statement, Refusal> {
    let place = reader.place;
    let body = reader.body()?;
    if body.len() < 5 {
        return refuse(BAD_LENGTH, place);
    }
    let code = body[4];
    // "Body lengths: 5 for halt and skip, 6 for lock and unlock, 7 for store
    // and load, 7 or more for assign and if."
    let fits = match code {
        0 | 1 => body.len() == 5,
        2 | 3 => body.len() >= 7,
        4 | 5 => body.len() == 7,
        6 | 7 => body.len() == 6,
        _ => return refuse(OFF_RANGE, place),
    };
    if !fits {
        return refuse(BAD_LENGTH, place);
    }
    // "Halt has times 0 and 0; all others have least at least 1"
    let least = unsigned(&body[0..2]);
    let greatest = unsigned(&body[2..4]);
    let in_range = if code == 0 { greatest == 0 } else { least >= 1 };
    if !in_range || least > greatest {
        return refuse(OFF_RANGE, place);
    }

    let name = |at: usize, count: usize| {
        let name = usize::from(body[at]);
        if name < count { Ok(name) } else { refuse(NO_SUCH_NAME, place) }
    };
    let action = match code {
        0 => Action::Halt,
        1 => Action::Skip,
        2 => {
            let register = name(5, names.registers)?;
            let mut operand = Operand { bytes: &body[6..], place, registers: names.registers };
            let value = operand.arithmetic(MAX_NESTING)?;
            operand.end()?;
            Action::Assign { register, value }
        }
        3 => {
            // targets are checked when the thread closes
            let target = usize::from(body[5]);
            let mut operand = Operand { bytes: &body[6..], place, registers: names.registers };
            let condition = operand.condition(MAX_NESTING)?;
            operand.end()?;
            Action::If { target, condition }
        }
        4 => Action::Store { register: name(5, names.registers)?, variable: name(6, names.variables)? },
        5 => Action::Load { register: name(5, names.registers)?, variable: name(6, names.variables)? },
        6 => Action::Unlock { lock: name(5, names.locks)? },
        _ => Action::Lock { lock: name(5, names.locks)? },
    };
    Ok(Statement { place, least, greatest, action })
}

/// The bytes of an expression still to be read.
struct Operand<'a> {
    bytes: &'a [u8],
    place: usize,
    registers: usize,
}

impl Operand<'_> {
    fn bad<T>(&self) -> Result<T, Refusal> {
        refuse(BAD_EXPRESSION, self.place)
    }

    fn take(&mut self, count: usize) -> Result<&[u8], Refusal> {
        if self.bytes.len() < count {
            return self.bad();
        }
        let (taken, rest) = self.bytes.split_at(count);
        self.bytes = rest;
        Ok(taken)
    }

    /// "They end exactly where the field ends."
    fn end(&self) -> Result<(), Refusal> {
        if self.bytes.is_empty() { Ok(()) } else { self.bad() }
    }

    /// "Arithmetic: 16 constant (4 bytes), 17 register (1 byte), 18 +, 19 -,
    /// 20 times, 21 divide." `depth` is the nesting still allowed.
    fn arithmetic(&mut self, depth: usize) -> Result<Arithmetic, Refusal> {
        if depth == 0 {
            return self.bad();
        }
        let operator = match self.take(1)?[0] {
            16 => return Ok(Arithmetic::Constant(signed(self.take(4)?))),
            17 => {
                let register = usize::from(self.take(1)?[0]);
                if register >= self.registers {
                    return refuse(NO_SUCH_NAME, self.place);
                }
                return Ok(Arithmetic::Register(register));
            }
            18 => Operator::Plus,
            19 => Operator::Minus,
            20 => Operator::Times,
            21 => Operator::Divide,
            _ => return self.bad(),
        };
        let left = self.arithmetic(depth - 1)?;
        let right = self.arithmetic(depth - 1)?;
        Ok(Arithmetic::Operation(operator, Box::new(left), Box::new(right)))
    }

    /// "Conditions: 32 true, 33 false, 34 not, 35 and, 36 equal, 37 less."
    fn condition(&mut self, depth: usize) -> Result<Condition, Refusal> {
        if depth == 0 {
            return self.bad();
        }
        match self.take(1)?[0] {
            32 => Ok(Condition::True),
            33 => Ok(Condition::False),
            34 => Ok(Condition::Not(Box::new(self.condition(depth - 1)?))),
            35 => {
                let left = self.condition(depth - 1)?;
                let right = self.condition(depth - 1)?;
                Ok(Condition::And(Box::new(left), Box::new(right)))
            }
            36 => Ok(Condition::Equal(self.arithmetic(depth - 1)?, self.arithmetic(depth - 1)?)),
            37 => Ok(Condition::Less(self.arithmetic(depth - 1)?, self.arithmetic(depth - 1)?)),
            _ => self.bad(),
        }
    }
}

// ---------------------------------------------------------------------------
// Arithmetic on values
// ---------------------------------------------------------------------------

/// Why arithmetic has no result, as a refusal's number: "a divisor that may be 0
/// stays 10, a result off the 32-bit values becomes its own number", 16. "Within
/// one expression the left operand speaks first, then the right, then the
/// operator": the first fault met is passed up, here and with intervals.
type Fault = u8;

/// "The new board's divide goes toward minus infinity": the greatest whole number
/// that is at most the fraction. "−7 by 2 is −4 and 7 by −2 is −4." The divisor is
/// not 0.
pub fn quotient(dividend: i64, divisor: i64) -> i64 {
    // `/` goes toward zero, which is upward where the signs differ
    let upward = dividend % divisor != 0 && (dividend < 0) != (divisor < 0);
    dividend / divisor - i64::from(upward)
}

/// "A zero divisor or a result outside −2,147,483,648..2,147,483,647 has no
/// result."
fn apply(operator: Operator, left: i32, right: i32) -> Result<i32, Fault> {
    let (left, right) = (i64::from(left), i64::from(right));
    let result = match operator {
        Operator::Plus => left + right,
        Operator::Minus => left - right,
        Operator::Times => left * right,
        // "for a divide, zero before size"
        Operator::Divide if right == 0 => return Err(NO_READING),
        Operator::Divide => quotient(left, right),
    };
    i32::try_from(result).map_err(|_| OFF_THE_SCALE)
}

fn value_of(expression: &Arithmetic, registers: &[i32; MAX_REGISTERS]) -> Result<i32, Fault> {
    match expression {
        Arithmetic::Constant(value) => Ok(*value),
        Arithmetic::Register(register) => Ok(registers[*register]),
        Arithmetic::Operation(operator, left, right) => {
            let left = value_of(left, registers)?;
            let right = value_of(right, registers)?;
            apply(*operator, left, right)
        }
    }
}

/// "Both sides of "and" are always worked out."
fn truth_of(condition: &Condition, registers: &[i32; MAX_REGISTERS]) -> Result<bool, Fault> {
    match condition {
        Condition::True => Ok(true),
        Condition::False => Ok(false),
        Condition::Not(operand) => Ok(!truth_of(operand, registers)?),
        Condition::And(left, right) => {
            let left = truth_of(left, registers)?;
            let right = truth_of(right, registers)?;
            Ok(left && right)
        }
        Condition::Equal(left, right) => {
            let left = value_of(left, registers)?;
            let right = value_of(right, registers)?;
            Ok(left == right)
        }
        Condition::Less(left, right) => {
            let left = value_of(left, registers)?;
            let right = value_of(right, registers)?;
            Ok(left < right)
        }
    }
}

// ---------------------------------------------------------------------------
// Arithmetic on intervals, narrowing
// ---------------------------------------------------------------------------

type Registers = [Interval; MAX_REGISTERS];

/// "Arithmetic takes least and greatest over the interval ends". Err is 10 where
/// "a divisor's interval holds 0", 16 where "a result's interval leaves the 32-bit
/// values": "the left operand speaks first, then the right, then the operator;
/// for a divide, zero before size".
fn interval_of(expression: &Arithmetic, registers: &Registers) -> Result<Interval, Fault> {
    match expression {
        Arithmetic::Constant(value) => Ok(Interval::single(*value)),
        Arithmetic::Register(register) => Ok(registers[*register]),
        Arithmetic::Operation(operator, left, right) => {
            let left = interval_of(left, registers)?;
            let right = interval_of(right, registers)?;
            if *operator == Operator::Divide && right.low <= 0 && 0 <= right.high {
                return Err(NO_READING);
            }
            let ends = [
                apply(*operator, left.low, right.low)?,
                apply(*operator, left.low, right.high)?,
                apply(*operator, left.high, right.low)?,
                apply(*operator, left.high, right.high)?,
            ];
            let low = ends[0].min(ends[1]).min(ends[2]).min(ends[3]);
            let high = ends[0].max(ends[1]).max(ends[2]).max(ends[3]);
            Ok(Interval { low, high })
        }
    }
}

/// "10 is given in every part of a condition with the registers as they stand
/// before narrowing", and so is 16: the left part's, then the right part's.
fn reading(condition: &Condition, registers: &Registers) -> Result<(), Fault> {
    match condition {
        Condition::True | Condition::False => Ok(()),
        Condition::Not(operand) => reading(operand, registers),
        Condition::And(left, right) => {
            reading(left, registers)?;
            reading(right, registers)
        }
        Condition::Equal(left, right) | Condition::Less(left, right) => {
            interval_of(left, registers)?;
            interval_of(right, registers)?;
            Ok(())
        }
    }
}

/// Narrows the registers to those for which the condition may hold (yes) or
/// may fail (no); false if the state is empty, the registers being then of no
/// use. The condition has a reading with the registers given.
fn narrow(condition: &Condition, yes: bool, registers: &mut Registers) -> bool {
    match condition {
        // "yes: true keeps, false empties"; "No: true empties, false keeps"
        Condition::True => yes,
        Condition::False => !yes,
        // "The yes rule of a negation is the no rule of its operand, and the
        // reverse."
        Condition::Not(operand) => narrow(operand, !yes, registers),
        // ""and" narrows by the left, then by the right worked out on the
        // registers so narrowed"
        Condition::And(left, right) if yes => narrow(left, true, registers) && narrow(right, true, registers),
        // ""and" joins the two sides' no results register by register, an
        // empty one ignored"
        Condition::And(left, right) => {
            let mut other = *registers;
            let left_may_fail = narrow(left, false, &mut other);
            let right_may_fail = narrow(right, false, registers);
            if left_may_fail && right_may_fail {
                for (register, other) in registers.iter_mut().zip(&other) {
                    register.low = register.low.min(other.low);
                    register.high = register.high.max(other.high);
                }
            } else if left_may_fail {
                *registers = other;
            }
            left_may_fail || right_may_fail
        }
        Condition::Equal(left, right) => {
            let (a, b) = both(left, right, registers);
            if yes {
                // "equal is empty if the two intervals don't meet, else each
                // side that is one register becomes the meet"
                let meet = Interval { low: a.low.max(b.low), high: a.high.min(b.high) };
                if meet.low > meet.high {
                    return false;
                }
                raise(left, meet.low, registers)
                    && lower(left, meet.high, registers)
                    && raise(right, meet.low, registers)
                    && lower(right, meet.high, registers)
            } else {
                // "equal empties only if both sides are the same single value,
                // else keeps"
                !(a.low == a.high && a == b)
            }
        }
        Condition::Less(left, right) => {
            let (a, b) = both(left, right, registers);
            if yes {
                // "less is empty unless left low is below right high, else a
                // left register's high becomes at most right high less 1, a
                // right register's low at least left low plus 1"
                a.low < b.high && lower(left, b.high - 1, registers) && raise(right, a.low + 1, registers)
            } else {
                // "less is empty unless left high is at least right low, else a
                // left register's low is raised to right low, a right
                // register's high lowered to left high"
                a.high >= b.low && raise(left, b.low, registers) && lower(right, a.high, registers)
            }
        }
    }
}

/// The intervals of both sides. Narrowing makes intervals smaller, so a reading
/// before narrowing is a reading after it.
fn both(left: &Arithmetic, right: &Arithmetic, registers: &Registers) -> (Interval, Interval) {
    let kept = "narrowing keeps a reading";
    (interval_of(left, registers).expect(kept), interval_of(right, registers).expect(kept))
}

/// If the side is one register, its low becomes at least the bound. "A register
/// narrowed to nothing empties the state": false.
fn raise(side: &Arithmetic, bound: i32, registers: &mut Registers) -> bool {
    if let Arithmetic::Register(register) = side {
        let register = &mut registers[*register];
        register.low = register.low.max(bound);
        return register.low <= register.high;
    }
    true
}

/// If the side is one register, its high becomes at most the bound.
fn lower(side: &Arithmetic, bound: i32, registers: &mut Registers) -> bool {
    if let Arithmetic::Register(register) = side {
        let register = &mut registers[*register];
        register.high = register.high.min(bound);
        return register.low <= register.high;
    }
    true
}

// ---------------------------------------------------------------------------
// The search
// ---------------------------------------------------------------------------

/// Least and greatest tick.
#[derive(Clone, Copy, PartialEq, Eq, Debug)]
struct Window {
    low: u64,
    high: u64,
}

#[derive(Clone, Copy)]
struct ThreadState {
    statement: usize,
    clock: Window,
    registers: Registers,
}

/// "A state is as above, with intervals for clocks, registers and variables."
#[derive(Clone, Copy)]
struct State {
    threads: [ThreadState; MAX_THREADS],
    variables: [Interval; MAX_VARIABLES],
    owners: [Option<u8>; MAX_LOCKS],
}

impl State {
    fn first(program: &Program) -> State {
        let idle = ThreadState {
            statement: 0,
            clock: Window { low: 0, high: 0 },
            registers: [Interval::ZERO; MAX_REGISTERS],
        };
        let mut state = State {
            threads: [idle; MAX_THREADS],
            variables: [Interval::ZERO; MAX_VARIABLES],
            owners: [None; MAX_LOCKS],
        };
        for (state, thread) in state.threads.iter_mut().zip(&program.threads) {
            state.registers[..thread.registers.len()].copy_from_slice(&thread.registers);
        }
        state.variables[..program.variables.len()].copy_from_slice(&program.variables);
        state
    }

    fn statement<'a>(&self, program: &'a Program, thread: usize) -> &'a Statement {
        &program.threads[thread].statements[self.threads[thread].statement]
    }

    /// "A thread is live unless it stands at halt."
    fn live(&self, program: &Program, thread: usize) -> bool {
        !matches!(self.statement(program, thread).action, Action::Halt)
    }

    /// "The turn's bound M is the least, over live threads, of clock high plus
    /// greatest time." None if all stand at halt.
    fn bound(&self, program: &Program) -> Option<u64> {
        (0..program.threads.len())
            .filter(|&thread| self.live(program, thread))
            .map(|thread| self.threads[thread].clock.high + self.statement(program, thread).greatest)
            .min()
    }

    /// "every such thread stands at a lock another owns"
    fn stuck(&self, program: &Program) -> bool {
        (0..program.threads.len())
            .filter(|&thread| self.live(program, thread))
            .all(|thread| waits(&self.statement(program, thread).action, thread, &self.owners))
    }

    /// The greatest clock low and the greatest clock high.
    fn window(&self, program: &Program) -> Window {
        let clocks = self.threads[..program.threads.len()].iter().map(|thread| thread.clock);
        clocks.fold(Window { low: 0, high: 0 }, |window, clock| Window {
            low: window.low.max(clock.low),
            high: window.high.max(clock.high),
        })
    }
}

fn waits(action: &Action, thread: usize, owners: &[Option<u8>; MAX_LOCKS]) -> bool {
    match action {
        Action::Lock { lock } => owners[*lock].is_some_and(|owner| usize::from(owner) != thread),
        _ => false,
    }
}

/// The five numbers.
#[derive(Clone, Copy, PartialEq, Eq, Debug)]
pub struct Answer {
    pub refusal: u8,
    pub place: usize,
    pub steps: u64,
    pub low: u64,
    pub high: u64,
}

impl fmt::Display for Answer {
    fn fmt(&self, f: &mut fmt::Formatter) -> fmt::Result {
        write!(f, "{} {} {} {} {}", self.refusal, self.place, self.steps, self.low, self.high)
    }
}

/// The five numbers of a sheet with a work buffer of the given length.
pub fn check(sheet: &[u8], length: usize) -> Answer {
    match read_program(sheet) {
        Ok(program) => search(&program, length / STATE_LENGTH),
        Err(Refusal { number, place }) => Answer { refusal: number, place, steps: 0, low: 0, high: 0 },
    }
}

/// Number and place with which the fields of a sheet are refused, whatever its length; None if they read.
#[allow(dead_code)] // mends.rs, texts.rs and the tests of prints.rs ask for it
pub fn fields_refused(sheet: &[u8]) -> Option<(u8, usize)> {
    read_fields(sheet).err().map(|Refusal { number, place }| (number, place))
}

fn search(program: &Program, slots: usize) -> Answer {
    let refused = |refusal, place, steps| Answer { refusal, place, steps, low: 0, high: 0 };
    // "At the start one state is held (0 slots: refusal 14, steps 0)."
    if slots == 0 {
        return refused(OUT_OF_ROOM, 0, 0);
    }
    let mut stack = vec![State::first(program)];
    let mut steps = 0;
    let mut window: Option<Window> = None;
    while !stack.is_empty() {
        // "a state is held and the steps equal the budget"
        if steps == program.budget {
            return refused(OUT_OF_STEPS, 0, steps);
        }
        let Some(state) = stack.pop() else { break };
        steps += 1;
        let Some(bound) = state.bound(program) else {
            // "the window widens to hold both (Definition 2)"
            let found = state.window(program);
            window = Some(window.map_or(found, |window| Window {
                low: window.low.min(found.low),
                high: window.high.max(found.high),
            }));
            continue;
        };
        // "otherwise 11, then 12, then successors, then 14 if held plus new
        // exceeds the slots"
        if state.stuck(program) {
            return refused(STUCK, 0, steps);
        }
        if bound > program.limit {
            return refused(PAST_THE_LIMIT, 0, steps);
        }
        let held = stack.len();
        if let Err(Refusal { number, place }) = push_successors(program, &state, bound, &mut stack) {
            return refused(number, place, steps);
        }
        if stack.len() > slots {
            return refused(OUT_OF_ROOM, 0, steps);
        }
        // "New states go on top, the first made uppermost."
        stack[held..].reverse();
    }
    let Window { low, high } = window.expect("a search without a refusal has found a window");
    let kept = program.label_low <= low && high <= program.label_high;
    Answer { refusal: if kept { 0 } else { LABEL_BROKEN }, place: 0, steps, low, high }
}

/// Pushes the successors of a state in the order they are made. Err is the fault
/// of the first thread that has an event and a fault, with its statement's place:
/// 10, or 16 "tried where 10 is ... with 10's place".
fn push_successors(program: &Program, state: &State, bound: u64, stack: &mut Vec<State>) -> Result<(), Refusal> {
    let latest_low = state.window(program).low;
    // "Each live thread in turn, lowest number first"
    for thread in 0..program.threads.len() {
        let statement = state.statement(program, thread);
        if matches!(statement.action, Action::Halt) {
            continue;
        }
        // "has an event from the greater of all clock lows and its own low plus
        // least time, up to M; if empty, the thread is passed over"
        let from = latest_low.max(state.threads[thread].clock.low + statement.least);
        if from > bound {
            continue;
        }
        let at_fault = |number| Refusal { number, place: statement.place };
        if let Action::If { target, condition } = &statement.action {
            reading(condition, &state.threads[thread].registers).map_err(at_fault)?;
            // "An if makes the yes state (jump), then the no state (move on),
            // leaving out an empty one."
            let next = state.threads[thread].statement + 1;
            for (yes, statement) in [(true, *target), (false, next)] {
                stack.push(*state);
                let own = own_of(stack, thread);
                own.clock = Window { low: from, high: bound };
                own.statement = statement;
                if !narrow(condition, yes, &mut own.registers) {
                    stack.pop();
                }
            }
            continue;
        }
        let value = match &statement.action {
            Action::Assign { value, .. } => {
                interval_of(value, &state.threads[thread].registers).map_err(at_fault)?
            }
            _ => Interval::ZERO,
        };
        stack.push(*state);
        let top = stack.len() - 1;
        let next = &mut stack[top];
        let own = &mut next.threads[thread];
        own.clock = Window { low: from, high: bound };
        own.statement += 1;
        match statement.action {
            Action::Assign { register, .. } => own.registers[register] = value,
            Action::Store { register, variable } => next.variables[variable] = own.registers[register],
            Action::Load { register, variable } => own.registers[register] = next.variables[variable],
            Action::Unlock { lock } => unlock(lock, thread, &mut next.owners),
            Action::Lock { lock } => {
                // "owned by another, the thread stays"
                if !take_lock(lock, thread, &mut next.owners) {
                    own.statement -= 1;
                }
            }
            Action::Skip | Action::Halt | Action::If { .. } => {}
        }
    }
    Ok(())
}

/// The given thread in the uppermost state.
fn own_of(stack: &mut [State], thread: usize) -> &mut ThreadState {
    let top = stack.len() - 1;
    &mut stack[top].threads[thread]
}

/// "free, or owned already, it is owned and the thread moves on": true.
fn take_lock(lock: usize, thread: usize, owners: &mut [Option<u8>; MAX_LOCKS]) -> bool {
    let owner = owners[lock].get_or_insert(thread as u8);
    usize::from(*owner) == thread
}

/// "Unlock frees a lock that the thread owns, however often taken; otherwise it
/// only moves on."
fn unlock(lock: usize, thread: usize, owners: &mut [Option<u8>; MAX_LOCKS]) {
    if owners[lock] == Some(thread as u8) {
        owners[lock] = None;
    }
}

// ---------------------------------------------------------------------------
// The timed run
// ---------------------------------------------------------------------------

/// "A run has, for each thread, a statement, a clock starting at 0 and register
/// values; values for variables; an owner or none for each lock, at first none."
#[derive(Clone, Copy)]
struct RunThread {
    statement: usize,
    clock: u64,
    registers: [i32; MAX_REGISTERS],
}

#[derive(Clone, Copy)]
struct RunState {
    threads: [RunThread; MAX_THREADS],
    variables: [i32; MAX_VARIABLES],
    owners: [Option<u8>; MAX_LOCKS],
}

enum Step {
    NotAnEvent,
    NoResult(Fault),
    Next(RunState),
}

impl RunState {
    /// The starting state with the given values: the variables, then each
    /// thread's registers.
    fn first(program: &Program, values: &[i32]) -> RunState {
        let idle = RunThread { statement: 0, clock: 0, registers: [0; MAX_REGISTERS] };
        let mut state = RunState {
            threads: [idle; MAX_THREADS],
            variables: [0; MAX_VARIABLES],
            owners: [None; MAX_LOCKS],
        };
        let (own, mut rest) = values.split_at(program.variables.len());
        state.variables[..own.len()].copy_from_slice(own);
        for (thread, own) in state.threads.iter_mut().zip(&program.threads) {
            let (values, others) = rest.split_at(own.registers.len());
            thread.registers[..values.len()].copy_from_slice(values);
            rest = others;
        }
        state
    }

    fn statement<'a>(&self, program: &'a Program, thread: usize) -> &'a Statement {
        &program.threads[thread].statements[self.threads[thread].statement]
    }

    fn live(&self, program: &Program, thread: usize) -> bool {
        !matches!(self.statement(program, thread).action, Action::Halt)
    }

    fn finished(&self, program: &Program) -> bool {
        (0..program.threads.len()).all(|thread| !self.live(program, thread))
    }

    fn stuck(&self, program: &Program) -> bool {
        (0..program.threads.len())
            .filter(|&thread| self.live(program, thread))
            .all(|thread| waits(&self.statement(program, thread).action, thread, &self.owners))
    }

    fn greatest_clock(&self, program: &Program) -> u64 {
        self.threads[..program.threads.len()].iter().map(|thread| thread.clock).max().unwrap_or(0)
    }

    /// The ticks at which the thread has an event: least and greatest.
    fn ticks(&self, program: &Program, thread: usize) -> Option<(u64, u64)> {
        if !self.live(program, thread) {
            return None;
        }
        let least = self.threads[thread].clock + self.statement(program, thread).least;
        let from = least.max(self.greatest_clock(program));
        let to = (0..program.threads.len())
            .filter(|&other| self.live(program, other))
            .map(|other| self.threads[other].clock + self.statement(program, other).greatest)
            .min()?;
        (from <= to).then_some((from, to))
    }
}

/// "An event: some live thread with clock c ends its statement at tick e, where
/// e − c lies within its times, e is at least every thread's clock, and each
/// live thread's clock plus its greatest time is at least e."
fn is_event(program: &Program, state: &RunState, thread: usize, tick: u64) -> bool {
    if thread >= program.threads.len() || !state.live(program, thread) {
        return false;
    }
    let statement = state.statement(program, thread);
    let clock = state.threads[thread].clock;
    clock + statement.least <= tick
        && tick <= clock + statement.greatest
        && (0..program.threads.len()).all(|other| {
            let clock = state.threads[other].clock;
            let greatest = state.statement(program, other).greatest;
            clock <= tick && (!state.live(program, other) || tick <= clock + greatest)
        })
}

/// "The statement takes effect then and the clock becomes e."
fn step(program: &Program, state: &RunState, thread: usize, tick: u64) -> Step {
    if !is_event(program, state, thread, tick) {
        return Step::NotAnEvent;
    }
    let mut next = *state;
    let own = &mut next.threads[thread];
    own.clock = tick;
    own.statement += 1;
    match &state.statement(program, thread).action {
        Action::Halt | Action::Skip => {}
        Action::Assign { register, value } => match value_of(value, &own.registers) {
            Ok(value) => own.registers[*register] = value,
            Err(fault) => return Step::NoResult(fault),
        },
        Action::If { target, condition } => match truth_of(condition, &own.registers) {
            Ok(true) => own.statement = *target,
            Ok(false) => {}
            Err(fault) => return Step::NoResult(fault),
        },
        Action::Store { register, variable } => next.variables[*variable] = own.registers[*register],
        Action::Load { register, variable } => own.registers[*register] = next.variables[*variable],
        Action::Unlock { lock } => unlock(*lock, thread, &mut next.owners),
        Action::Lock { lock } => {
            if !take_lock(*lock, thread, &mut next.owners) {
                own.statement -= 1;
            }
        }
    }
    Step::Next(next)
}

/// What became of the runs followed.
#[derive(Clone, PartialEq, Eq, Debug)]
pub struct Figures {
    pub finished: u64,
    /// an event's arithmetic has no result: a divisor is 0
    pub no_reading: u64,
    /// the same, a result leaves the 32-bit values
    pub off_the_scale: u64,
    /// every live thread waits for a lock another owns
    pub stuck: u64,
    /// an event stands past the time limit; the run was followed no further
    pub past_limit: u64,
    pub low: u64,
    pub high: u64,
    pub longest: u64,
}

impl Figures {
    fn new() -> Figures {
        Figures {
            finished: 0,
            no_reading: 0,
            off_the_scale: 0,
            stuck: 0,
            past_limit: 0,
            low: u64::MAX,
            high: 0,
            longest: 0,
        }
    }

    /// Counts a state reached after the given number of events; true if the run
    /// is to be followed further.
    fn count(&mut self, program: &Program, state: &RunState, events: u64) -> bool {
        self.longest = self.longest.max(events);
        let tick = state.greatest_clock(program);
        if state.finished(program) {
            self.finished += 1;
            self.low = self.low.min(tick);
            self.high = self.high.max(tick);
            return false;
        }
        if state.stuck(program) {
            self.stuck += 1;
            return false;
        }
        if tick > program.limit {
            self.past_limit += 1;
            return false;
        }
        true
    }

    /// Counts a run ended by an event without a result.
    fn count_no_result(&mut self, fault: Fault, events: u64) {
        match fault {
            NO_READING => self.no_reading += 1,
            _ => self.off_the_scale += 1,
        }
        self.longest = self.longest.max(events);
    }
}

impl fmt::Display for Figures {
    fn fmt(&self, f: &mut fmt::Formatter) -> fmt::Result {
        write!(f, "finished {} no-reading {} ", self.finished, self.no_reading)?;
        write!(f, "off-the-scale {} ", self.off_the_scale)?;
        if self.finished == 0 {
            write!(f, "low - high - ")?;
        } else {
            write!(f, "low {} high {} ", self.low, self.high)?;
        }
        write!(f, "longest {} stuck {} past-limit {}", self.longest, self.stuck, self.past_limit)
    }
}

/// The starting ranges: the variables, then each thread's registers.
fn starting_ranges(program: &Program) -> Vec<Interval> {
    let registers = program.threads.iter().flat_map(|thread| &thread.registers);
    program.variables.iter().chain(registers).copied().collect()
}

impl Random {
    /// A number of low..high: an end, or any number, so that ends come often.
    fn within(&mut self, low: i64, high: i64) -> i64 {
        match self.below(3) {
            0 => low,
            1 => high,
            _ => low + self.below((high - low) as usize + 1) as i64,
        }
    }
}

fn random_runs(program: &Program, seed: u64, count: u64) -> Figures {
    let mut random = Random(seed);
    let mut figures = Figures::new();
    let ranges = starting_ranges(program);
    for _ in 0..count {
        let values: Vec<i32> = ranges
            .iter()
            .map(|range| random.within(i64::from(range.low), i64::from(range.high)) as i32)
            .collect();
        let mut state = RunState::first(program, &values);
        let mut events = 0;
        while figures.count(program, &state, events) {
            let choices: Vec<(usize, (u64, u64))> = (0..program.threads.len())
                .filter_map(|thread| Some((thread, state.ticks(program, thread)?)))
                .collect();
            let (thread, (from, to)) = random.pick(&choices);
            let tick = random.within(from as i64, to as i64) as u64;
            events += 1;
            match step(program, &state, thread, tick) {
                Step::Next(next) => state = next,
                Step::NoResult(fault) => {
                    figures.count_no_result(fault, events);
                    break;
                }
                Step::NotAnEvent => unreachable!("the tick is one of the thread's"),
            }
        }
    }
    figures
}

/// Random timed runs of a sheet, or None if it does not read.
pub fn runs(sheet: &[u8], seed: u64, count: u64) -> Option<Figures> {
    Some(random_runs(&read_program(sheet).ok()?, seed, count))
}

/// Every timed run of a sheet, as far as the cap (all_runs), or None if it does not read.
pub fn every_run(sheet: &[u8], cap: u64) -> Option<(Figures, bool)> {
    Some(all_runs(&read_program(sheet).ok()?, cap))
}

/// Every run from every starting state; false if the cap on events, or the same
/// cap on starting states, was met.
fn all_runs(program: &Program, cap: u64) -> (Figures, bool) {
    let mut figures = Figures::new();
    let ranges = starting_ranges(program);
    let mut values: Vec<i32> = ranges.iter().map(|range| range.low).collect();
    let mut explored = 0;
    for _ in 0..cap {
        let mut stack = vec![(RunState::first(program, &values), 0)];
        while let Some((state, events)) = stack.pop() {
            if !figures.count(program, &state, events) {
                continue;
            }
            for thread in 0..program.threads.len() {
                let Some((from, to)) = state.ticks(program, thread) else { continue };
                for tick in from..=to {
                    if explored == cap {
                        return (figures, false);
                    }
                    explored += 1;
                    match step(program, &state, thread, tick) {
                        Step::Next(next) => stack.push((next, events + 1)),
                        Step::NoResult(fault) => figures.count_no_result(fault, events + 1),
                        Step::NotAnEvent => unreachable!("the tick is one of the thread's"),
                    }
                }
            }
        }
        if !next_values(&mut values, &ranges) {
            return (figures, true);
        }
    }
    (figures, false)
}

/// The next starting values in order; false after the last.
fn next_values(values: &mut [i32], ranges: &[Interval]) -> bool {
    for (value, range) in values.iter_mut().zip(ranges) {
        if *value < range.high {
            *value += 1;
            return true;
        }
        *value = range.low;
    }
    false
}

// ---------------------------------------------------------------------------
// The corpus
// ---------------------------------------------------------------------------

/// An entry of a corpus; corpus.rs describes the file.
pub struct Recorded {
    pub sheet: Vec<u8>,
    pub length: usize,
    pub answer: Answer,
    pub planted: u8,
}

impl Recorded {
    /// The entry as it stands in the file.
    pub fn bytes(&self) -> Vec<u8> {
        let mut bytes = (self.sheet.len() as u16).to_be_bytes().to_vec();
        bytes.extend((self.length as u16).to_be_bytes());
        bytes.push(self.answer.refusal);
        bytes.extend((self.answer.place as u16).to_be_bytes());
        for number in [self.answer.steps, self.answer.low, self.answer.high] {
            bytes.extend((number as u32).to_be_bytes());
        }
        bytes.push(self.planted);
        bytes.extend(&self.sheet);
        bytes
    }
}

/// Planted in an entry: one of its five numbers is wrong on purpose.
pub const WRONG: u8 = 1;
/// What stands before an entry's sheet.
pub const FRONT: usize = 20;

/// The entries of a corpus, or None if the bytes are not of its form.
pub fn recorded(bytes: &[u8]) -> Option<Vec<Recorded>> {
    let count = unsigned(bytes.get(..4)?);
    let mut rest = &bytes[4..];
    let mut entries = Vec::new();
    for _ in 0..count {
        let front = rest.get(..FRONT)?;
        let end = FRONT + unsigned(&front[..2]) as usize;
        entries.push(Recorded {
            sheet: rest.get(FRONT..end)?.to_vec(),
            length: unsigned(&front[2..4]) as usize,
            answer: Answer {
                refusal: front[4],
                place: unsigned(&front[5..7]) as usize,
                steps: unsigned(&front[7..11]),
                low: unsigned(&front[11..15]),
                high: unsigned(&front[15..19]),
            },
            planted: front[19],
        });
        rest = &rest[end..];
    }
    rest.is_empty().then_some(entries)
}

/// How many entries are answered otherwise, and how many end in a panic.
fn changed(entries: &[&Recorded]) -> (usize, usize) {
    let (mut otherwise, mut panics) = (0, 0);
    for entry in entries {
        match panic::catch_unwind(|| check(&entry.sheet, entry.length)) {
            Ok(answer) if answer == entry.answer => {}
            Ok(_) => otherwise += 1,
            Err(_) => panics += 1,
        }
    }
    (otherwise, panics)
}

// ---------------------------------------------------------------------------
// The command line
// ---------------------------------------------------------------------------

const USAGE: &str =
    "usage: oracle check [LENGTH] | hex [LENGTH] | runs SEED COUNT | all CAP | bench LENGTH | corpus FILE";

fn fail(message: impl fmt::Display) -> ! {
    eprintln!("oracle: {message}");
    process::exit(2)
}

fn standard_input() -> Vec<u8> {
    let mut bytes = Vec::new();
    if let Err(error) = io::stdin().read_to_end(&mut bytes) {
        fail(error);
    }
    bytes
}

fn from_hexadecimal(text: &[u8]) -> Option<Vec<u8>> {
    let digits: Option<Vec<u32>> = text
        .iter()
        .filter(|byte| !byte.is_ascii_whitespace())
        .map(|&byte| char::from(byte).to_digit(16))
        .collect();
    let digits = digits?;
    if digits.len() % 2 != 0 {
        return None;
    }
    Some(digits.chunks(2).map(|pair| (pair[0] * 16 + pair[1]) as u8).collect())
}

fn number(text: &str) -> u64 {
    text.parse().unwrap_or_else(|_| fail(format!("not a number: {text}")))
}

fn program_or_fail(sheet: &[u8]) -> Program {
    match read_program(sheet) {
        Ok(program) => program,
        Err(Refusal { number, place }) => fail(format!("refusal {number} at {place}")),
    }
}

fn bench(sheet: &[u8], length: usize) -> f64 {
    let start = Instant::now();
    let mut steps = 0;
    while start.elapsed() < Duration::from_secs(1) {
        steps += std::hint::black_box(check(std::hint::black_box(sheet), length)).steps;
    }
    steps as f64 / start.elapsed().as_secs_f64()
}

fn main() {
    let arguments: Vec<String> = env::args().skip(1).collect();
    let arguments: Vec<&str> = arguments.iter().map(String::as_str).collect();
    match arguments[..] {
        ["check"] => println!("{}", check(&standard_input(), DEFAULT_LENGTH)),
        ["check", length] => println!("{}", check(&standard_input(), number(length) as usize)),
        ["hex", ref rest @ ..] if rest.len() <= 1 => {
            let length = rest.first().map_or(DEFAULT_LENGTH, |length| number(length) as usize);
            match from_hexadecimal(&standard_input()) {
                Some(sheet) => println!("{}", check(&sheet, length)),
                None => fail("not hexadecimal text"),
            }
        }
        ["runs", seed, count] => {
            let program = program_or_fail(&standard_input());
            println!("{}", random_runs(&program, number(seed), number(count)));
        }
        ["all", cap] => {
            let program = program_or_fail(&standard_input());
            let (figures, complete) = all_runs(&program, number(cap));
            println!("{} {}", figures, if complete { "complete" } else { "capped" });
        }
        ["bench", length] => {
            println!("{:.0} steps per second", bench(&standard_input(), number(length) as usize));
        }
        ["corpus", file] => {
            let bytes = fs::read(file).unwrap_or_else(|error| fail(format!("{file}: {error}")));
            let entries = recorded(&bytes).unwrap_or_else(|| fail(format!("{file}: not a corpus")));
            let (wrong, right): (Vec<_>, Vec<_>) = entries.iter().partition(|entry| entry.planted == WRONG);
            panic::set_hook(Box::new(|_| {}));
            let (otherwise, panics) = changed(&right);
            println!("{otherwise} of {} entries are answered otherwise, {panics} end in a panic", right.len());
            if !wrong.is_empty() {
                println!("{} of {} with a wrong number are answered otherwise", changed(&wrong).0, wrong.len());
            }
        }
        _ => fail(USAGE),
    }
}

// ---------------------------------------------------------------------------
// Tests: the specification's sheets and the reader's refusals
// ---------------------------------------------------------------------------

#[cfg(test)]
mod tests {
    use super::*;

    fn field(tag: u8, body: &[u8]) -> Vec<u8> {
        [&[tag], &(body.len() as u16).to_be_bytes()[..], body].concat()
    }

    fn header(limit: u32, budget: u32, low: u32, high: u32) -> Vec<u8> {
        field(1, &[limit, budget, low, high].map(u32::to_be_bytes).concat())
    }

    fn range(tag: u8, low: i32, high: i32) -> Vec<u8> {
        field(tag, &[low, high].map(i32::to_be_bytes).concat())
    }

    fn statement(least: u16, greatest: u16, rest: &[u8]) -> Vec<u8> {
        field(6, &[&least.to_be_bytes()[..], &greatest.to_be_bytes()[..], rest].concat())
    }

    fn halt() -> Vec<u8> {
        statement(0, 0, &[0])
    }

    /// The usual header with the given numbers of locks and variables.
    fn opening(locks: u8, variables: usize) -> Vec<u8> {
        let mut sheet = header(10, 100, 0, 10);
        sheet.extend(field(3, &[locks]));
        for _ in 0..variables {
            sheet.extend(range(2, 0, 0));
        }
        sheet
    }

    /// One thread with the given number of registers (each 0..0), then fields.
    fn thread(registers: u8, fields: &[Vec<u8>]) -> Vec<u8> {
        let mut bytes = field(4, &[registers]);
        for _ in 0..registers {
            bytes.extend(range(5, 0, 0));
        }
        bytes.extend(fields.concat());
        bytes
    }

    fn refusal(sheet: &[u8]) -> (u8, usize) {
        let answer = check(sheet, DEFAULT_LENGTH);
        assert!(!(1..=9).contains(&answer.refusal) || (answer.steps, answer.low, answer.high) == (0, 0, 0));
        (answer.refusal, answer.place)
    }

    /// The refusal of a one-thread sheet (1 register, 1 variable, 1 lock) with
    /// one statement before the halt, whose place is 49.
    fn statement_refusal(fields: &[u8]) -> (u8, usize) {
        let sheet = [opening(1, 1), thread(1, &[fields.to_vec(), halt()])].concat();
        refusal(&sheet)
    }

    #[test]
    fn opening_refusals() {
        assert_eq!(refusal(&[0; 16_385]), (TOO_LONG, 0));
        assert_eq!(refusal(&[0; 16_384]), (OUT_OF_TURN, 0));
        assert_eq!(refusal(&[]), (SHORT, 0));
        assert_eq!(refusal(&[9, 0]), (SHORT, 0));
        assert_eq!(refusal(&[9, 0, 0]), (OUT_OF_TURN, 0));
        assert_eq!(refusal(&[1, 0, 15]), (SHORT, 0));
        assert_eq!(refusal(&field(1, &[0; 15])), (BAD_LENGTH, 0));
        assert_eq!(refusal(&field(1, &[0; 17])), (BAD_LENGTH, 0));
        for (limit, budget, low, high) in [
            (0, 100, 0, 0),
            (1_000_001, 100, 0, 10),
            (10, 0, 0, 10),
            (10, 10_000_001, 0, 10),
            (10, 100, 0, 11),
            (10, 100, 6, 5),
        ] {
            assert_eq!(refusal(&header(limit, budget, low, high)), (OFF_RANGE, 0));
        }
        assert_eq!(refusal(&header(1_000_000, 10_000_000, 0, 1_000_000)), (SHORT, 19));
        let start = header(10, 100, 0, 10);
        assert_eq!(refusal(&[start.clone(), range(2, 0, 0)].concat()), (OUT_OF_TURN, 19));
        assert_eq!(refusal(&[start.clone(), field(3, &[9])].concat()), (OFF_RANGE, 19));
        assert_eq!(refusal(&[start.clone(), field(3, &[])].concat()), (BAD_LENGTH, 19));
        assert_eq!(refusal(&[start, field(3, &[8])].concat()), (SHORT, 23));
        assert_eq!(refusal(&[opening(0, 0), range(2, 1, 0)].concat()), (OFF_RANGE, 23));
        assert_eq!(refusal(&[opening(0, 0), range(2, -1, 0), vec![4]].concat()), (SHORT, 34));
        assert_eq!(refusal(&[opening(0, 8), vec![2, 0, 9]].concat()), (TOO_MANY, 23 + 88));
        assert_eq!(refusal(&[opening(0, 8), thread(0, &[halt()])].concat()), (0, 0));
    }

    #[test]
    fn thread_refusals() {
        let opening = opening(0, 0);
        let with = |bytes: &[u8]| refusal(&[&opening[..], bytes].concat());
        assert_eq!(with(&field(4, &[9])), (OFF_RANGE, 23));
        assert_eq!(with(&field(5, &[1])), (OUT_OF_TURN, 23));
        assert_eq!(with(&field(4, &[])), (BAD_LENGTH, 23));
        assert_eq!(with(&field(4, &[1])), (SHORT, 27));
        assert_eq!(with(&[field(4, &[1]), halt()].concat()), (OUT_OF_TURN, 27));
        assert_eq!(with(&[field(4, &[0]), range(5, 0, 0)].concat()), (OUT_OF_TURN, 27));
        assert_eq!(with(&[field(4, &[0]), field(4, &[0])].concat()), (OUT_OF_TURN, 27));
        assert_eq!(with(&[field(4, &[1]), range(5, 1, 0)].concat()), (OFF_RANGE, 27));
        let skip = statement(1, 1, &[1]);
        let jump = |target| statement(1, 1, &[3, target, 32]);
        // closing comes before the new field, and halt before targets
        assert_eq!(with(&thread(0, &[jump(9), skip.clone(), vec![4, 0]])), (SHORT, 45));
        assert_eq!(with(&thread(0, &[jump(9), skip.clone(), vec![4, 0, 9]])), (NO_HALT, 37));
        assert_eq!(with(&thread(0, &[jump(9), halt(), vec![4, 0, 9]])), (NO_SUCH_NAME, 27));
        assert_eq!(with(&thread(0, &[jump(9), halt(), vec![2, 0, 9]])), (OUT_OF_TURN, 45));
        assert_eq!(with(&thread(0, &[skip.clone(), vec![2, 0, 9]])), (OUT_OF_TURN, 35));
        assert_eq!(with(&thread(0, &[jump(2), halt()])), (NO_SUCH_NAME, 27));
        assert_eq!(with(&thread(0, &[halt(), vec![4, 0, 9]])), (SHORT, 35));
        let five = thread(0, &[halt()]).repeat(5);
        assert_eq!(with(&five[..48]), (0, 0));
        assert_eq!(with(&five), (TOO_MANY, 23 + 48));
        assert_eq!(with(&[&five[..40], &skip[..], &five[48..]].concat()), (NO_HALT, 63));
        // "64 statements, then a 65th is 8"
        let long = [vec![skip.clone(); 63], vec![halt()]].concat();
        assert_eq!(with(&thread(0, &long)), (12, 0));
        assert_eq!(with(&thread(0, &[long, vec![vec![6, 0, 9]]].concat())), (TOO_MANY, 27 + 512));
    }

    #[test]
    fn statement_refusals() {
        let at = |least, greatest, rest: &[u8]| statement_refusal(&statement(least, greatest, rest)).0;
        assert_eq!(statement_refusal(&field(6, &[0, 0, 0, 0])), (BAD_LENGTH, 49));
        assert_eq!(statement_refusal(&statement(0, 0, &[8])), (OFF_RANGE, 49));
        assert_eq!(at(0, 9, &[1, 0]), BAD_LENGTH);
        assert_eq!(at(0, 1, &[1]), OFF_RANGE);
        assert_eq!(at(2, 1, &[1]), OFF_RANGE);
        assert_eq!(at(0, 1, &[0]), OFF_RANGE);
        assert_eq!(at(1, 1, &[0]), OFF_RANGE);
        assert_eq!(at(1, 65_535, &[1]), PAST_THE_LIMIT);
        for rest in [&[0, 0][..], &[1, 0], &[2, 0], &[3, 0], &[4, 0], &[4, 0, 0, 0], &[5, 0]] {
            assert_eq!(at(9, 1, rest), BAD_LENGTH, "{rest:?}");
        }
        for rest in [&[5, 0, 0, 0][..], &[6], &[6, 0, 0], &[7], &[7, 0, 0]] {
            assert_eq!(at(9, 1, rest), BAD_LENGTH, "{rest:?}");
        }
        assert_eq!(at(0, 1, &[7, 1]), OFF_RANGE);
        for (rest, number) in [
            (&[7, 0][..], 0),
            (&[7, 1], NO_SUCH_NAME),
            (&[6, 0], 0),
            (&[6, 1], NO_SUCH_NAME),
            (&[4, 0, 0], 0),
            (&[4, 1, 0], NO_SUCH_NAME),
            (&[4, 0, 1], NO_SUCH_NAME),
            (&[5, 0, 0], 0),
            (&[5, 1, 0], NO_SUCH_NAME),
            (&[5, 0, 1], NO_SUCH_NAME),
            (&[2, 1, 99], NO_SUCH_NAME),
            (&[2, 0, 99], BAD_EXPRESSION),
            (&[2, 0, 32], BAD_EXPRESSION),
            (&[2, 0, 17], BAD_EXPRESSION),
            (&[2, 0, 16, 0, 0, 0], BAD_EXPRESSION),
            (&[2, 0, 16, 0, 0, 0, 0], 0),
            (&[2, 0, 16, 0, 0, 0, 0, 0], BAD_EXPRESSION),
            (&[2, 0, 17, 0], 0),
            (&[2, 0, 17, 1], NO_SUCH_NAME),
            (&[2, 0, 18, 17, 0], BAD_EXPRESSION),
            (&[2, 0, 18, 17, 1, 99], NO_SUCH_NAME),
            (&[2, 0, 18, 99, 17, 1], BAD_EXPRESSION),
            (&[2, 0, 18, 17, 0, 17, 0], 0),
            (&[3, 1, 32], 0),
            (&[3, 2, 32], NO_SUCH_NAME),
            (&[3, 2, 99], BAD_EXPRESSION),
            (&[3, 1, 17, 0], BAD_EXPRESSION),
            (&[3, 1, 34, 17, 0], BAD_EXPRESSION),
            (&[3, 1, 36, 32, 17, 0], BAD_EXPRESSION),
            (&[3, 1, 35, 32], BAD_EXPRESSION),
            (&[3, 1, 35, 32, 33, 33], BAD_EXPRESSION),
            (&[3, 1, 35, 34, 32, 33], 0),
            (&[3, 1, 37, 17, 0, 17, 0], 0),
        ] {
            assert_eq!(at(1, 1, rest), number, "{rest:?}");
        }
    }

    #[test]
    fn nesting() {
        // "Nesting twelve is read, thirteen is 6"
        let condition = |depth: usize| [&[3, 1][..], &vec![34; depth - 1], &[32]].concat();
        assert_eq!(statement_refusal(&statement(1, 1, &condition(12))), (0, 0));
        assert_eq!(statement_refusal(&statement(1, 1, &condition(13))), (BAD_EXPRESSION, 49));
        let sum = |depth: usize, register| {
            [&[2, 0][..], &vec![18; depth - 1], &[17, register], &[17, 0].repeat(depth - 1)].concat()
        };
        assert_eq!(statement_refusal(&statement(1, 1, &sum(12, 0))), (0, 0));
        assert_eq!(statement_refusal(&statement(1, 1, &sum(13, 0))), (BAD_EXPRESSION, 49));
        assert_eq!(statement_refusal(&statement(1, 1, &sum(12, 1))), (NO_SUCH_NAME, 49));
        // a leaf too deep is refused before its register is looked at
        assert_eq!(statement_refusal(&statement(1, 1, &sum(13, 1))), (BAD_EXPRESSION, 49));
        // the two kinds nest together
        let mixed = |depth: usize| [&[3, 1][..], &vec![34; depth - 2], &[37, 17, 0, 17, 0]].concat();
        assert_eq!(statement_refusal(&statement(1, 1, &mixed(12))), (0, 0));
        assert_eq!(statement_refusal(&statement(1, 1, &mixed(13))), (BAD_EXPRESSION, 49));
    }

    fn register(number: usize) -> Arithmetic {
        Arithmetic::Register(number)
    }

    fn constant(value: i32) -> Arithmetic {
        Arithmetic::Constant(value)
    }

    fn with(ranges: &[(i32, i32)]) -> Registers {
        let mut registers = [Interval::ZERO; MAX_REGISTERS];
        for (register, &(low, high)) in registers.iter_mut().zip(ranges) {
            *register = Interval { low, high };
        }
        registers
    }

    fn narrowed(condition: &Condition, yes: bool, ranges: &[(i32, i32)]) -> Option<Vec<(i32, i32)>> {
        let mut registers = with(ranges);
        narrow(condition, yes, &mut registers)
            .then(|| registers[..ranges.len()].iter().map(|range| (range.low, range.high)).collect())
    }

    #[test]
    fn interval_facts() {
        let divided = |value, low, high| {
            let quotient = Arithmetic::Operation(Operator::Divide, Box::new(constant(value)), Box::new(register(0)));
            interval_of(&quotient, &with(&[(low, high)]))
        };
        assert_eq!(divided(10, -1, 1), Err(NO_READING));
        assert_eq!(divided(10, 1, 5), Ok(Interval { low: 2, high: 10 }));
        // "Case G changes its third result."
        assert_eq!(divided(-7, 2, 2), Ok(Interval { low: -4, high: -4 }));
        assert_eq!(divided(7, -2, -2), Ok(Interval { low: -4, high: -4 }));
        // "Case G's lowest value by −1 changes its number."
        assert_eq!(divided(i32::MIN, -1, -1), Err(OFF_THE_SCALE));
        assert_eq!(divided(i32::MIN, -2, -1), Err(OFF_THE_SCALE));
        assert_eq!(divided(i32::MIN, -3, -2), Ok(Interval { low: 715_827_882, high: 1 << 30 }));
        assert_eq!(divided(i32::MIN, 2, 3), Ok(Interval { low: -1 << 30, high: -715_827_883 }));
        assert_eq!(divided(-7, 2, 5), Ok(Interval { low: -4, high: -2 }));
        assert_eq!(divided(-7, -5, -2), Ok(Interval { low: 1, high: 3 }));
        assert_eq!(divided(7, -5, -2), Ok(Interval { low: -4, high: -2 }));
        assert_eq!(divided(-1, 2, i32::MAX), Ok(Interval { low: -1, high: -1 }));
    }

    /// The quotients of the 32-bit values: the last column is dividend by divisor,
    /// "toward minus infinity".
    #[test]
    fn quotients_of_values() {
        let (lowest, highest) = (i32::MIN, i32::MAX);
        for (dividend, divisor, expected) in [
            // inexact, both signs of each
            (7, 2, 3),
            (-7, 2, -4),
            (7, -2, -4),
            (-7, -2, 3),
            (1, 3, 0),
            (-1, 3, -1),
            (1, -3, -1),
            (-1, -3, 0),
            // exact
            (6, 2, 3),
            (-6, 2, -3),
            (6, -2, -3),
            (-6, -2, 3),
            (0, 5, 0),
            (0, -5, 0),
            // at the ends of the values
            (lowest, 1, lowest),
            (lowest, 2, -1 << 30),
            (lowest, -2, 1 << 30),
            (lowest, 3, -715_827_883),
            (lowest, highest, -2),
            (lowest, lowest, 1),
            (lowest + 1, -1, highest),
            (highest, 1, highest),
            (highest, -1, lowest + 1),
            (highest, 2, (1 << 30) - 1),
            (highest, -2, -1 << 30),
            (highest, lowest, -1),
            (-1, highest, -1),
            (1, lowest, -1),
            (-1, lowest, 0),
        ] {
            assert_eq!(apply(Operator::Divide, dividend, divisor), Ok(expected), "{dividend} by {divisor}");
        }
        assert_eq!(apply(Operator::Divide, lowest, -1), Err(OFF_THE_SCALE));
    }

    /// Values about 0, about 65,536 and the halves on both sides, and at both ends.
    fn corner_values() -> Vec<i32> {
        [i32::MIN, i32::MIN / 2, -65_536, 0, 65_536, i32::MAX / 2, i32::MAX]
            .iter()
            .flat_map(|middle| (-3..=3).filter_map(move |more| middle.checked_add(more)))
            .collect()
    }

    /// A quotient is the greatest whole number that is at most the fraction, said by
    /// products; only the lowest value by −1 has one off the 32-bit values.
    #[test]
    fn quotient_is_the_greatest_below() {
        let is_greatest = |dividend: i32, divisor: i32| {
            let (a, b) = (i64::from(dividend), i64::from(divisor));
            let q = quotient(a, b);
            if b > 0 {
                assert!(q * b <= a && a < (q + 1) * b, "{} by {}: {}", a, b, q);
            } else {
                assert!(q * b >= a && a > (q + 1) * b, "{} by {}: {}", a, b, q);
            }
            let off_the_scale = apply(Operator::Divide, dividend, divisor) == Err(OFF_THE_SCALE);
            assert_eq!(off_the_scale, (dividend, divisor) == (i32::MIN, -1), "{a} by {b}");
        };
        for divisor in (-40..=40).filter(|&divisor| divisor != 0) {
            (-100..=100).for_each(|dividend| is_greatest(dividend, divisor));
        }
        for divisor in corner_values().into_iter().filter(|&divisor| divisor != 0) {
            corner_values().into_iter().for_each(|dividend| is_greatest(dividend, divisor));
        }
    }

    /// Least and greatest over the ends are the least and the greatest quotient of
    /// any two values of the intervals.
    #[test]
    fn quotients_of_intervals() {
        let whole = operation(Operator::Divide, register(0), register(1));
        let ranges = || (-8..=8).flat_map(|low| (low..=8).map(move |high| (low, high)));
        for (low, high) in ranges().filter(|&(low, high)| low > 0 || high < 0) {
            for left in ranges() {
                let all = (left.0..=left.1).flat_map(|a| (low..=high).map(move |b| (a, b)));
                let all: Vec<i32> = all.map(|(a, b)| apply(Operator::Divide, a, b).unwrap()).collect();
                let expected = Interval { low: *all.iter().min().unwrap(), high: *all.iter().max().unwrap() };
                assert_eq!(interval_of(&whole, &with(&[left, (low, high)])), Ok(expected), "{left:?} by {low}..{high}");
            }
        }
    }

    /// A run over single values divides as intervals do.
    #[test]
    fn quotient_in_a_run() {
        // r0 := r0 / r1
        let divides = statement(1, 1, &[2, 0, 21, 17, 0, 17, 1]);
        for (dividend, divisor, expected) in [(-7, 2, -4), (7, -2, -4), (7, 2, 3), (-7, -2, 3), (-6, 2, -3)] {
            let ranges = [range(5, dividend, dividend), range(5, divisor, divisor)].concat();
            let sheet = [opening(0, 0), field(4, &[2]), ranges, divides.clone(), halt()].concat();
            let program = read_program(&sheet).unwrap();
            let Step::Next(next) = step(&program, &RunState::first(&program, &[dividend, divisor]), 0, 1) else { panic!() };
            assert_eq!(next.threads[0].registers[0], expected);
        }
    }

    const OPERATORS: [Operator; 4] = [Operator::Plus, Operator::Minus, Operator::Times, Operator::Divide];

    fn operation(operator: Operator, left: Arithmetic, right: Arithmetic) -> Arithmetic {
        Arithmetic::Operation(operator, Box::new(left), Box::new(right))
    }

    /// 6, or an expression with the fault.
    fn part(fault: Option<Fault>) -> Arithmetic {
        match fault {
            None => constant(6),
            Some(NO_READING) => operation(Operator::Divide, constant(1), constant(0)),
            Some(_) => operation(Operator::Plus, constant(i32::MAX), constant(1)),
        }
    }

    /// 6 < 7 or 7 < 6, or a comparison with the fault on its left or on its right.
    fn part_of_and(fault: Option<Fault>, holds: bool, on_left: bool) -> Condition {
        match fault {
            None if holds => Condition::Less(constant(6), constant(7)),
            None => Condition::Less(constant(7), constant(6)),
            Some(_) if on_left => Condition::Equal(part(fault), constant(6)),
            Some(_) => Condition::Equal(constant(6), part(fault)),
        }
    }

    const FAULTS: [Option<Fault>; 3] = [None, Some(NO_READING), Some(OFF_THE_SCALE)];

    /// "the left operand speaks first, then the right, then the operator"
    #[test]
    fn zero_or_size_in_an_expression() {
        let (values, intervals) = ([0; MAX_REGISTERS], with(&[]));
        for operator in OPERATORS {
            for left in FAULTS {
                for right in FAULTS {
                    let whole = operation(operator, part(left), part(right));
                    assert_eq!(value_of(&whole, &values).err(), left.or(right), "{whole:?}");
                    assert_eq!(interval_of(&whole, &intervals).err(), left.or(right), "{whole:?}");
                    // one deeper, on either side of another operator
                    let (zero, size) = (Some(NO_READING), Some(OFF_THE_SCALE));
                    let on_left = operation(Operator::Minus, whole, part(zero));
                    assert_eq!(value_of(&on_left, &values).err(), left.or(right).or(zero), "{on_left:?}");
                    assert_eq!(interval_of(&on_left, &intervals).err(), left.or(right).or(zero), "{on_left:?}");
                    let whole = operation(operator, part(left), part(right));
                    let on_right = operation(Operator::Times, part(size), whole);
                    assert_eq!(value_of(&on_right, &values).err(), size, "{on_right:?}");
                    assert_eq!(interval_of(&on_right, &intervals).err(), size, "{on_right:?}");
                }
                // the operator's zero comes after the left operand
                let whole = operation(Operator::Divide, part(left), constant(0));
                assert_eq!(value_of(&whole, &values), Err(left.unwrap_or(NO_READING)));
                assert_eq!(interval_of(&whole, &intervals), Err(left.unwrap_or(NO_READING)));
            }
        }
    }

    /// "for a divide, zero before size"
    #[test]
    fn zero_before_size() {
        let quotient = operation(Operator::Divide, register(0), register(1));
        for (left, right, fault) in [
            ((i32::MIN, i32::MIN), (-1, -1), OFF_THE_SCALE),
            ((i32::MIN, i32::MIN), (-1, 0), NO_READING),
            ((i32::MIN, i32::MIN), (-1, 1), NO_READING),
            ((i32::MIN, i32::MIN), (-2, 3), NO_READING),
            ((i32::MIN, i32::MIN), (0, 0), NO_READING),
            ((i32::MIN, 5), (-7, 0), NO_READING),
            ((i32::MIN, 5), (-7, -1), OFF_THE_SCALE),
            ((i32::MIN + 1, 5), (-1, 0), NO_READING),
        ] {
            assert_eq!(interval_of(&quotient, &with(&[left, right])), Err(fault), "{left:?} by {right:?}");
        }
        for (left, right, result) in [
            (i32::MIN, -1, Err(OFF_THE_SCALE)),
            (i32::MIN, 0, Err(NO_READING)),
            (i32::MIN + 1, -1, Ok(i32::MAX)),
        ] {
            assert_eq!(apply(Operator::Divide, left, right), result);
        }
        // a result leaves the 32-bit values by either end
        for (operator, left, right) in [
            (Operator::Plus, (1, 5), (i32::MAX - 4, i32::MAX - 4)),
            (Operator::Plus, (-5, -1), (i32::MIN + 4, i32::MIN + 4)),
            (Operator::Minus, (-5, 5), (i32::MIN + 5, i32::MIN + 5)),
            (Operator::Minus, (-5, 5), (i32::MAX - 3, i32::MAX - 3)),
            (Operator::Times, (-1, 65_536), (0, 32_768)),
            (Operator::Times, (-65_537, 1), (0, 32_768)),
        ] {
            let whole = operation(operator, register(0), register(1));
            assert_eq!(interval_of(&whole, &with(&[left, right])), Err(OFF_THE_SCALE), "{left:?} {right:?}");
            let (left, right) = ((left.0 + 1, left.1 - 1), right);
            assert!(interval_of(&whole, &with(&[left, right])).is_ok(), "{:?} {:?}", left, right);
        }
    }

    /// Conditions pass it up, the left part first; not, "and", equal and less add nothing.
    #[test]
    fn zero_or_size_in_a_condition() {
        let (values, intervals) = ([0; MAX_REGISTERS], with(&[]));
        let is = |condition: Condition, expected: Option<Fault>| {
            assert_eq!(truth_of(&condition, &values).err(), expected, "{condition:?}");
            assert_eq!(reading(&condition, &intervals).err(), expected, "{condition:?}");
            let not = Condition::Not(Box::new(condition));
            assert_eq!(truth_of(&not, &values).err(), expected, "{not:?}");
            assert_eq!(reading(&not, &intervals).err(), expected, "{not:?}");
        };
        for left in FAULTS {
            for right in FAULTS {
                is(Condition::Equal(part(left), part(right)), left.or(right));
                is(Condition::Less(part(left), part(right)), left.or(right));
                for holds in [false, true] {
                    for on_left in [false, true] {
                        let side = |fault| Box::new(part_of_and(fault, holds, on_left));
                        is(Condition::And(side(left), side(right)), left.or(right));
                        let not = Box::new(Condition::Not(side(left)));
                        is(Condition::And(not, side(right)), left.or(right));
                    }
                }
            }
        }
        is(Condition::And(Box::new(Condition::False), Box::new(part_of_and(FAULTS[2], true, true))), FAULTS[2]);
        // before narrowing: r0 below the highest value, r0 + 1
        let guarded = Condition::And(
            Box::new(Condition::Less(register(0), constant(i32::MAX))),
            Box::new(Condition::Less(operation(Operator::Plus, register(0), constant(1)), constant(7))),
        );
        assert_eq!(reading(&guarded, &with(&[(5, i32::MAX)])), Err(OFF_THE_SCALE));
        assert_eq!(reading(&guarded, &with(&[(5, i32::MAX - 1)])), Ok(()));
    }

    /// Between threads the first that has an event and a fault decides.
    #[test]
    fn zero_or_size_between_threads() {
        let zero = [21, 16, 0, 0, 0, 1, 17, 0];
        let size = [20, 16, 127, 255, 255, 255, 16, 0, 0, 0, 2];
        let skip = |time| statement(time, time, &[1]);
        let assign = |time, value: &[u8]| statement(time, time, &[&[2, 0], value].concat());
        let test = |time, value: &[u8]| statement(time, time, &[&[3, 1, 34, 36], value, &[17, 0]].concat());
        // a thread's statements stand 15 bytes after its start
        let both = |first: Vec<u8>, second: Vec<u8>| {
            let first = thread(1, &[first, halt()]);
            let place = 23 + first.len() + 15;
            let answer = check(&[opening(0, 0), first, thread(1, &[second, halt()])].concat(), DEFAULT_LENGTH);
            assert_eq!((answer.low, answer.high), (0, 0));
            (answer.refusal, answer.place == place, answer.steps)
        };
        for makes in [&assign as &dyn Fn(u16, &[u8]) -> Vec<u8>, &test] {
            assert_eq!(both(makes(1, &zero), makes(1, &size)), (NO_READING, false, 1));
            assert_eq!(both(makes(1, &size), makes(1, &zero)), (OFF_THE_SCALE, false, 1));
            assert_eq!(both(skip(1), makes(1, &zero)), (NO_READING, true, 1));
            assert_eq!(both(skip(1), makes(1, &size)), (OFF_THE_SCALE, true, 1));
            // the first is passed over: nothing of it is worked out
            assert_eq!(both(makes(2, &zero), makes(1, &size)), (OFF_THE_SCALE, true, 1));
            assert_eq!(both(makes(2, &size), makes(1, &zero)), (NO_READING, true, 1));
            // 12 is tried before
            assert_eq!(both(makes(11, &size), makes(11, &zero)), (PAST_THE_LIMIT, false, 1));
        }
    }

    /// A run over single values says which, in the same order.
    #[test]
    fn zero_or_size_in_a_run() {
        // r0 := r0 * r1 + 1 / r1
        let sum = [18, 20, 17, 0, 17, 1, 21, 16, 0, 0, 0, 1, 17, 1];
        let value = [&[2, 0][..], &sum].concat();
        // if r1 < that goto 1
        let test = [&[3, 1, 37, 17, 1][..], &sum].concat();
        for rest in [value, test] {
            let sheet = [
                opening(0, 0),
                field(4, &[2]),
                range(5, i32::MAX - 1, i32::MAX),
                range(5, 0, 2),
                statement(1, 1, &rest),
                halt(),
            ]
            .concat();
            assert_eq!(refusal(&sheet), (OFF_THE_SCALE, 49));
            let program = read_program(&sheet).unwrap();
            let ends = |first, second| match step(&program, &RunState::first(&program, &[first, second]), 0, 1) {
                Step::NoResult(fault) => Some(fault),
                Step::Next(_) => None,
                Step::NotAnEvent => panic!(),
            };
            assert_eq!(ends(i32::MAX, 0), Some(NO_READING));
            assert_eq!(ends(i32::MAX, 2), Some(OFF_THE_SCALE));
            // the product fits, the sum only with the lower value
            assert_eq!(ends(i32::MAX, 1), Some(OFF_THE_SCALE));
            assert_eq!(ends(i32::MAX - 1, 1), None);
            let (figures, complete) = all_runs(&program, 1000);
            assert!(complete);
            assert_eq!((figures.finished, figures.no_reading, figures.off_the_scale), (1, 2, 3));
        }
    }

    fn random_arithmetic(random: &mut Random, depth: usize) -> Arithmetic {
        let constants = [i32::MIN, i32::MIN + 1, -65_536, -2, -1, 0, 1, 2, 65_536, i32::MAX - 1, i32::MAX];
        match random.below(6) {
            0 | 1 if depth > 1 => register(random.below(3)),
            _ if depth > 1 => {
                let operator = random.pick(&OPERATORS);
                operation(operator, random_arithmetic(random, depth - 1), random_arithmetic(random, depth - 1))
            }
            0..=2 => register(random.below(3)),
            _ => constant(random.pick(&constants)),
        }
    }

    /// On single values intervals say what a run says, fault and all; on wider ones
    /// an interval holds the results of all its values, and these have results.
    #[test]
    fn intervals_and_runs() {
        let mut random = Random(1);
        let mut of = [0; 3];
        for _ in 0..100_000 {
            let whole = random_arithmetic(&mut random, 4);
            let mut values = [0; MAX_REGISTERS];
            for value in &mut values[..3] {
                *value = random.within(-3, 3) as i32;
            }
            let result = value_of(&whole, &values);
            assert_eq!(interval_of(&whole, &values.map(Interval::single)), result.map(Interval::single), "{whole:?}");
            of[match result {
                Ok(_) => 0,
                Err(NO_READING) => 1,
                Err(_) => 2,
            }] += 1;
            let wide = values.map(|value| Interval { low: value - 1, high: value + 2 });
            if let Ok(range) = interval_of(&whole, &wide) {
                let value = result.unwrap_or_else(|fault| panic!("{}: {:?}", fault, whole));
                assert!(range.low <= value && value <= range.high, "{:?}", whole);
            }
        }
        assert!(of.iter().all(|&count| count > 5_000), "{:?}", of);
    }

    #[test]
    fn narrowing() {
        let equal = Condition::Equal(register(0), register(0));
        assert_eq!(narrowed(&equal, true, &[(3, 4)]), Some(vec![(3, 4)]));
        assert_eq!(narrowed(&equal, false, &[(3, 4)]), Some(vec![(3, 4)]));
        assert_eq!(narrowed(&equal, false, &[(3, 3)]), None);
        let less = Condition::Less(register(0), register(0));
        assert_eq!(narrowed(&less, true, &[(3, 4)]), None);
        assert_eq!(narrowed(&less, false, &[(3, 4)]), Some(vec![(3, 4)]));
        assert_eq!(narrowed(&less, true, &[(3, 5)]), Some(vec![(4, 4)]));
        let less = Condition::Less(register(0), register(1));
        assert_eq!(narrowed(&less, true, &[(0, 9), (-5, 5)]), Some(vec![(0, 4), (1, 5)]));
        assert_eq!(narrowed(&less, false, &[(0, 9), (-5, 5)]), Some(vec![(0, 9), (-5, 5)]));
        assert_eq!(narrowed(&less, false, &[(0, 4), (3, 9)]), Some(vec![(3, 4), (3, 4)]));
        assert_eq!(narrowed(&less, false, &[(0, 2), (3, 9)]), None);
        let equal = Condition::Equal(register(0), register(1));
        assert_eq!(narrowed(&equal, true, &[(0, 4), (3, 9)]), Some(vec![(3, 4), (3, 4)]));
        assert_eq!(narrowed(&equal, true, &[(0, 2), (3, 9)]), None);
        // the right of "and" sees the left's narrowing
        let and = Condition::And(
            Box::new(Condition::Less(register(0), constant(5))),
            Box::new(Condition::Less(register(1), register(0))),
        );
        assert_eq!(narrowed(&and, true, &[(0, 9), (0, 9)]), Some(vec![(1, 4), (0, 3)]));
        // its no results are joined, an empty one ignored
        assert_eq!(narrowed(&and, false, &[(0, 9), (0, 9)]), Some(vec![(0, 9), (0, 9)]));
        assert_eq!(narrowed(&and, false, &[(0, 3), (2, 9)]), Some(vec![(0, 3), (2, 9)]));
        assert_eq!(narrowed(&and, false, &[(3, 9), (0, 2)]), Some(vec![(5, 9), (0, 2)]));
        assert_eq!(narrowed(&and, false, &[(3, 4), (0, 2)]), None);
        let not = Condition::Not(Box::new(and));
        assert_eq!(narrowed(&not, true, &[(3, 9), (0, 2)]), Some(vec![(5, 9), (0, 2)]));
    }

    /// "Narrowing by the left of "and" before looking for a zero divisor on the
    /// right" is a fault: refusal 10 comes from the registers before narrowing.
    #[test]
    fn divisor_before_narrowing() {
        let condition = [
            &[3, 1, 35, 37, 16, 0, 0, 0, 0, 17, 0][..],
            &[36, 16, 0, 0, 0, 0, 21, 16, 0, 0, 0, 1, 17, 0],
        ]
        .concat();
        let sheet = [
            opening(0, 0),
            field(4, &[1]),
            range(5, 0, 1),
            statement(1, 1, &condition),
            halt(),
        ]
        .concat();
        assert_eq!(refusal(&sheet), (NO_READING, 38));
        let program = read_program(&sheet).unwrap();
        assert!(matches!(step(&program, &RunState::first(&program, &[0]), 0, 1), Step::NoResult(NO_READING)));
        assert!(matches!(step(&program, &RunState::first(&program, &[1]), 0, 1), Step::Next(_)));
    }

    fn numbers(sheet: &[u8], length: usize) -> (u8, usize, u64, u64, u64) {
        let answer = check(sheet, length);
        (answer.refusal, answer.place, answer.steps, answer.low, answer.high)
    }

    #[test]
    fn sheets_with_small_buffers() {
        let skip = |least, greatest| thread(0, &[statement(least, greatest, &[1]), halt()]);
        let sheet = [opening(0, 0), skip(1, 4), skip(2, 3)].concat();
        assert_eq!(numbers(&sheet, 99), (OUT_OF_ROOM, 0, 0, 0, 0));
        assert_eq!(numbers(&sheet, 199), (OUT_OF_ROOM, 0, 1, 0, 0));
        assert_eq!(numbers(&sheet, 200), (0, 0, 5, 2, 4));
        // 10 comes before 14, though two states are made before it
        let divide = |least| thread(1, &[statement(least, least, &[2, 0, 21, 17, 0, 17, 0]), halt()]);
        let sheet = [opening(0, 0), skip(1, 1), skip(1, 1), divide(1)].concat();
        assert_eq!(numbers(&sheet, 100), (NO_READING, 23 + 20 + 20 + 15, 1, 0, 0));
        // and so does 16
        let double = thread(1, &[statement(1, 1, &[2, 0, 18, 16, 128, 0, 0, 0, 16, 128, 0, 0, 0]), halt()]);
        let sheet = [opening(0, 0), skip(1, 1), skip(1, 1), double].concat();
        assert_eq!(numbers(&sheet, 100), (OFF_THE_SCALE, 23 + 20 + 20 + 15, 1, 0, 0));
        // a thread that is passed over has nothing worked out
        let sheet = [opening(0, 0), skip(1, 1), divide(5)].concat();
        assert_eq!(numbers(&sheet, 100), (NO_READING, 23 + 20 + 15, 2, 0, 0));
    }

    #[test]
    fn halted_threads() {
        // a lock owned by a halted thread stays owned
        let first = thread(0, &[statement(1, 1, &[7, 0]), halt()]);
        let second = thread(0, &[statement(5, 5, &[1]), statement(1, 1, &[7, 0]), halt()]);
        assert_eq!(numbers(&[opening(1, 0), first, second].concat(), 12_000), (STUCK, 0, 3, 0, 0));
        // a halted thread's clock counts: no event before it. After the first
        // thread's event at 3..4 the second's, of 1..5, begins at 3.
        let skip = |least, greatest| thread(0, &[statement(least, greatest, &[1]), halt()]);
        let program = read_program(&[opening(0, 0), skip(3, 4), skip(1, 5)].concat()).unwrap();
        let mut made = Vec::new();
        let mut state = State::first(&program);
        push_successors(&program, &state, 4, &mut made).unwrap();
        assert_eq!(made.len(), 2);
        state = made[0];
        assert_eq!(state.threads[0].clock, Window { low: 3, high: 4 });
        assert_eq!(state.bound(&program), Some(5));
        made.clear();
        push_successors(&program, &state, 5, &mut made).unwrap();
        assert_eq!(made.len(), 1);
        assert_eq!(made[0].threads[0].clock, Window { low: 3, high: 4 });
        assert_eq!(made[0].threads[1].clock, Window { low: 3, high: 5 });
    }

    #[test]
    fn events() {
        // sheet C
        let skip = |least, greatest| thread(0, &[statement(least, greatest, &[1]), halt()]);
        let program = read_program(&[opening(0, 0), skip(1, 4), skip(2, 3)].concat()).unwrap();
        let first = RunState::first(&program, &[]);
        let is = |state: &RunState, thread, tick| match step(&program, state, thread, tick) {
            Step::NotAnEvent => None,
            Step::NoResult(_) => panic!(),
            Step::Next(next) => Some(next),
        };
        for tick in 0..6 {
            assert_eq!(is(&first, 0, tick).is_some(), (1..=3).contains(&tick));
            assert_eq!(is(&first, 1, tick).is_some(), (2..=3).contains(&tick));
            assert!(is(&first, 2, tick).is_none());
        }
        let second = is(&first, 1, 3).unwrap();
        for tick in 0..6 {
            assert_eq!(is(&second, 0, tick).is_some(), (3..=4).contains(&tick));
            assert!(is(&second, 1, tick).is_none());
        }
        let (figures, complete) = all_runs(&program, 1000);
        assert!(complete);
        assert_eq!((figures.finished, figures.low, figures.high, figures.longest), (10, 2, 4, 2));
        assert!(!all_runs(&program, 10).1);
    }
}
