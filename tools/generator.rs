//! Random sheets with lengths of the work buffer, from a seed. A program that
//! includes this has `mod oracle` beside it: the oracle's answers serve to find
//! the labels, limits, budgets and buffers that just suffice or just do not.

#[path = "random.rs"]
mod random;

use crate::oracle::{check, quotient, Answer};
pub use random::Random;

/// A search that would take more steps than this is not offered.
pub const MOST_STEPS: u32 = 20_000;
/// The buffer that a plain entry lends.
const PLAIN: usize = 12_000;
const LIMIT: u32 = 1_000_000;
const LENGTHS: [usize; 10] = [0, 99, 100, 101, 199, 200, 299, 300, PLAIN, 65_535];

/// A sheet and the length of its work buffer.
#[derive(Clone, PartialEq, Eq, PartialOrd, Ord, Debug)]
pub struct Entry {
    pub sheet: Vec<u8>,
    pub length: usize,
}

/// The oracle's answer, or None if the search takes too many steps.
pub fn answer(sheet: &[u8], length: usize) -> Option<Answer> {
    // the budget of a header that may be in range, lowered
    if sheet.len() >= 11 && sheet[..3] == [1, 0, 16] {
        let budget = u32::from_be_bytes([sheet[7], sheet[8], sheet[9], sheet[10]]);
        if (MOST_STEPS + 1..=10_000_000).contains(&budget) {
            let mut lowered = sheet.to_vec();
            lowered[7..11].copy_from_slice(&MOST_STEPS.to_be_bytes());
            if check(&lowered, length).refusal == 13 {
                return None;
            }
        }
    }
    Some(check(sheet, length))
}

// ---------------------------------------------------------------------------
// Random numbers
// ---------------------------------------------------------------------------

impl Random {
    pub fn between(&mut self, low: usize, high: usize) -> usize {
        low + self.below(high - low + 1)
    }

    pub fn chance(&mut self, percent: usize) -> bool {
        self.below(100) < percent
    }
}

// ---------------------------------------------------------------------------
// What a sheet says
// ---------------------------------------------------------------------------

const PLUS: u8 = 18;
const MINUS: u8 = 19;
const TIMES: u8 = 20;
const DIVIDE: u8 = 21;
const EQUAL: u8 = 36;
const LESS: u8 = 37;

#[derive(Clone)]
enum Arithmetic {
    Constant(i32),
    Register(u8),
    Operation(u8, Box<Arithmetic>, Box<Arithmetic>),
}

#[derive(Clone)]
enum Condition {
    True,
    False,
    Not(Box<Condition>),
    And(Box<Condition>, Box<Condition>),
    Comparison(u8, Arithmetic, Arithmetic),
}

use Arithmetic::{Constant, Operation, Register};
use Condition::{And, Comparison, False, Not, True};

impl Arithmetic {
    fn put(&self, bytes: &mut Vec<u8>) {
        match self {
            Constant(value) => {
                bytes.push(16);
                bytes.extend(value.to_be_bytes());
            }
            Register(register) => bytes.extend([17, *register]),
            Operation(operator, left, right) => {
                bytes.push(*operator);
                left.put(bytes);
                right.put(bytes);
            }
        }
    }

    /// The interval, for choosing constants near its ends.
    fn range(&self, known: &[Range]) -> Option<Range> {
        match self {
            Constant(value) => Some((*value, *value)),
            Register(register) => known.get(usize::from(*register)).copied(),
            Operation(operator, left, right) => {
                let (left, right) = (left.range(known)?, right.range(known)?);
                if *operator == DIVIDE && right.0 <= 0 && right.1 >= 0 {
                    return None;
                }
                let mut ends = Vec::new();
                for a in [i64::from(left.0), i64::from(left.1)] {
                    for b in [i64::from(right.0), i64::from(right.1)] {
                        ends.push(match operator {
                            18 => a + b,
                            19 => a - b,
                            20 => a * b,
                            _ => quotient(a, b),
                        });
                    }
                }
                let low = i32::try_from(*ends.iter().min()?).ok()?;
                let high = i32::try_from(*ends.iter().max()?).ok()?;
                Some((low, high))
            }
        }
    }
}

impl Condition {
    fn put(&self, bytes: &mut Vec<u8>) {
        match self {
            True => bytes.push(32),
            False => bytes.push(33),
            Not(operand) => {
                bytes.push(34);
                operand.put(bytes);
            }
            And(left, right) => {
                bytes.push(35);
                left.put(bytes);
                right.put(bytes);
            }
            Comparison(code, left, right) => {
                bytes.push(*code);
                left.put(bytes);
                right.put(bytes);
            }
        }
    }
}

type Range = (i32, i32);
type Times = (u16, u16);

/// Why a part of an expression has no reading.
#[derive(Clone, Copy, PartialEq)]
enum Fault {
    None,
    Zero,
    Size,
}

const FAULTS: [Fault; 3] = [Fault::None, Fault::Zero, Fault::Size];

/// Registers for such parts: r0 may be 0, r1 stands at the highest value, r2 is
/// small, r3 stands at the lowest value.
const WIDE: [Range; 4] = [(-1, 1), (i32::MAX - 1, i32::MAX), (2, 3), (i32::MIN, i32::MIN + 1)];
const SINGLE: [Range; 4] = [(0, 0), (i32::MAX, i32::MAX), (2, 2), (i32::MIN, i32::MIN)];

/// A small expression over those registers with that fault, one of several.
fn part(fault: Fault, which: usize) -> Arithmetic {
    match fault {
        Fault::None => match which % 3 {
            0 => Register(2),
            1 => Constant(7),
            _ => operation(PLUS, Register(2), Constant(1)),
        },
        Fault::Zero => match which % 5 {
            0 => operation(DIVIDE, Constant(7), Register(0)),
            1 => operation(DIVIDE, Register(2), Register(0)),
            2 => operation(DIVIDE, Register(1), operation(TIMES, Register(0), Register(2))),
            3 => operation(DIVIDE, Register(3), operation(MINUS, Register(0), Register(0))),
            // by -1..0, or by 0
            _ => operation(DIVIDE, Register(3), operation(MINUS, Constant(i32::MIN), Register(3))),
        },
        Fault::Size => match which % 5 {
            0 => operation(PLUS, Register(1), Constant(1)),
            1 => operation(TIMES, Register(1), Register(2)),
            2 => operation(MINUS, Register(3), Constant(1)),
            3 => operation(DIVIDE, Register(3), Constant(-1)),
            _ => operation(MINUS, Constant(-3), Register(1)),
        },
    }
}

/// A comparison with the fault on either side; without one it holds, fails or is
/// open.
fn faulty_side(fault: Fault, which: usize) -> Condition {
    let code = if which % 2 == 0 { EQUAL } else { LESS };
    if fault == Fault::None {
        return match which % 5 {
            0 => Comparison(LESS, Register(2), Constant(3)),
            1 => False,
            2 => Comparison(LESS, Register(2), Constant(1)),
            3 => True,
            _ => Comparison(EQUAL, Register(2), Constant(2)),
        };
    }
    if which % 3 == 0 {
        Comparison(code, part(Fault::None, which), part(fault, which))
    } else {
        Comparison(code, part(fault, which), part(Fault::None, which))
    }
}

/// A statement: its times, then code and operands as bytes.
#[derive(Clone)]
struct Statement {
    times: Times,
    rest: Vec<u8>,
}

fn halt() -> Statement {
    Statement { times: (0, 0), rest: vec![0] }
}

fn skip(times: Times) -> Statement {
    Statement { times, rest: vec![1] }
}

fn assign(times: Times, register: u8, value: &Arithmetic) -> Statement {
    let mut rest = vec![2, register];
    value.put(&mut rest);
    Statement { times, rest }
}

fn jump(times: Times, target: usize, condition: &Condition) -> Statement {
    let mut rest = vec![3, target as u8];
    condition.put(&mut rest);
    Statement { times, rest }
}

fn store(times: Times, register: u8, variable: u8) -> Statement {
    Statement { times, rest: vec![4, register, variable] }
}

fn load(times: Times, register: u8, variable: u8) -> Statement {
    Statement { times, rest: vec![5, register, variable] }
}

fn unlock(times: Times, lock: u8) -> Statement {
    Statement { times, rest: vec![6, lock] }
}

fn lock(times: Times, lock: u8) -> Statement {
    Statement { times, rest: vec![7, lock] }
}

#[derive(Clone)]
struct Thread {
    registers: Vec<Range>,
    statements: Vec<Statement>,
}

#[derive(Clone)]
struct Plan {
    limit: u32,
    budget: u32,
    low: u32,
    high: u32,
    locks: u8,
    variables: Vec<Range>,
    threads: Vec<Thread>,
}

fn field(tag: u8, body: &[u8]) -> Vec<u8> {
    [&[tag], &(body.len() as u16).to_be_bytes()[..], body].concat()
}

fn header(limit: u32, budget: u32, low: u32, high: u32) -> Vec<u8> {
    field(1, &[limit, budget, low, high].map(u32::to_be_bytes).concat())
}

fn range_field(tag: u8, range: Range) -> Vec<u8> {
    field(tag, &[range.0, range.1].map(i32::to_be_bytes).concat())
}

fn body(statement: &Statement) -> Vec<u8> {
    let (least, greatest) = statement.times;
    [&least.to_be_bytes()[..], &greatest.to_be_bytes()[..], &statement.rest].concat()
}

impl Thread {
    fn bytes(&self) -> Vec<u8> {
        let mut bytes = field(4, &[self.registers.len() as u8]);
        for range in &self.registers {
            bytes.extend(range_field(5, *range));
        }
        for statement in &self.statements {
            bytes.extend(field(6, &body(statement)));
        }
        bytes
    }
}

impl Plan {
    /// A plan whose header takes nothing from the search.
    fn of(locks: u8, variables: Vec<Range>, threads: Vec<Thread>) -> Plan {
        Plan { limit: LIMIT, budget: 2000, low: 0, high: LIMIT, locks, variables, threads }
    }

    fn opening(&self) -> Vec<u8> {
        let mut bytes = header(self.limit, self.budget, self.low, self.high);
        bytes.extend(field(3, &[self.locks]));
        for range in &self.variables {
            bytes.extend(range_field(2, *range));
        }
        bytes
    }

    fn bytes(&self) -> Vec<u8> {
        let threads: Vec<u8> = self.threads.iter().flat_map(Thread::bytes).collect();
        [self.opening(), threads].concat()
    }

    /// The same with another limit, the label kept below it.
    fn limited(&self, limit: u32) -> Plan {
        let limit = limit.max(1);
        Plan { limit, low: self.low.min(limit), high: self.high.min(limit), ..self.clone() }
    }
}

/// Offsets of the fields, as their length fields say.
pub fn fields(sheet: &[u8]) -> Vec<usize> {
    let mut places = Vec::new();
    let mut place = 0;
    while place + 3 <= sheet.len() {
        places.push(place);
        place += 3 + usize::from(u16::from_be_bytes([sheet[place + 1], sheet[place + 2]]));
    }
    places
}

// ---------------------------------------------------------------------------
// The generator
// ---------------------------------------------------------------------------

#[derive(Clone, Copy)]
enum Values {
    Small,
    Extreme,
    Any,
}

#[derive(Clone, Copy)]
enum Pace {
    Unit,
    Tiny,
    Wide,
    Huge,
}

pub struct Generator {
    pub random: Random,
    values: Values,
    pace: Pace,
}

const EXTREMES: [i32; 24] = [
    i32::MIN,
    i32::MIN,
    i32::MIN + 1,
    i32::MIN + 2,
    i32::MIN / 2,
    -65_536,
    -46_341,
    -46_340,
    -3,
    -2,
    -1,
    0,
    0,
    1,
    2,
    3,
    46_340,
    46_341,
    65_536,
    i32::MAX / 2,
    i32::MAX - 2,
    i32::MAX - 1,
    i32::MAX,
    i32::MAX,
];

impl Generator {
    pub fn new(seed: u64) -> Generator {
        Generator { random: Random(seed), values: Values::Small, pace: Pace::Unit }
    }

    /// A random entry of any kind.
    pub fn entry(&mut self) -> Entry {
        match self.random.below(20) {
            0..=11 => self.good(),
            12..=14 => self.mutated(),
            15 | 16 => self.faulty_statement(),
            17 => self.closing(),
            18 => self.too_many(),
            _ => self.cut(),
        }
    }

    /// The sheet of such an entry, of at most so many bytes and of some.
    pub fn short_sheet(&mut self, most: usize) -> Vec<u8> {
        loop {
            let sheet = self.entry().sheet;
            if (1..=most).contains(&sheet.len()) {
                return sheet;
            }
        }
    }

    // ---- parts

    fn value(&mut self) -> i32 {
        let extreme = match self.values {
            Values::Small => false,
            Values::Extreme => true,
            Values::Any => self.random.chance(40),
        };
        match self.values {
            _ if extreme => self.random.pick(&EXTREMES),
            Values::Any if self.random.chance(30) => self.random.next() as i32,
            _ => self.random.between(0, 12) as i32 - 4,
        }
    }

    fn range(&mut self) -> Range {
        let a = self.value();
        if self.random.chance(20) {
            return (a, a);
        }
        let b = self.value();
        (a.min(b), a.max(b))
    }

    /// As many ranges as one of the counts says.
    fn ranges(&mut self, counts: &[usize]) -> Vec<Range> {
        (0..self.random.pick(counts)).map(|_| self.range()).collect()
    }

    fn times(&mut self) -> Times {
        let pace = if self.random.chance(10) { Pace::Tiny } else { self.pace };
        let (least, spread) = match pace {
            Pace::Unit => (1, 0),
            Pace::Tiny => (self.random.between(1, 4), self.random.below(4)),
            Pace::Wide => (self.random.between(1, 15), self.random.below(20)),
            Pace::Huge => {
                (self.random.pick(&[1, 2, 300, 40_000, 65_534, 65_535]), self.random.pick(&[0, 1, 500, 65_534]))
            }
        };
        (least as u16, (least + spread).min(65_535) as u16)
    }

    /// A value at, or one off, an end of a range.
    fn near(&mut self, (low, high): Range) -> i32 {
        let end = if self.random.chance(50) { low } else { high };
        end.saturating_add(self.random.pick(&[-1, 0, 0, 1]))
    }

    fn leaf(&mut self, known: &[Range]) -> Arithmetic {
        if !known.is_empty() && self.random.chance(60) {
            return Register(self.random.below(known.len()) as u8);
        }
        let value = self.value();
        Constant(value)
    }

    /// An expression exactly `depth` deep; it has a reading more often than not.
    fn spine(&mut self, depth: usize, known: &[Range]) -> Arithmetic {
        let mut whole = self.leaf(known);
        for level in 1..depth {
            let mut next = Operation(PLUS, Box::new(whole.clone()), Box::new(Constant(0)));
            for _ in 0..4 {
                let other = if level > 1 && self.random.chance(20) { self.spine(2, known) } else { self.leaf(known) };
                let (a, b) = if self.random.chance(50) { (whole.clone(), other) } else { (other, whole.clone()) };
                let operator = PLUS + self.random.below(4) as u8;
                let candidate = Operation(operator, Box::new(a), Box::new(b));
                if candidate.range(known).is_some() || self.random.chance(3) {
                    next = candidate;
                    break;
                }
            }
            whole = next;
        }
        whole
    }

    fn arithmetic(&mut self, known: &[Range]) -> Arithmetic {
        let depth = match self.random.below(20) {
            0..=8 => 2,
            9..=14 => 3,
            15..=17 => 4,
            18 => self.random.between(5, 11),
            _ => 12,
        };
        self.spine(depth, known)
    }

    /// A comparison at most `depth` deep, which is at least 2.
    fn comparison(&mut self, depth: usize, known: &[Range]) -> Condition {
        let code = self.random.pick(&[EQUAL, LESS, LESS]);
        if known.is_empty() || self.random.chance(15) {
            let depth = depth.min(4) - 1;
            return Comparison(code, self.spine(depth, known), self.spine(depth, known));
        }
        let register = self.random.below(known.len());
        let left = if depth > 2 && self.random.chance(15) { self.spine(2, known) } else { Register(register as u8) };
        let right = if self.random.chance(30) {
            Register(self.random.below(known.len()) as u8)
        } else {
            Constant(self.near(left.range(known).unwrap_or((0, 9))))
        };
        if self.random.chance(40) {
            Comparison(code, right, left)
        } else {
            Comparison(code, left, right)
        }
    }

    fn truth(&mut self) -> Condition {
        if self.random.chance(50) {
            True
        } else {
            False
        }
    }

    /// A condition exactly `depth` deep, but for a truth in place of its
    /// innermost comparison.
    fn condition(&mut self, depth: usize, known: &[Range]) -> Condition {
        let mut whole = match depth {
            1 => return self.truth(),
            _ if self.random.chance(5) => self.truth(),
            _ => self.comparison(2, known),
        };
        for level in 2..depth {
            whole = match self.random.below(5) {
                0 | 1 => Not(Box::new(whole)),
                kind => {
                    let other = match self.random.below(10) {
                        0 => self.truth(),
                        1 | 2 if level > 2 => Not(Box::new(self.comparison(2, known))),
                        _ => self.comparison(level.min(3), known),
                    };
                    let (whole, other) = (Box::new(whole), Box::new(other));
                    if kind == 2 {
                        And(other, whole)
                    } else {
                        And(whole, other)
                    }
                }
            };
        }
        whole
    }

    fn any_condition(&mut self, known: &[Range]) -> Condition {
        let depth = match self.random.below(20) {
            0 => 1,
            1..=6 => 2,
            7..=10 => 3,
            11..=14 => 4,
            15..=17 => 5,
            18 => self.random.between(6, 11),
            _ => 12,
        };
        self.condition(depth, known)
    }

    /// A comparison of a register with a value near the ends of its range.
    fn probe(&mut self, register: usize, range: Range) -> Condition {
        let (a, b) = (Register(register as u8), Constant(self.near(range)));
        let code = self.random.pick(&[EQUAL, LESS, LESS]);
        let probe = if self.random.chance(40) { Comparison(code, b, a) } else { Comparison(code, a, b) };
        if self.random.chance(20) {
            Not(Box::new(probe))
        } else {
            probe
        }
    }

    /// Probes of the registers, each a jump over a skip, then halt.
    fn probes(&mut self, count: usize, known: &[Range], statements: &mut Vec<Statement>) {
        for _ in 0..count {
            let register = self.random.below(known.len());
            let probe = self.probe(register, known[register]);
            let times = self.times();
            statements.push(jump(times, statements.len() + 2, &probe));
            statements.push(skip(self.times()));
        }
        statements.push(halt());
    }

    // ---- plans

    fn plan(&mut self) -> Plan {
        self.values = self.random.pick(&[Values::Small, Values::Small, Values::Small, Values::Extreme, Values::Any]);
        self.pace = self.random.pick(&[Pace::Unit, Pace::Unit, Pace::Tiny, Pace::Tiny, Pace::Wide, Pace::Huge]);
        match self.random.below(33) {
            0 | 1 => self.sequential(),
            2..=4 => self.branching(),
            5 | 6 => self.joined(),
            7 => self.guarded(),
            8 | 9 => self.parallel(),
            10..=12 => self.locking(),
            13 => self.looping(),
            14 | 15 => self.messages(),
            16..=18 => self.failing_and(),
            19..=21 => self.emptied(),
            22..=24 => self.chained(),
            25..=27 => self.faulting(),
            28..=30 => self.dividing(),
            _ => self.mixed(),
        }
    }

    /// One thread that works out values, then tells them apart.
    fn sequential(&mut self) -> Plan {
        let variables = self.ranges(&[0, 1, 2]);
        let registers = self.ranges(&[1, 2, 3]);
        let mut known = registers.clone();
        let mut kept = variables.clone();
        let mut statements = Vec::new();
        for _ in 0..self.random.between(1, 2) {
            let register = self.random.below(known.len());
            let times = self.times();
            if !kept.is_empty() && self.random.chance(40) {
                let variable = self.random.below(kept.len());
                if self.random.chance(50) {
                    kept[variable] = known[register];
                    statements.push(store(times, register as u8, variable as u8));
                } else {
                    known[register] = kept[variable];
                    statements.push(load(times, register as u8, variable as u8));
                }
            }
            let value = self.arithmetic(&known);
            if let Some(range) = value.range(&known) {
                known[register] = range;
            }
            statements.push(assign(times, register as u8, &value));
        }
        let count = self.random.between(1, 2);
        self.probes(count, &known, &mut statements);
        Plan::of(0, variables, vec![Thread { registers, statements }])
    }

    /// One thread with a condition, then probes on either side of it.
    fn branching(&mut self) -> Plan {
        let registers = self.ranges(&[1, 2, 2, 3]);
        let condition = self.any_condition(&registers);
        let mut statements = vec![jump(self.times(), 0, &condition)];
        let count = self.random.between(0, 2);
        self.probes(count, &registers, &mut statements);
        statements[0].rest[1] = statements.len() as u8;
        let count = if count == 0 { 2 } else { self.random.between(0, 1) };
        self.probes(count, &registers, &mut statements);
        Plan::of(0, vec![], vec![Thread { registers, statements }])
    }

    /// One side of an "and": a register against a constant, itself or another.
    fn side(&mut self, known: &[Range]) -> Condition {
        let register = self.random.below(known.len());
        let (low, high) = known[register];
        let inner = low.saturating_add(self.random.below(high.abs_diff(low) as usize % 9 + 1) as i32);
        let value = Constant(if self.random.chance(30) { self.near(known[register]) } else { inner });
        let own = Box::new(Register(register as u8));
        let other = match self.random.below(8) {
            0 => Register(self.random.below(known.len()) as u8),
            1 => Operation(19, Box::new(value), own),
            2 => Operation(PLUS, own, Box::new(value)),
            _ => value,
        };
        let code = self.random.pick(&[EQUAL, LESS, LESS, LESS]);
        let register = Register(register as u8);
        let side = if self.random.chance(50) {
            Comparison(code, register, other)
        } else {
            Comparison(code, other, register)
        };
        if self.random.chance(50) {
            Not(Box::new(side))
        } else {
            side
        }
    }

    /// A condition made of "and" and "not", then probes where it holds or fails.
    fn joined(&mut self) -> Plan {
        self.values = Values::Small;
        let registers = self.ranges(&[1, 2, 2]);
        let mut condition = And(Box::new(self.side(&registers)), Box::new(self.side(&registers)));
        if self.random.chance(30) {
            let (whole, more) = (Box::new(Not(Box::new(condition))), Box::new(self.side(&registers)));
            condition = if self.random.chance(50) { And(whole, more) } else { And(more, whole) };
        }
        if self.random.chance(30) {
            condition = Not(Box::new(condition));
        }
        // the other branch halts at once
        let mut statements = vec![jump(self.times(), 2, &Not(Box::new(condition.clone()))), halt()];
        if self.random.chance(25) {
            statements[0] = jump(self.times(), 2, &condition);
        }
        let count = self.random.between(1, 2);
        self.probes(count, &registers, &mut statements);
        Plan::of(0, vec![], vec![Thread { registers, statements }])
    }

    /// Registers of some values each.
    fn wide_ranges(&mut self, count: usize) -> Vec<Range> {
        (0..count)
            .map(|_| {
                let low = self.random.between(0, 8) as i32 - 4;
                (low, low + self.random.between(3, 9) as i32)
            })
            .collect()
    }

    /// A comparison that a register's range leaves open: against a constant inside
    /// it, another register or itself mirrored.
    fn open_comparison(&mut self, known: &[Range]) -> Condition {
        let register = self.random.below(known.len());
        let (low, high) = known[register];
        let value = low + self.random.below((high - low) as usize) as i32;
        let own = Register(register as u8);
        let condition = match self.random.below(12) {
            0..=3 => Comparison(LESS, own, Constant(value + 1)),
            4..=7 => Comparison(LESS, Constant(value), own),
            8 | 9 => Comparison(EQUAL, own, Constant(value)),
            10 => Comparison(LESS, own, Register(self.random.below(known.len()) as u8)),
            _ => self.mirrored(register as u8, (low, high)),
        };
        if self.random.chance(40) {
            not(condition)
        } else {
            condition
        }
    }

    /// A register against a constant less that register.
    fn mirrored(&mut self, register: u8, (low, high): Range) -> Condition {
        let sum = low + high + self.random.below(5) as i32 - 2;
        let other = Operation(19, Box::new(Constant(sum)), Box::new(Register(register)));
        if self.random.chance(50) {
            Comparison(LESS, Register(register), other)
        } else {
            Comparison(LESS, other, Register(register))
        }
    }

    /// One thread that goes on where the condition holds, by the yes state or by
    /// the no state of an if, and halts where it fails; then it tells the ends of
    /// the registers from their neighbours.
    fn followed(&mut self, registers: Vec<Range>, condition: Condition, ends: &[Range]) -> Plan {
        let yes = self.random.chance(50);
        let mut statements = if yes {
            vec![jump(self.times(), 2, &condition), halt()]
        } else {
            vec![jump(self.times(), 0, &not(condition))]
        };
        for _ in 0..self.random.between(2, 4) {
            self.end_probe(ends, &mut statements);
        }
        statements.push(halt());
        if !yes {
            statements[0].rest[1] = statements.len() as u8 - 1;
        }
        Plan::of(0, vec![], vec![Thread { registers, statements }])
    }

    /// A test that comes out otherwise if an end of a register is one further out
    /// or in, or a divisor that is 0 only then.
    fn end_probe(&mut self, ends: &[Range], statements: &mut Vec<Statement>) {
        let register = self.random.below(ends.len());
        let (low, high) = ends[register];
        let own = || Register(register as u8);
        let probe = match self.random.below(12) {
            0 | 1 => Comparison(LESS, own(), Constant(low)),
            2 | 3 => Comparison(LESS, own(), Constant(low + 1)),
            4 | 5 => Comparison(LESS, Constant(high), own()),
            6 | 7 => Comparison(LESS, Constant(high - 1), own()),
            8 => Comparison(EQUAL, own(), Constant(self.random.pick(&[low - 1, low, high, high + 1]))),
            kind => {
                let divisor = match kind {
                    9 => Operation(19, Box::new(own()), Box::new(Constant(low - 1))),
                    10 => Operation(19, Box::new(Constant(high + 1)), Box::new(own())),
                    _ => Operation(19, Box::new(own()), Box::new(Constant(self.random.pick(&[low, high])))),
                };
                let quotient = Operation(DIVIDE, Box::new(Constant(12)), Box::new(divisor));
                let times = self.times();
                statements.push(assign(times, register as u8, &quotient));
                return;
            }
        };
        statements.push(jump(self.times(), statements.len() + 2, &probe));
        statements.push(skip(self.times()));
    }

    /// An "and" both of whose sides may fail, followed where it fails: the two
    /// sides' registers are joined.
    fn failing_and(&mut self) -> Plan {
        self.values = Values::Small;
        loop {
            let count = self.random.pick(&[1, 2, 2, 3]);
            let registers = self.wide_ranges(count);
            let mut part = || self.open_comparison(&registers);
            let (a, b, c, d) = (part(), part(), part(), part());
            let (left, right) = match self.random.below(7) {
                0 => (a, b),
                1 => (and(a, b), c),
                2 => (a, and(b, c)),
                3 => (not(and(a, b)), c),
                4 => (a, not(and(b, c))),
                _ => (not(and(a, b)), not(and(c, d))),
            };
            let left_fails = all_ends(&registers, &not(left.clone()));
            let right_fails = all_ends(&registers, &not(right.clone()));
            let (Some(left_fails), Some(right_fails)) = (left_fails, right_fails) else { continue };
            if left_fails == right_fails && !self.random.chance(10) {
                continue;
            }
            let fails = not(and(left, right));
            // alone, or with a part before or after it
            let whole = match self.random.below(4) {
                0 => and(self.open_comparison(&registers), fails),
                1 => and(fails, self.open_comparison(&registers)),
                _ => fails,
            };
            let Some(ends) = all_ends(&registers, &whole) else { continue };
            if ends == registers && !self.random.chance(20) {
                continue;
            }
            return self.followed(registers, whole, &ends);
        }
    }

    /// Two parts that values of a register meet, but none meets both: the second
    /// part is empty after the first.
    fn contradiction(&mut self, known: &[Range]) -> (Condition, Condition) {
        let register = self.random.below(known.len());
        let (low, high) = known[register];
        let value = low + self.random.below((high - low) as usize) as i32;
        let own = || Register(register as u8);
        let below = Comparison(LESS, own(), Constant(value + 1));
        let is = |value: i32| Comparison(EQUAL, own(), Constant(value));
        match self.random.below(10) {
            0 => (below, Comparison(LESS, Constant(self.random.pick(&[value, value + 1])), own())),
            1 => (Comparison(LESS, Constant(value), own()), Comparison(LESS, own(), Constant(value + 1))),
            2 => (below.clone(), not(below)),
            3 => (is(value), is(value + 1)),
            4 => (is(value), not(is(value))),
            // two values are left, and less of the register and itself takes both
            5..=8 => {
                let from = not(Comparison(LESS, own(), Constant(value)));
                let two = and(from, Comparison(LESS, own(), Constant(value + 2)));
                (two, Comparison(LESS, own(), own()))
            }
            _ => {
                let other = self.random.below(known.len()) as u8;
                let same = Comparison(EQUAL, own(), Register(other));
                (and(is(value), same), Comparison(LESS, own(), Register(other)))
            }
        }
    }

    /// A condition with a part in its middle that leaves a register nothing: it
    /// empties what it stands in, and an "or" around that goes on with the other
    /// side alone.
    fn emptied(&mut self) -> Plan {
        self.values = Values::Small;
        loop {
            let count = self.random.pick(&[1, 2, 2, 3]);
            let registers = self.wide_ranges(count);
            let (first, second) = self.contradiction(&registers);
            let mut part = || self.open_comparison(&registers);
            let (a, b, c) = (part(), part(), part());
            // an "and" that never holds; a state is made only where it fails
            if self.random.chance(40) {
                let never = match self.random.below(3) {
                    0 => and(a, and(and(first, second), b)),
                    1 => and(and(a, first), and(second, b)),
                    _ => and(or(a, b), and(first, and(second, c))),
                };
                return self.followed(registers.clone(), not(never), &registers);
            }
            let whole = match self.random.below(7) {
                // the empty side first, then last
                0 => or(and(first, second), and(a, b)),
                1 => or(and(a, b), and(first, second)),
                2 => or(and(and(a, first), and(second, b)), c),
                3 => or(a, and(and(b, first), and(second, c))),
                // empty only by what stands before
                4 => and(and(a, first), or(second, b)),
                5 => and(and(a, first), or(b, and(second, c))),
                _ => and(a, and(or(and(first, second), b), c)),
            };
            let Some(ends) = all_ends(&registers, &whole) else { continue };
            if ends == registers && !self.random.chance(20) {
                continue;
            }
            return self.followed(registers, whole, &ends);
        }
    }

    /// An "and" whose right side takes an end of a register that its left side
    /// moves: it is worked out on what the left side leaves where the "and" holds,
    /// and on the registers before it where the "and" fails.
    fn chained(&mut self) -> Plan {
        self.values = Values::Small;
        loop {
            let registers = self.wide_ranges(2);
            let fails = self.random.chance(40);
            let ((low, high), own, other) = (registers[0], Register(0), Register(1));
            let value = low + self.random.below((high - low) as usize) as i32;
            let sum = Constant(low + high + self.random.below(5) as i32 - 2);
            let mirrored = Operation(19, Box::new(sum), Box::new(own.clone()));
            let kind = if fails { 3 } else { self.random.below(4) };
            let (left, right) = if self.random.chance(50) {
                let right = match kind {
                    0 => Comparison(LESS, other, own.clone()),
                    1 => not(Comparison(LESS, own.clone(), other)),
                    2 => Comparison(EQUAL, own.clone(), other),
                    _ => Comparison(LESS, own.clone(), mirrored),
                };
                (Comparison(LESS, own, Constant(value + 1)), right)
            } else {
                let right = match kind {
                    0 => Comparison(LESS, own.clone(), other),
                    1 => not(Comparison(LESS, other, own.clone())),
                    2 => Comparison(EQUAL, own.clone(), other),
                    _ => Comparison(LESS, mirrored, own.clone()),
                };
                (Comparison(LESS, Constant(value), own), right)
            };
            let both = and(left.clone(), right.clone());
            let (whole, otherwise) = if fails {
                let held = all_ends(&registers, &left).and_then(|held| all_ends(&held, &not(right.clone())));
                (not(both), hull(held, all_ends(&registers, &not(left))))
            } else {
                (both, all_ends(&registers, &and(right, left)))
            };
            let Some(ends) = all_ends(&registers, &whole) else { continue };
            if otherwise.as_ref() == Some(&ends) && !self.random.chance(5) {
                continue;
            }
            return self.followed(registers, whole, &ends);
        }
    }

    /// A part of a condition without a reading, or with one only where another
    /// part holds.
    fn guarded(&mut self) -> Plan {
        let low = self.random.pick(&[-2, -1, 0, 0, 1]);
        let registers = vec![(low, low + self.random.between(1, 5) as i32), self.range()];
        let own = || Box::new(Register(0));
        let risky = match self.random.below(4) {
            0 => Operation(TIMES, own(), Box::new(Constant(self.random.pick(&[i32::MAX, i32::MIN, i32::MAX / 2])))),
            1 => Operation(PLUS, own(), Box::new(Constant(i32::MAX - self.random.below(3) as i32))),
            _ => Operation(DIVIDE, Box::new(self.leaf(&registers)), own()),
        };
        let other = self.leaf(&registers);
        let code = self.random.pick(&[EQUAL, LESS]);
        let part = if self.random.chance(50) { Comparison(code, risky, other) } else { Comparison(code, other, risky) };
        let guard = if self.random.chance(70) {
            Comparison(LESS, Constant(0), Register(0))
        } else {
            self.side(&registers)
        };
        let part = if self.random.chance(30) { Not(Box::new(part)) } else { part };
        let (part, guard) = (Box::new(part), Box::new(guard));
        let condition = if self.random.chance(70) { And(guard, part) } else { And(part, guard) };
        let condition = if self.random.chance(30) { Not(Box::new(condition)) } else { condition };
        let statements = vec![jump(self.times(), 2, &condition), skip(self.times()), halt()];
        Plan::of(0, vec![], vec![Thread { registers, statements }])
    }

    /// An expression of which several parts may be without a reading, for zero or
    /// for size; r0 may be 0, r1 stands at an end of the values, r2 is small.
    fn risky(&mut self, depth: usize) -> Arithmetic {
        if depth > 1 && self.random.chance(80) {
            let operator = self.random.pick(&[PLUS, PLUS, MINUS, TIMES, DIVIDE]);
            let (left, right) = (self.risky(depth - 1), self.risky(depth - 1));
            return operation(operator, left, right);
        }
        match self.random.below(10) {
            0 | 1 => Register(2),
            2 => Register(0),
            3 => Constant(self.random.pick(&[-1, 0, 1, 2])),
            4..=6 => {
                let divisor = match self.random.below(3) {
                    0 => operation(TIMES, Register(0), Register(2)),
                    _ => Register(0),
                };
                operation(DIVIDE, Register(self.random.pick(&[1, 2, 2])), divisor)
            }
            kind => {
                let operator = self.random.pick(&[PLUS, MINUS, TIMES, DIVIDE]);
                let other = Constant(self.random.pick(&[-2, -1, -1, 1, 1, 2]));
                match kind {
                    // no divide by it
                    7 => operation(operator.min(TIMES), other, Register(1)),
                    _ => operation(operator, Register(1), other),
                }
            }
        }
    }

    fn risky_condition(&mut self, depth: usize) -> Condition {
        let whole = if depth > 1 && self.random.chance(60) {
            and(self.risky_condition(depth - 1), self.risky_condition(depth - 1))
        } else {
            match self.random.below(6) {
                // what would keep the one or the other off, were it looked at first
                0 => Comparison(LESS, Constant(0), Register(0)),
                1 => Comparison(LESS, Register(1), Constant(i32::MAX)),
                _ => {
                    let code = self.random.pick(&[EQUAL, LESS]);
                    let depth = self.random.pick(&[1, 1, 2]);
                    Comparison(code, self.risky(depth), self.risky(depth))
                }
            }
        };
        if self.random.chance(30) {
            not(whole)
        } else {
            whole
        }
    }

    /// Threads with statements in which left and right parts often lack a reading
    /// for different reasons.
    fn faulting(&mut self) -> Plan {
        let count = self.random.pick(&[1, 1, 1, 2, 2, 3]);
        let threads = (0..count)
            .map(|_| {
                let (least, most) = (i32::MIN, i32::MAX);
                let ends = [(most - 1, most), (most, most), (most - 3, most - 2), (least, least), (least, -5)];
                let registers = vec![
                    self.random.pick(&[(-1, 1), (0, 3), (-1, 0), (0, 0), (1, 2), (-2, -1)]),
                    self.random.pick(&ends),
                    self.random.pick(&[(2, 3), (1, 1), (-3, 4)]),
                ];
                let mut statements = Vec::new();
                if self.random.chance(30) {
                    statements.push(skip(self.times()));
                }
                for _ in 0..self.random.pick(&[1, 1, 2]) {
                    let times = self.times();
                    statements.push(if self.random.chance(50) {
                        assign(times, 2, &self.risky(3))
                    } else {
                        let condition = self.risky_condition(2);
                        jump(times, statements.len() + 1, &condition)
                    });
                }
                statements.push(halt());
                Thread { registers, statements }
            })
            .collect();
        Plan::of(0, vec![], threads)
    }

    /// A range above 0, below 0 or, if asked for, on both sides of it.
    fn signed_range(&mut self, across_zero: bool) -> Range {
        let low = self.random.between(1, 30) as i32;
        let high = low + self.random.pick(&[0, 0, 1, 3, 12]);
        match self.random.below(3) {
            0 => (low, high),
            1 => (-high, -low),
            _ if across_zero => (-low, high),
            // a divisor: small more often
            _ => self.random.pick(&[(2, 3), (-3, -2), (-2, -2), (-4, -1), (1, 4)]),
        }
    }

    /// Quotients of registers 1 and 2 and of small constants: one alone, one inside
    /// another, a remainder, a sum.
    fn divided(&mut self) -> Arithmetic {
        let whole = || operation(DIVIDE, Register(1), Register(2));
        let few = Constant(self.random.pick(&[-5, -3, -2, -1, 1, 2, 3, 5]));
        match self.random.below(10) {
            0..=3 => whole(),
            4 => operation(DIVIDE, Register(1), few),
            5 => operation(DIVIDE, operation(TIMES, few, Register(1)), Register(2)),
            6 => operation(DIVIDE, whole(), few),
            7 => operation(DIVIDE, Register(1), operation(DIVIDE, Register(2), few)),
            8 => operation(MINUS, Register(1), operation(TIMES, whole(), Register(2))),
            _ => operation(PLUS, operation(DIVIDE, few, Register(2)), whole()),
        }
    }

    /// Quotients of both signs, in an assignment or in a condition, whose ends are
    /// then told from their neighbours.
    fn dividing(&mut self) -> Plan {
        let mut registers = vec![(0, 0), self.signed_range(true), self.signed_range(false)];
        let value = self.divided();
        let range = value.range(&registers);
        if let (Some(range), true) = (range, self.random.chance(50)) {
            let (before, condition, after) = narrowed_to(0, &value, range, self.random.below(NARROWED_FORMS));
            registers[0] = before;
            return self.followed(registers, condition, &[after]);
        }
        let mut statements = vec![assign(self.times(), 0, &value)];
        for _ in 0..self.random.between(2, 4) {
            // without a reading no test is reached
            self.end_probe(&[range.unwrap_or((0, 0))], &mut statements);
        }
        statements.push(halt());
        Plan::of(0, vec![], vec![Thread { registers, statements }])
    }

    /// Threads whose statements differ in times.
    fn parallel(&mut self) -> Plan {
        let count = self.random.pick(&[2, 2, 3, 3, 4]);
        let most = [4, 2, 1][count - 2];
        let threads = (0..count)
            .map(|_| {
                let mut statements: Vec<Statement> =
                    (0..self.random.between(1, most)).map(|_| skip(self.times())).collect();
                let mut registers = vec![];
                if self.random.chance(15) {
                    // something without a reading, perhaps never reached
                    registers.push((-1, 1));
                    let value = if self.random.chance(50) {
                        operation(DIVIDE, Constant(1), Register(0))
                    } else {
                        operation(PLUS, Register(0), Constant(i32::MAX))
                    };
                    let at = self.random.below(statements.len() + 1);
                    statements.insert(at, assign(self.times(), 0, &value));
                }
                statements.push(halt());
                Thread { registers, statements }
            })
            .collect();
        Plan::of(0, vec![], threads)
    }

    /// Threads that take, retake and free locks, their own and each other's.
    fn locking(&mut self) -> Plan {
        let count = self.random.pick(&[1, 2, 2, 2, 2, 3, 3, 4]);
        let locks = self.random.pick(&[1, 1, 2, 2, 3, 8]);
        let most = [5, 5, 3, 2][count - 1];
        if count > 2 {
            self.pace = self.random.pick(&[Pace::Unit, Pace::Tiny]);
        }
        let threads = (0..count)
            .map(|_| {
                let mut statements = Vec::new();
                for _ in 0..self.random.between(1, most) {
                    let (times, name) = (self.times(), self.random.below(locks) as u8);
                    statements.push(match self.random.below(8) {
                        0..=3 => lock(times, name),
                        4..=6 => unlock(times, name),
                        _ => skip(times),
                    });
                }
                statements.push(halt());
                Thread { registers: vec![], statements }
            })
            .collect();
        Plan::of(locks as u8, vec![], threads)
    }

    /// A counted loop, alone or beside another thread.
    fn looping(&mut self) -> Plan {
        let start = self.random.below(3) as i32;
        let turns = self.random.between(1, 8) as i32;
        let step = self.random.pick(&[1, 1, 2, 3]);
        let more = Operation(PLUS, Box::new(Register(0)), Box::new(Constant(step)));
        let test = Comparison(LESS, Register(0), Constant(turns));
        let test = if self.random.chance(20) { Not(Box::new(Not(Box::new(test)))) } else { test };
        let mut statements = vec![assign(self.times(), 0, &more)];
        if self.random.chance(30) {
            statements.push(skip(self.times()));
        }
        statements.push(jump(self.times(), 0, &test));
        statements.push(halt());
        let spread = self.random.pick(&[0, 0, 1]);
        let mut threads = vec![Thread { registers: vec![(start, start + spread)], statements }];
        if self.random.chance(40) {
            let other = vec![skip(self.times()), halt()];
            let at = self.random.below(2);
            threads.insert(at, Thread { registers: vec![], statements: other });
        }
        Plan::of(0, vec![], threads)
    }

    /// Threads that store to and load from shared variables, with tests.
    fn messages(&mut self) -> Plan {
        let variables = self.ranges(&[1, 2]);
        let count = self.random.pick(&[2, 2, 2, 3]);
        let threads = (0..count)
            .map(|_| {
                let registers = self.ranges(&[1, 2]);
                let mut statements = Vec::new();
                for _ in 0..self.random.between(1, 2) {
                    let register = self.random.below(registers.len()) as u8;
                    let variable = self.random.below(variables.len()) as u8;
                    let times = self.times();
                    statements.push(match self.random.below(5) {
                        0 | 1 => store(times, register, variable),
                        2 | 3 => load(times, register, variable),
                        _ => assign(times, register, &self.spine(2, &registers)),
                    });
                }
                if self.random.chance(60) {
                    let known: Vec<Range> = registers.iter().chain(&variables).copied().collect();
                    let register = self.random.below(registers.len());
                    let near = self.random.below(known.len());
                    let probe = self.probe(register, known[near]);
                    statements.push(jump(self.times(), statements.len() + 2, &probe));
                    statements.push(skip(self.times()));
                }
                statements.push(halt());
                Thread { registers, statements }
            })
            .collect();
        Plan::of(0, variables, threads)
    }

    /// Any statements, jumps anywhere, halts in the middle.
    fn mixed(&mut self) -> Plan {
        let count = self.random.pick(&[1, 1, 2, 2, 3, 4]);
        let variables = self.ranges(&[0, 0, 1, 1, 2, 3, 8]);
        let locks = self.random.below(3);
        let most = [6, 3, 2, 1][count - 1];
        let threads = (0..count)
            .map(|_| {
                let registers = self.ranges(&[0, 1, 1, 2]);
                let length = self.random.between(1, most) + 1;
                let statements =
                    (1..length).map(|_| self.statement(&registers, variables.len(), locks, length)).collect();
                let mut thread = Thread { registers, statements };
                thread.statements.push(halt());
                thread
            })
            .collect();
        Plan::of(locks as u8, variables, threads)
    }

    fn statement(&mut self, registers: &[Range], variables: usize, locks: usize, length: usize) -> Statement {
        let times = self.times();
        for _ in 0..4 {
            match self.random.below(20) {
                0 => return halt(),
                1 | 2 => return skip(times),
                3..=6 if !registers.is_empty() => {
                    let value = self.arithmetic(registers);
                    return assign(times, self.random.below(registers.len()) as u8, &value);
                }
                7..=11 => {
                    let condition = self.any_condition(registers);
                    let past = usize::from(self.random.chance(4));
                    let target = self.random.below(length + past);
                    return jump(times, target, &condition);
                }
                12..=15 if !registers.is_empty() && variables > 0 => {
                    let register = self.random.below(registers.len()) as u8;
                    let variable = self.random.below(variables) as u8;
                    return if self.random.chance(50) {
                        store(times, register, variable)
                    } else {
                        load(times, register, variable)
                    };
                }
                16..=19 if locks > 0 => {
                    let name = self.random.below(locks) as u8;
                    return if self.random.chance(60) { lock(times, name) } else { unlock(times, name) };
                }
                _ => {}
            }
        }
        skip(times)
    }

    // ---- headers and buffers that just suffice, or just do not

    fn good(&mut self) -> Entry {
        let plan = self.plan();
        self.tuned(plan)
    }

    fn length(&mut self) -> usize {
        if self.random.chance(70) {
            self.random.pick(&LENGTHS)
        } else {
            self.random.below(2000)
        }
    }

    fn tuned(&mut self, mut plan: Plan) -> Entry {
        let Some(found) = answer(&plan.bytes(), PLAIN) else { unreachable!("the budget is small") };
        let same = |plan: &Plan, length: usize| {
            answer(&plan.bytes(), length).is_some_and(|other| {
                (other.refusal, other.place, other.steps) == (found.refusal, found.place, found.steps)
            })
        };
        let (low, high, steps) = (found.low as u32, found.high as u32, found.steps as u32);
        let mut length = PLAIN;
        match found.refusal {
            0 => {
                let exact = self.random.chance(50);
                if exact {
                    (plan.low, plan.high) = (low, high);
                }
                match self.random.below(10) {
                    0 => (plan.low, plan.high) = (low, high),
                    1 => (plan.low, plan.high) = ((low + 1).min(high), high),
                    2 => (plan.low, plan.high) = (low, high.max(low + 1) - 1),
                    3 => plan.budget = steps,
                    4 => plan.budget = (steps - 1).max(1),
                    5 => plan = plan.limited(high),
                    6 => plan = plan.limited(high.max(1) - 1),
                    7 => {
                        length = least(1, 120, |slots| same(&plan, slots as usize * 100)) as usize * 100
                            + self.random.pick(&[0, 0, 1, 99])
                    }
                    8 => {
                        length = (least(1, 120, |slots| same(&plan, slots as usize * 100)) as usize * 100)
                            - self.random.pick(&[1, 1, 100])
                    }
                    _ => {
                        length = least(1, 120, |slots| same(&plan, slots as usize * 100)) as usize * 100;
                        plan = plan.limited(high);
                        plan.budget = steps;
                    }
                }
                if plan.low > plan.high {
                    plan.low = plan.high;
                }
            }
            10 | 11 | 16 => match self.random.below(8) {
                0 => plan.budget = steps,
                1 => plan.budget = (steps - 1).max(1),
                2 => length = least(1, 120, |slots| same(&plan, slots as usize * 100)) as usize * 100,
                3 => length = (least(1, 120, |slots| same(&plan, slots as usize * 100)) as usize - 1) * 100 + 99,
                4 | 5 => plan = plan.limited(least(1, LIMIT, |limit| same(&plan.limited(limit), PLAIN))),
                6 => plan = plan.limited(least(1, LIMIT, |limit| same(&plan.limited(limit), PLAIN)).max(2) - 1),
                _ => {}
            },
            // a loop, or a long wait
            _ => match self.random.below(4) {
                0 => plan.budget = self.random.between(1, 60) as u32,
                1 => length = self.length(),
                _ => {
                    let limit = self.random.between(1, 40) as u32;
                    plan = plan.limited(limit);
                    plan.budget = self.random.pick(&[20, 100, 200, 1000]);
                }
            },
        }
        if self.random.chance(4) {
            length = self.length();
        }
        if self.random.chance(3) && plan.budget == 2000 && found.steps < 2000 {
            plan.budget = self.random.pick(&[2001, 65_536, 9_999_999, 10_000_000]);
        }
        Entry { sheet: plan.bytes(), length }
    }

    // ---- sheets that the reader refuses

    /// A short plan, so that what is changed is most of the sheet.
    fn base(&mut self) -> Vec<u8> {
        let mut plan = self.plan();
        for _ in 0..9 {
            if plan.bytes().len() < 140 {
                break;
            }
            plan = self.plan();
        }
        if self.random.chance(50) {
            (plan.limit, plan.budget, plan.low, plan.high) = (60, 100, 0, 60);
        }
        plan.bytes()
    }

    fn byte(&mut self) -> u8 {
        match self.random.below(4) {
            0 => self.random.next() as u8,
            1 => self.random.pick(&[0, 1, 8, 9, 12, 64, 127, 128, 255]),
            2 => self.random.below(8) as u8,
            _ => self.random.pick(&[16, 17, 18, 19, 20, 21, 22, 31, 32, 33, 34, 35, 36, 37, 38]),
        }
    }

    fn mutate(&mut self, sheet: &mut Vec<u8>) {
        let places = fields(sheet);
        if sheet.is_empty() || places.is_empty() {
            return sheet.push(1);
        }
        let at = self.random.below(sheet.len());
        let chosen = self.random.below(places.len());
        let place = places[chosen];
        let end = places.get(chosen + 1).copied().unwrap_or(sheet.len()).min(sheet.len());
        match self.random.below(14) {
            0 => sheet[at] = self.byte(),
            1 => sheet[at] = sheet[at].wrapping_add(self.random.pick(&[1, 255])),
            2 => sheet.insert(at, self.byte()),
            3 => drop(sheet.remove(at)),
            // the length, with and without the body
            4 => sheet[place + 2] = sheet[place + 2].wrapping_add(self.random.pick(&[1, 2, 254, 255])),
            5 => {
                sheet.insert(end, self.byte());
                sheet[place + 2] = sheet[place + 2].wrapping_add(1);
            }
            6 if end > place + 3 => {
                sheet.remove(end - 1);
                sheet[place + 2] = sheet[place + 2].wrapping_sub(1);
            }
            7 => sheet[place] = self.random.below(8) as u8,
            // a field lost, said twice, or swapped with the next
            8 => drop(sheet.drain(place..end)),
            9 => {
                let again = sheet[place..end].to_vec();
                sheet.splice(end..end, again);
            }
            10 => {
                let last = places.get(chosen + 2).copied().unwrap_or(sheet.len()).min(sheet.len());
                let moved: Vec<u8> = sheet.drain(place..end).collect();
                let to = last - moved.len();
                sheet.splice(to..to, moved);
            }
            11 => {
                for _ in 0..self.random.between(1, 3) {
                    sheet.push(self.byte());
                }
            }
            12 => sheet.truncate(at),
            // inside a body
            _ if end > place + 3 => {
                let at = self.random.between(place + 3, end - 1);
                sheet[at] = self.byte();
            }
            _ => sheet[place + 1] = self.random.pick(&[1, 255]),
        }
    }

    fn mutated(&mut self) -> Entry {
        let mut sheet = self.base();
        for _ in 0..self.random.pick(&[1, 1, 1, 2, 3]) {
            self.mutate(&mut sheet);
        }
        let length = if self.random.chance(90) { PLAIN } else { self.length() };
        Entry { sheet, length }
    }

    /// A sheet that ends somewhere, or goes on past its end.
    fn cut(&mut self) -> Entry {
        let mut sheet = self.base();
        let places = fields(&sheet);
        let place = self.random.pick(&places);
        match self.random.below(5) {
            0 => sheet.truncate(place),
            1 => sheet.truncate(place + self.random.between(1, 2)),
            2 => sheet.truncate(place + 3),
            3 => sheet.truncate(self.random.below(sheet.len())),
            _ => {
                for _ in 0..self.random.between(1, 3) {
                    sheet.push(self.random.pick(&[0, 1, 2, 4, 5, 6, 6, 7, 9]));
                }
            }
        }
        Entry { sheet, length: PLAIN }
    }

    /// A few locks, variables and registers, and fields up to a thread's first
    /// statement.
    fn start(&mut self) -> (Vec<u8>, usize, usize, usize) {
        let (locks, variables, registers) =
            (self.random.below(3), self.random.below(3), self.random.pick(&[0, 1, 1, 2]));
        let opening = Plan::of(locks as u8, vec![(0, 0); variables], vec![]).limited(60).opening();
        let thread = Thread { registers: vec![(0, 1); registers], statements: vec![] };
        ([opening, thread.bytes()].concat(), locks, variables, registers)
    }

    /// Several faults in one statement's field, so that their order shows.
    fn faulty_statement(&mut self) -> Entry {
        let (mut sheet, locks, variables, registers) = self.start();
        if self.random.chance(25) {
            sheet.extend(field(6, &body(&skip((1, 1)))));
        }
        let code = self.random.pick(&[0, 1, 2, 2, 2, 2, 3, 3, 3, 3, 4, 5, 6, 7, 8, 255]);
        let odd = |random: &mut Random, count: usize| match random.below(8) {
            0 => count as u8,
            1 => 255,
            _ => random.below(count.max(1)) as u8,
        };
        let mut rest = vec![code];
        match code {
            2 => rest.push(odd(&mut self.random, registers)),
            3 => rest.push(self.random.below(5) as u8),
            4 | 5 => rest.extend([odd(&mut self.random, registers), odd(&mut self.random, variables)]),
            6 | 7 => rest.push(odd(&mut self.random, locks)),
            _ => {}
        }
        if code == 2 || code == 3 {
            let expression = self.odd_expression(code == 3, registers);
            rest.extend(expression);
        }
        let right = if code == 0 { (0, 0) } else { (1, 2) };
        let times = if self.random.chance(75) {
            right
        } else {
            self.random.pick(&[(0, 0), (0, 1), (1, 0), (2, 1), (1, 1), (0, 65_535), (65_535, 65_534), (65_535, 65_535)])
        };
        let mut bytes = body(&Statement { times, rest });
        match self.random.below(8) {
            0 => bytes.truncate(self.random.below(bytes.len() + 1)),
            1 => bytes.push(self.byte()),
            2 => bytes.truncate(self.random.between(4, 6).min(bytes.len())),
            _ => {}
        }
        let mut whole = field(if self.random.chance(6) { self.byte() } else { 6 }, &bytes);
        match self.random.below(12) {
            0 => whole[2] = whole[2].wrapping_add(self.random.pick(&[1, 2, 255])),
            1 => whole[1] = 1,
            2 => whole.truncate(self.random.between(1, whole.len())),
            _ => {}
        }
        sheet.extend(whole);
        if self.random.chance(70) {
            sheet.extend(field(6, &body(&halt())));
        }
        Entry { sheet, length: PLAIN }
    }

    /// The bytes of an expression with a fault or two, or none.
    fn odd_expression(&mut self, condition: bool, registers: usize) -> Vec<u8> {
        self.values = Values::Small;
        let known = vec![(0, 1); registers];
        let depth = self.random.pick(&[1, 2, 2, 2, 3, 3, 4, 11, 12]);
        let mut bytes = Vec::new();
        if self.random.chance(8) != condition {
            self.condition(depth, &known).put(&mut bytes);
        } else {
            self.spine(depth, &known).put(&mut bytes);
        }
        if self.random.chance(20) {
            // one deeper, on either side
            let wrap: &[&[u8]] =
                if condition { &[&[34], &[35, 32], &[35, 33]] } else { &[&[18, 17, 0], &[19, 16, 0, 0, 0, 1]] };
            let before = self.random.pick(wrap);
            bytes.splice(0..0, before.iter().copied());
        }
        for _ in 0..self.random.pick(&[0, 0, 1, 1, 2]) {
            let at = self.random.below(bytes.len());
            match self.random.below(6) {
                0 => bytes[at] = self.byte(),
                1 => drop(bytes.remove(at)),
                2 => bytes.insert(at, self.byte()),
                3 => bytes.push(self.byte()),
                4 => bytes.truncate(at),
                _ => {
                    // a register that is absent
                    if let Some(place) = bytes.iter().position(|&byte| byte == 17) {
                        if place + 1 < bytes.len() {
                            bytes[place + 1] = self.random.pick(&[registers as u8, 255]);
                        }
                    }
                }
            }
            if bytes.is_empty() {
                break;
            }
        }
        bytes
    }

    /// Threads that close badly, or nearly so, and what stands after them.
    fn closing(&mut self) -> Entry {
        let before = self.random.pick(&[0, 0, 1, 2, 3, 3, 4]);
        let plain = Thread { registers: vec![], statements: vec![halt()] };
        let mut sheet = Plan::of(0, vec![], vec![plain.clone(); before]).limited(60).bytes();
        let mut statements = Vec::new();
        let count = self.random.between(1, 3);
        for _ in 0..count {
            statements.push(match self.random.below(4) {
                0 => skip((1, 1)),
                1 => halt(),
                _ => jump((1, 1), self.random.pick(&[0, 1, count - 1, count, count + 1, 255]), &False),
            });
        }
        if self.random.chance(60) {
            statements.push(halt());
        }
        sheet.extend(Thread { registers: vec![], statements }.bytes());
        match self.random.below(12) {
            0 | 1 => {}
            2 => sheet.push(self.random.pick(&[4, 6, 2, 9])),
            3 => sheet.extend([self.random.pick(&[4, 6, 2, 9]), 0]),
            4 => sheet.extend([4, 0, 1]),
            5 => sheet.extend([4, 0, self.random.pick(&[0, 2])]),
            6 => sheet.extend([self.random.pick(&[0, 1, 2, 3, 5, 7, 255]), 0, self.random.pick(&[0, 1, 8])]),
            7 => sheet.extend([6, 0, self.random.pick(&[4, 5, 6])]),
            8 => sheet.extend([4, 0, 1, 9]),
            9 => sheet.extend([4, 0, 2, 0, 0]),
            10 => sheet.extend([4, 0, 1, 1]),
            _ => sheet.extend(plain.bytes()),
        }
        Entry { sheet, length: PLAIN }
    }

    /// One too many of something, or just enough, with the field at fault in
    /// other ways as well.
    fn too_many(&mut self) -> Entry {
        let variables = self.random.pick(&[0, 0, 7, 8, 8, 9]);
        let threads = if variables > 0 { self.random.between(0, 1) } else { self.random.between(3, 5) };
        let plain = Thread { registers: vec![(0, 0); self.random.pick(&[0, 0, 0, 1])], statements: vec![halt()] };
        let plan = Plan::of(0, vec![(0, 1); variables], vec![plain.clone(); threads]).limited(60);
        let mut sheet = plan.bytes();
        let mut last = match self.random.below(3) {
            0 => range_field(2, self.random.pick(&[(0, 0), (1, 0)])),
            1 => plain.bytes(),
            _ => field(self.random.below(8) as u8, &[self.random.pick(&[0, 8, 9])]),
        };
        match self.random.below(4) {
            0 => last.truncate(self.random.below(last.len() + 1)),
            1 => last[2] = last[2].wrapping_add(self.random.pick(&[1, 255])),
            _ => {}
        }
        sheet.extend(last);
        Entry { sheet, length: PLAIN }
    }

    // ---- the sheets at the edges of each range

    pub fn boundaries(&mut self) -> Vec<Entry> {
        let mut entries = Vec::new();
        self.header_edges(&mut entries);
        self.count_edges(&mut entries);
        self.closing_edges(&mut entries);
        self.statement_edges(&mut entries);
        self.nesting_edges(&mut entries);
        self.narrowing_edges(&mut entries);
        self.arithmetic_edges(&mut entries);
        self.quotient_edges(&mut entries);
        self.nested_quotients(&mut entries);
        self.quotient_faults(&mut entries);
        self.quotient_loops(&mut entries);
        self.expression_faults(&mut entries);
        self.operator_faults(&mut entries);
        self.condition_faults(&mut entries);
        self.narrowing_faults(&mut entries);
        self.branch_faults(&mut entries);
        self.thread_faults(&mut entries);
        self.cuts(&mut entries);
        self.lengths(&mut entries);
        self.order_edges(&mut entries);
        self.long_searches(&mut entries);
        self.long_sheets(&mut entries);
        self.product_edges(&mut entries);
        entries
    }

    fn header_edges(&mut self, entries: &mut Vec<Entry>) {
        let rest = &Plan::of(0, vec![], vec![Thread { registers: vec![], statements: vec![halt()] }]).bytes()[19..];
        let most = u32::MAX;
        for (limit, budget, low, high) in [
            (0, 1, 0, 0),
            (1, 1, 0, 0),
            (1, 1, 0, 1),
            (1, 1, 1, 1),
            (1, 1, 1, 0),
            (1, 1, 0, 2),
            (1, 0, 0, 1),
            (1, 2, 0, 1),
            (10, 1, 10, 10),
            (10, 1, 10, 9),
            (10, 1, 11, 11),
            (10, 1, 0, 11),
            (999_999, 1, 0, 999_999),
            (1_000_000, 1, 0, 1_000_000),
            (1_000_000, 1, 0, 1_000_001),
            (1_000_001, 1, 0, 1_000_000),
            (1_000_001, 1, 0, 1_000_001),
            (10, 9_999_999, 0, 10),
            (10, 10_000_000, 0, 10),
            (10, 10_000_001, 0, 10),
            (most, 1, 0, 0),
            (0x8000_0000, 1, 0, 0),
            (10, most, 0, 10),
            (10, 0x8000_0001, 0, 10),
            (10, 1, 0, most),
            (10, 1, most, most),
            (10, 1, most, 0),
            (10, 1, 0x8000_0000, 0),
            (0, 0, 1, 0),
            (0x0100_0000, 1, 0, 0),
            (0x0001_0000, 0x0001_0000, 0x100, 0x0001_0000),
        ] {
            let sheet = [&header(limit, budget, low, high)[..], rest].concat();
            entries.push(Entry { sheet, length: PLAIN });
            entries.push(Entry { sheet: header(limit, budget, low, high), length: PLAIN });
        }
        // a wrong length with numbers off their range, whole and cut short
        for length in [0, 1, 12, 15, 17, 32] {
            let mut sheet = header(0, 0, 1, 0);
            sheet[2] = length;
            sheet.resize(3 + usize::from(length), 0);
            entries.push(Entry { sheet: sheet.clone(), length: PLAIN });
            sheet.pop();
            entries.push(Entry { sheet, length: PLAIN });
        }
        for locks in [0, 1, 7, 8, 9, 128, 255] {
            let mut sheet = header(10, 100, 0, 10);
            sheet.extend(field(3, &[locks]));
            sheet.extend(rest[4..].iter());
            entries.push(Entry { sheet, length: PLAIN });
        }
        for tag in [0, 1, 2, 3, 4, 5, 6, 7, 128, 255] {
            for length in [0, 1, 2, 8, 16] {
                let mut sheet = header(10, 100, 0, 10);
                sheet.extend(field(tag, &vec![9; length]));
                entries.push(Entry { sheet: sheet[19..].to_vec(), length: PLAIN });
                entries.push(Entry { sheet, length: PLAIN });
            }
        }
        // the ranges of a variable and of a register
        for range in [(0, 0), (1, 0), (-1, 0), (0, -1), (i32::MIN, i32::MAX), (i32::MAX, i32::MIN), (-2, -1), (-1, -2)]
        {
            let halts = Thread { registers: vec![], statements: vec![halt()] };
            let plan = Plan::of(0, vec![range], vec![halts]);
            entries.push(Entry { sheet: plan.bytes(), length: PLAIN });
            let plan = Plan::of(0, vec![], vec![Thread { registers: vec![(0, 0), range], statements: vec![halt()] }]);
            entries.push(Entry { sheet: plan.bytes(), length: PLAIN });
            for length in [7, 9] {
                let mut body = range_field(2, range)[3..].to_vec();
                body.resize(length, 0);
                let opening = &plan.bytes()[..23];
                entries.push(Entry { sheet: [opening, &field(2, &body)].concat(), length: PLAIN });
                entries.push(Entry { sheet: [opening, &field(4, &[1]), &field(5, &body)].concat(), length: PLAIN });
            }
        }
    }

    fn count_edges(&mut self, entries: &mut Vec<Entry>) {
        let thread = |registers, statements| Thread { registers: vec![(0, 0); registers], statements };
        for count in 7..=9 {
            let plan = Plan::of(0, vec![(0, 0); count], vec![thread(0, vec![halt()])]);
            entries.push(Entry { sheet: plan.bytes(), length: PLAIN });
            // the last register and variable, and one past them
            for (register, variable) in
                [(0, 0), (count as u8 - 1, 0), (count as u8, 0), (0, count as u8 - 1), (0, count as u8)]
            {
                let statements = vec![store((1, 1), register, variable), halt()];
                let plan = Plan::of(0, vec![(0, 0); 8], vec![thread(8, statements)]);
                entries.push(Entry { sheet: plan.bytes(), length: PLAIN });
            }
            // one register too few, enough, too many
            for said in [count - 1, count, count + 1, 255] {
                let mut sheet = Plan::of(0, vec![], vec![thread(count, vec![halt()])]).bytes();
                sheet[26] = said as u8;
                entries.push(Entry { sheet, length: PLAIN });
            }
        }
        // a ninth register, cut short or at fault
        for last in [&[5, 0, 8][..], &[5, 0, 1, 0], &[5, 0]] {
            let sheet = [&Plan::of(0, vec![], vec![thread(8, vec![])]).bytes(), last].concat();
            entries.push(Entry { sheet, length: PLAIN });
        }
        for length in [0, 2] {
            let sheet = [Plan::of(0, vec![], vec![]).bytes(), field(4, &[9, 9][..length])].concat();
            entries.push(Entry { sheet, length: PLAIN });
        }
        for count in 1..=6 {
            let plan = Plan::of(0, vec![], vec![thread(0, vec![halt()]); count]);
            entries.push(Entry { sheet: plan.bytes(), length: PLAIN });
            let mut two = vec![thread(0, vec![skip((1, 1)), halt()]); count];
            entries.push(Entry { sheet: Plan::of(0, vec![], two.clone()).bytes(), length: PLAIN });
            two[count - 1].statements.pop();
            entries.push(Entry { sheet: Plan::of(0, vec![], two).bytes(), length: PLAIN });
        }
        // 63 to 66 statements, the last one whole, cut short or at fault
        for count in 62..=65 {
            let mut statements = vec![skip((1, 1)); count];
            statements.push(halt());
            let sheet = Plan::of(0, vec![], vec![thread(0, statements.clone())]).bytes();
            for cut in [0, 1, 5, 6] {
                entries.push(Entry { sheet: sheet[..sheet.len() - cut].to_vec(), length: PLAIN });
            }
            for tag in [2, 4, 7] {
                let mut odd = sheet.clone();
                odd[sheet.len() - 8] = tag;
                entries.push(Entry { sheet: odd, length: PLAIN });
            }
            statements[count - 1] = jump((1, 1), count, &True);
            statements[count - 2] = jump((1, 1), count + 1, &False);
            entries.push(Entry { sheet: Plan::of(0, vec![], vec![thread(0, statements)]).bytes(), length: PLAIN });
        }
        // jumps to the last statement and past it
        for target in [0, 1, 2, 3, 4, 63, 64, 65, 128, 255] {
            let statements = vec![jump((1, 1), target, &False), jump((1, 1), 2, &True), halt()];
            let plan = Plan::of(0, vec![], vec![thread(0, statements)]);
            entries.push(Entry { sheet: plan.bytes(), length: PLAIN });
        }
    }

    /// Every way to close badly, and every way to go on, in the first and in
    /// the fourth thread.
    fn closing_edges(&mut self, entries: &mut Vec<Entry>) {
        let (bad, good) = (jump((1, 1), 9, &False), jump((1, 1), 0, &False));
        let far = jump((1, 1), 200, &False);
        let plain = Thread { registers: vec![], statements: vec![halt()] };
        let after: [&[u8]; 14] = [
            &[],
            &[4],
            &[4, 0],
            &[6],
            &[9, 0],
            &[4, 0, 0],
            &[4, 0, 1],
            &[4, 0, 2, 0, 0],
            &[4, 0, 1, 9],
            &[2, 0, 8],
            &[5, 0, 1, 0],
            &[6, 0, 5],
            &[6, 0, 4, 0, 0, 0, 0],
            &[0, 0, 0],
        ];
        for statements in [
            vec![halt()],
            vec![good.clone()],
            vec![halt(), skip((1, 1))],
            vec![bad.clone(), halt()],
            vec![bad.clone(), far.clone(), good, halt()],
            vec![bad.clone(), far],
            vec![halt(), bad],
        ] {
            for before in [0, 3] {
                let mut threads = vec![plain.clone(); before];
                threads.push(Thread { registers: vec![], statements: statements.clone() });
                let sheet = Plan::of(0, vec![], threads).limited(60).bytes();
                for after in after {
                    entries.push(Entry { sheet: [&sheet, after].concat(), length: PLAIN });
                }
                entries.push(Entry { sheet: [sheet, plain.bytes()].concat(), length: PLAIN });
            }
        }
    }

    fn statement_edges(&mut self, entries: &mut Vec<Entry>) {
        // one register, one variable, one lock
        let first = Plan::of(1, vec![(0, 0)], vec![Thread { registers: vec![(1, 1)], statements: vec![] }])
            .limited(70_000)
            .bytes();
        let mut add = |bytes: &[u8]| {
            let sheet = [&first[..], &field(6, bytes), &field(6, &body(&halt()))].concat();
            entries.push(Entry { sheet, length: PLAIN });
        };
        let right: [&[u8]; 8] = [&[0], &[1], &[2, 0, 17, 0], &[3, 1, 32], &[4, 0, 0], &[5, 0, 0], &[6, 0], &[7, 0]];
        for rest in right {
            for times in [
                (0, 0),
                (0, 1),
                (1, 0),
                (1, 1),
                (1, 2),
                (2, 1),
                (1, 65_535),
                (65_535, 65_535),
                (65_535, 1),
                (256, 255),
                (255, 256),
            ] {
                add(&body(&Statement { times, rest: rest.to_vec() }));
            }
            // every length near the right one, the times right and wrong
            for times in [(1, 1), (9, 1)] {
                for length in 0..=9 {
                    let mut bytes = body(&Statement { times, rest: rest.to_vec() });
                    bytes.resize(length, 0);
                    add(&bytes);
                }
            }
            // each operand one past what there is
            for at in 1..rest.len() {
                let mut rest = rest.to_vec();
                rest[at] += 1;
                add(&body(&Statement { times: (1, 1), rest: rest.clone() }));
                add(&body(&Statement { times: (0, 1), rest }));
            }
        }
        for code in [8, 9, 127, 128, 255] {
            for length in [4, 5, 6, 7] {
                let mut bytes = vec![0, 9, 0, 1, code];
                bytes.resize(length, 0);
                add(&bytes);
            }
        }
        let constant = [16, 0, 0, 0, 7];
        for code in [0, 1, 15, 16, 17, 18, 19, 20, 21, 22, 31, 32, 33, 34, 35, 36, 37, 38, 64, 255] {
            for kind in [2, 3] {
                for rest in [
                    &[][..],
                    &[17],
                    &[17, 0],
                    &[17, 1],
                    &[17, 0, 17, 0],
                    &[17, 1, 99],
                    &[99, 17, 1],
                    &[32],
                    &[32, 33],
                    &[32, 17, 0],
                    &constant[1..],
                    &constant,
                ] {
                    if rest.len() < 3 || self.random.chance(40) {
                        let rest = [&[kind, 0, code][..], rest].concat();
                        add(&body(&Statement { times: (1, 1), rest }));
                    }
                }
            }
        }
        // the name and the expression at fault together
        for rest in [
            &[2, 1, 99][..],
            &[2, 1, 17, 1],
            &[2, 255, 16, 0],
            &[3, 9, 99],
            &[3, 9, 17, 1],
            &[3, 9, 36, 17, 1, 99],
            &[4, 1, 1],
            &[5, 1, 1],
        ] {
            add(&body(&Statement { times: (1, 1), rest: rest.to_vec() }));
        }
    }

    fn nesting_edges(&mut self, entries: &mut Vec<Entry>) {
        let mut add = |kind: u8, expression: &[u8]| {
            let rest = [&[kind, if kind == 3 { 1 } else { 0 }], expression].concat();
            let statements = vec![Statement { times: (1, 1), rest }, halt()];
            let plan = Plan::of(0, vec![], vec![Thread { registers: vec![(1, 1)], statements }]);
            entries.push(Entry { sheet: plan.bytes(), length: PLAIN });
        };
        for depth in [2, 10, 11, 12, 13, 14] {
            for leaf in [[17, 0], [17, 1]] {
                for operator in [19, 20, 21] {
                    add(2, &[&vec![operator; depth - 1][..], &leaf, &[17, 0].repeat(depth - 1)].concat());
                    add(2, &[&[operator, 17, 0].repeat(depth - 1)[..], &leaf].concat());
                }
                add(3, &[&vec![34; depth - 2][..], &[37, 17, 0], &leaf].concat());
                add(3, &[&vec![34; depth - 2][..], &[36], &leaf, &[17, 0]].concat());
                add(3, &[&[35, 32].repeat(depth - 2)[..], &[37, 17, 0], &leaf].concat());
                add(3, &[&[37][..], &[20, 17, 0].repeat(depth - 2), &[17, 0], &leaf].concat());
                add(3, &[&[36, 17, 0][..], &[20, 17, 0].repeat(depth - 2), &leaf].concat());
            }
            for leaf in [32, 33, 38] {
                add(3, &[&vec![34; depth - 1][..], &[leaf]].concat());
                add(3, &[&vec![35; depth - 1][..], &[leaf], &[32].repeat(depth - 1)].concat());
                add(3, &[&[35, 32].repeat(depth - 1)[..], &[leaf]].concat());
            }
            // bytes missing at the depth, and left over
            add(3, &vec![34; depth]);
            add(2, &vec![18; depth]);
            add(3, &[&vec![34; depth - 1][..], &[32, 32]].concat());
        }
    }

    /// Every comparison of two small ranges, then a probe of either register.
    fn narrowing_edges(&mut self, entries: &mut Vec<Entry>) {
        self.values = Values::Small;
        self.pace = Pace::Unit;
        let pairs: [(Range, Range); 15] = [
            ((0, 5), (2, 3)),
            ((2, 3), (0, 5)),
            ((0, 3), (2, 5)),
            ((2, 5), (0, 3)),
            ((0, 2), (2, 4)),
            ((2, 4), (0, 2)),
            ((0, 1), (2, 3)),
            ((2, 3), (0, 1)),
            ((2, 2), (2, 2)),
            ((2, 2), (2, 3)),
            ((2, 4), (2, 2)),
            ((2, 4), (4, 4)),
            ((2, 3), (3, 3)),
            ((i32::MIN, i32::MAX), (i32::MIN, i32::MAX)),
            ((i32::MIN, i32::MIN), (i32::MAX, i32::MAX)),
        ];
        for range in [(3, 3), (3, 4), (3, 5), (i32::MIN, i32::MAX)] {
            for code in [EQUAL, LESS] {
                for negated in [false, true] {
                    let comparison = Comparison(code, Register(0), Register(0));
                    let condition = if negated { Not(Box::new(comparison)) } else { comparison };
                    let mut statements = vec![jump((1, 1), 2, &condition), halt()];
                    self.probes(1, &[range], &mut statements);
                    let plan = Plan::of(0, vec![], vec![Thread { registers: vec![range], statements }]);
                    entries.push(Entry { sheet: plan.bytes(), length: PLAIN });
                }
            }
        }
        // the right of an "and" has no failure where the left holds
        for end in 4..=6 {
            let (register, mirrored) = (Register(0), Operation(19, Box::new(Constant(9)), Box::new(Register(0))));
            let below = Comparison(LESS, register.clone(), Constant(end));
            for condition in [
                And(Box::new(below.clone()), Box::new(Comparison(LESS, register.clone(), mirrored.clone()))),
                And(Box::new(Not(Box::new(below.clone()))), Box::new(Comparison(LESS, mirrored, register))),
            ] {
                let probe = if self.random.chance(50) { below.clone() } else { Not(Box::new(below.clone())) };
                let statements = vec![jump((1, 1), 3, &condition), jump((1, 1), 3, &probe), skip((1, 1)), halt()];
                let plan = Plan::of(0, vec![], vec![Thread { registers: vec![(0, 9)], statements }]);
                entries.push(Entry { sheet: plan.bytes(), length: PLAIN });
            }
        }
        for (a, b) in pairs {
            for code in [EQUAL, LESS] {
                for form in 0..4 {
                    let comparison = Comparison(code, Register(0), Register(1));
                    let condition = match form {
                        0 => comparison,
                        1 => Not(Box::new(comparison)),
                        2 => And(Box::new(comparison), Box::new(True)),
                        _ => Not(Box::new(And(Box::new(Not(Box::new(comparison))), Box::new(False)))),
                    };
                    let known = [a, b];
                    let mut statements = vec![jump((1, 1), 0, &condition)];
                    self.probes(1, &known, &mut statements);
                    statements[0].rest[1] = statements.len() as u8;
                    self.probes(1, &known, &mut statements);
                    let plan = Plan::of(0, vec![], vec![Thread { registers: vec![a, b], statements }]);
                    entries.push(Entry { sheet: plan.bytes(), length: PLAIN });
                }
            }
        }
    }

    /// Every operator on ranges of each sign; the result's ends are then told
    /// from their neighbours.
    fn arithmetic_edges(&mut self, entries: &mut Vec<Entry>) {
        let (least, most) = (i32::MIN, i32::MAX);
        let ranges: [Range; 11] = [
            (-7, -2),
            (-3, 4),
            (0, 5),
            (2, 9),
            (-1, -1),
            (least, least),
            (least, -1),
            (most, most),
            (1, most),
            (least + 1, most),
            (-46_341, 46_340),
        ];
        let mut add = |registers: [Range; 2], value: Arithmetic, near: bool| {
            let mut statements = vec![assign((1, 1), 0, &value)];
            let (low, high) = value.range(&registers).unwrap_or(registers[0]);
            let below = Constant(if near { low } else { low.saturating_add(1) });
            let above = Constant(if near { high } else { high.saturating_sub(1) });
            for probe in [Comparison(LESS, Register(0), below), Comparison(LESS, above, Register(0))] {
                statements.push(jump((1, 1), statements.len() + 2, &probe));
                statements.push(skip((1, 1)));
            }
            statements.push(halt());
            let plan = Plan::of(0, vec![], vec![Thread { registers: registers.to_vec(), statements }]);
            entries.push(Entry { sheet: plan.bytes(), length: PLAIN });
        };
        for operator in PLUS..=DIVIDE {
            for a in ranges {
                for b in ranges {
                    let value = Operation(operator, Box::new(Register(0)), Box::new(Register(1)));
                    let whole = a.0 != a.1 || b.0 != b.1;
                    match value.range(&[a, b]) {
                        None if self.random.chance(if operator == DIVIDE { 50 } else { 30 }) => {
                            add([a, b], value, true)
                        }
                        Some(_) if whole || self.random.chance(30) => {
                            let near = self.random.chance(if operator < TIMES { 50 } else { 30 });
                            add([a, b], value, near);
                        }
                        _ => {}
                    }
                }
            }
        }
        for (a, b) in [(least, -1), (least, -2), (-5, -1), (least + 1, -1)] {
            let value = Operation(DIVIDE, Box::new(Register(0)), Box::new(Register(1)));
            add([(least, a), (b, -1)], value.clone(), true);
            add([(a, a), (b, b)], value, false);
        }
        // the whole is in range, a part is not
        for (outer, inner, a, b) in [
            (19, PLUS, most, 1),
            (PLUS, 19, least, 1),
            (DIVIDE, TIMES, most, 2),
            (DIVIDE, TIMES, 65_536, 65_536),
            (DIVIDE, TIMES, least, -1),
            (TIMES, DIVIDE, least, -1),
            (PLUS, TIMES, -46_341, 46_341),
        ] {
            let part = Operation(inner, Box::new(Constant(a)), Box::new(Register(1)));
            let value = Operation(outer, Box::new(part), Box::new(Register(1)));
            add([(0, 0), (b, b)], value.clone(), true);
            add([(0, 0), (b.min(2 * b), b.max(2 * b))], value, true);
        }
    }

    /// Products of factors about the ends of 16 bits, about twice these, and about the
    /// greatest number whose square fits 32 bits: single values, and ranges that have
    /// none, some or all of their ends there. Each in an assignment, every second one also
    /// in a condition, in its forms by turns, if it has a reading.
    fn product_edges(&mut self, entries: &mut Vec<Entry>) {
        let values = [-65_537, -65_536, -46_341, -32_769, -32_768, -2, 3, 32_767, 32_768, 46_341, 65_535, 65_536];
        let ranges = [
            (-32_768, 32_767),
            (-32_769, 32_767),
            (-32_768, 32_768),
            (-3, 32_767),
            (-32_768, 2),
            (-65_536, 5),
            (-4, 65_537),
            (-65_536, 65_536),
            (-7, 6),
        ];
        for group in [values.map(|value| (value, value)).to_vec(), ranges.to_vec()] {
            for (i, &a) in group.iter().enumerate() {
                for (j, &b) in group.iter().enumerate() {
                    entries.push(assigned(&[a, b], &operation(TIMES, Register(0), Register(1))));
                    if (i + j) % 2 == 0 {
                        entries.extend(compared(TIMES, a, b, (i + j / 2) % (NARROWED_FORMS + 1)));
                    }
                }
            }
        }
    }

    /// Quotients of each sign, exact and inexact, of single values and of ranges: each
    /// in an assignment, and in the forms of a condition by turns.
    fn quotient_edges(&mut self, entries: &mut Vec<Entry>) {
        let (least, most) = (i32::MIN, i32::MAX);
        let single = |values: &[i32]| values.iter().map(|&value| (value, value)).collect::<Vec<Range>>();
        for (dividends, divisors) in [
            (single(&[-7, -6, -1, 0, 1, 6, 7]), single(&[-3, -2, 2, 3])),
            (single(&[least, least + 1, most - 1, most]), single(&[least, -3, -2, -1, 1, 2, 3, most])),
            (
                vec![(-9, -4), (-7, -1), (4, 9), (1, 7), (-7, 7), (-5, 8), (-3, 0), (0, 3)],
                vec![(2, 2), (1, 3), (2, 5), (-2, -2), (-3, -1), (-5, -2)],
            ),
            (
                vec![(least, -1), (least, most), (1, most), (least, least + 1), (most - 1, most)],
                vec![(2, 3), (-3, -2), (2, most), (least, -2), (1, 1)],
            ),
        ] {
            for (i, &dividend) in dividends.iter().enumerate() {
                for (j, &divisor) in divisors.iter().enumerate() {
                    entries.push(assigned(&[dividend, divisor], &operation(DIVIDE, Register(0), Register(1))));
                    entries.extend(compared(DIVIDE, dividend, divisor, (i + j) % (NARROWED_FORMS + 1)));
                }
            }
        }
    }

    /// Quotients inside other expressions, of all signs.
    fn nested_quotients(&mut self, entries: &mut Vec<Entry>) {
        let by = |left: Arithmetic, right: Arithmetic| operation(DIVIDE, left, right);
        let first = || by(Register(0), Register(1));
        for value in [
            by(first(), Register(2)),
            by(Register(0), by(Register(2), Register(1))),
            by(first(), by(Register(2), Register(1))),
            by(operation(MINUS, Constant(0), Register(0)), Register(1)),
            operation(MINUS, Constant(0), first()),
            // the remainder
            operation(MINUS, Register(0), operation(TIMES, first(), Register(1))),
            by(operation(PLUS, first(), Register(2)), Register(1)),
        ] {
            for registers in [
                [(-7, -7), (2, 2), (-3, -3)],
                [(7, 7), (-2, -2), (3, 3)],
                [(-7, 7), (2, 3), (-5, -4)],
                [(-20, -9), (-3, -2), (4, 7)],
                [(5, 17), (-4, -3), (-9, -5)],
            ] {
                entries.push(assigned(&registers, &value));
            }
        }
    }

    /// Quotients whose rounding decides whether a divisor is 0, or a result off the
    /// 32-bit values.
    fn quotient_faults(&mut self, entries: &mut Vec<Entry>) {
        let (least, most) = (i32::MIN, i32::MAX);
        let divided = || operation(DIVIDE, Register(0), Register(1));
        for value in [
            operation(DIVIDE, Constant(12), divided()),
            operation(PLUS, Constant(least), divided()),
            operation(PLUS, Constant(least + 1), divided()),
            operation(MINUS, Constant(most), divided()),
            operation(TIMES, Constant(1 << 30), divided()),
        ] {
            for registers in [
                [(-1, -1), (2, 2)],
                [(1, 1), (-2, -2)],
                [(1, 1), (2, 2)],
                [(-3, -1), (2, 3)],
                [(-3, 0), (2, 3)],
                [(1, 5), (-3, -2)],
                [(-5, -5), (2, 2)],
            ] {
                entries.push(assigned(&registers, &value));
            }
        }
    }

    /// Loops that divide while the quotient is not 0, is above 0, or is below 0 or -1:
    /// some end, some do not.
    fn quotient_loops(&mut self, entries: &mut Vec<Entry>) {
        let own = || Register(0);
        for (start, divisor, again) in [
            ((100, 100), 2, Comparison(LESS, Constant(0), own())),
            ((-100, -100), 2, Comparison(LESS, own(), Constant(-1))),
            ((-100, -100), 2, Comparison(LESS, own(), Constant(0))),
            ((-100, 100), 3, Comparison(LESS, own(), Constant(-1))),
            ((100, 100), -2, not(Comparison(EQUAL, own(), Constant(0)))),
            ((-101, -100), -2, not(Comparison(EQUAL, own(), Constant(0)))),
            ((-90, 100), -3, Comparison(LESS, own(), Constant(-1))),
        ] {
            let less = operation(DIVIDE, own(), Constant(divisor));
            let statements = vec![assign((1, 1), 0, &less), jump((1, 2), 0, &again), halt()];
            let plan = Plan::of(0, vec![], vec![Thread { registers: vec![start], statements }]);
            entries.push(Entry { sheet: plan.limited(60).bytes(), length: PLAIN });
        }
    }

    /// Zero and size on the left, on the right and of the operator, flat and nested.
    fn expression_faults(&mut self, entries: &mut Vec<Entry>) {
        // gives how many there are
        let mut add = |registers: &[Range], value: &Arithmetic| {
            let mut statements = vec![assign((1, 1), 2, value), halt()];
            if entries.len() % 3 == 0 {
                statements.insert(0, skip((1, 2)));
            }
            let plan = Plan::of(0, vec![], vec![Thread { registers: registers.to_vec(), statements }]);
            entries.push(Entry { sheet: plan.bytes(), length: PLAIN });
            entries.len()
        };
        let mut turn = 0;
        for registers in [WIDE, SINGLE] {
            for operator in PLUS..=DIVIDE {
                for left in FAULTS {
                    for right in FAULTS {
                        turn = add(&registers, &operation(operator, part(left, turn), part(right, turn / 2)));
                    }
                }
            }
            // the operator's zero after the left operand
            for which in 0..5 {
                for divisor in [Constant(0), Register(0)] {
                    add(&registers, &operation(DIVIDE, part(Fault::Size, which), divisor));
                }
                turn = add(&registers, &operation(DIVIDE, part(Fault::None, which), Register(0)));
            }
            // two of the four parts of a nested expression
            for (first, second) in [(Fault::Zero, Fault::Size), (Fault::Size, Fault::Zero)] {
                for i in 0..4 {
                    for j in i + 1..4 {
                        let fault = |place| match place {
                            _ if place == i => first,
                            _ if place == j => second,
                            _ => Fault::None,
                        };
                        let at = |place| part(fault(place), turn);
                        let left = operation(PLUS + (turn % 4) as u8, at(0), at(1));
                        let right = operation(PLUS + (turn / 4 % 4) as u8, at(2), at(3));
                        turn = add(&registers, &operation(PLUS + (turn / 2 % 4) as u8, left, right));
                    }
                }
                // one deep inside, the other beside it at the top
                for depth in [2, 5, 9] {
                    let deep = |fault: Fault, to_left: bool| {
                        (0..depth).fold(part(fault, 0), |whole, _| match to_left {
                            true => operation(PLUS, whole, Constant(0)),
                            false => operation(PLUS, Constant(0), whole),
                        })
                    };
                    for to_left in [true, false] {
                        turn = add(&registers, &operation(MINUS, deep(first, to_left), part(second, turn)));
                        turn = add(&registers, &operation(MINUS, part(first, turn), deep(second, to_left)));
                    }
                }
            }
            // an operator's own fault against another part's
            let sum = || operation(PLUS, Register(1), Register(2));
            let square = || operation(TIMES, Register(3), Register(3));
            let least = || operation(DIVIDE, Register(3), Constant(-1));
            let divided = || operation(DIVIDE, Register(2), Register(0));
            for value in [
                operation(DIVIDE, sum(), Register(0)),
                operation(DIVIDE, Register(0), sum()),
                operation(MINUS, divided(), square()),
                operation(MINUS, square(), divided()),
                operation(TIMES, least(), divided()),
                operation(TIMES, divided(), least()),
                operation(DIVIDE, Constant(7), operation(DIVIDE, Constant(7), Register(0))),
                operation(DIVIDE, Constant(7), operation(PLUS, Register(1), Constant(1))),
                operation(TIMES, Register(0), operation(MINUS, Register(3), Register(2))),
                operation(DIVIDE, least(), Constant(0)),
                operation(DIVIDE, divided(), Constant(0)),
                operation(PLUS, operation(DIVIDE, Register(2), Register(2)), least()),
            ] {
                add(&registers, &value);
            }
        }
    }

    /// An operator's own fault: zero, size or both of a divide; size of the others
    /// by either end of the result, and the ends that just fit.
    fn operator_faults(&mut self, entries: &mut Vec<Entry>) {
        let (least, most) = (i32::MIN, i32::MAX);
        let mut add = |operator: u8, left: Range, right: Range| {
            let value = operation(operator, Register(0), Register(1));
            let statements = vec![assign((1, 1), 0, &value), halt()];
            let plan = Plan::of(0, vec![], vec![Thread { registers: vec![left, right], statements }]);
            entries.push(Entry { sheet: plan.bytes(), length: PLAIN });
        };
        for left in [(least, least), (least, -1), (least, most), (least + 1, least + 1), (-3, 4), (most, most)] {
            for right in [(-1, -1), (-1, 0), (-2, -1), (-2, 0), (-1, 1), (-2, 3), (0, 0), (0, 1), (-7, -2)] {
                add(DIVIDE, left, right);
            }
        }
        for (operator, left, right) in [
            (PLUS, (most - 1, most), (0, 0)),
            (PLUS, (most - 1, most), (0, 1)),
            (PLUS, (most - 1, most), (2, 2)),
            (PLUS, (1, 5), (most - 5, most - 5)),
            (PLUS, (1, 5), (most - 4, most - 4)),
            (PLUS, (least, least + 1), (-1, 0)),
            (PLUS, (least, least + 1), (-2, -2)),
            (PLUS, (-5, -1), (least + 5, least + 5)),
            (PLUS, (-5, -1), (least + 4, least + 4)),
            (PLUS, (least, most), (-1, 1)),
            (MINUS, (0, 0), (least + 1, most)),
            (MINUS, (0, 0), (least, least)),
            (MINUS, (-1, 0), (most, most)),
            (MINUS, (-2, 0), (most, most)),
            (MINUS, (-1, 0), (least, least)),
            (MINUS, (least, most), (least, most)),
            (TIMES, (-1, 65_536), (0, 32_767)),
            (TIMES, (-1, 65_536), (0, 32_768)),
            (TIMES, (-65_536, 1), (0, 32_768)),
            (TIMES, (-65_537, 1), (0, 32_768)),
            (TIMES, (least, least), (-1, 0)),
            (TIMES, (least, least), (0, 1)),
            (TIMES, (-46_341, 46_341), (-46_341, 46_341)),
            (TIMES, (least, most), (least, most)),
        ] {
            add(operator, left, right);
        }
    }

    /// Zero and size on both sides of a comparison and of an "and", and under not.
    fn condition_faults(&mut self, entries: &mut Vec<Entry>) {
        let mut add = |registers: &[Range], condition: &Condition| {
            let statements = vec![jump((1, 1), 2, condition), skip((1, 1)), halt()];
            let plan = Plan::of(0, vec![], vec![Thread { registers: registers.to_vec(), statements }]);
            entries.push(Entry { sheet: plan.bytes(), length: PLAIN });
        };
        let mut which = 0;
        for registers in [WIDE, SINGLE] {
            for left in FAULTS {
                for right in FAULTS {
                    if left == Fault::None && right == Fault::None {
                        continue;
                    }
                    for code in [EQUAL, LESS] {
                        which += 1;
                        let comparison = Comparison(code, part(left, which), part(right, which / 2));
                        add(&registers, &comparison);
                        add(&registers, &not(comparison));
                    }
                    for form in 0..4 {
                        which += 1;
                        let (a, b) = (faulty_side(left, which), faulty_side(right, which / 2));
                        add(
                            &registers,
                            &match form {
                                0 => and(a, b),
                                1 => not(and(a, b)),
                                2 => and(not(a), b),
                                _ => not(and(a, not(b))),
                            },
                        );
                    }
                    // beside another "and", and twice negated
                    let (a, b) = (faulty_side(left, which), faulty_side(right, which + 1));
                    add(&registers, &and(faulty_side(Fault::None, which), and(a.clone(), b.clone())));
                    add(&registers, &Not(Box::new(Not(Box::new(and(and(a, faulty_side(Fault::None, which + 3)), b))))));
                }
            }
            for fault in [Fault::Zero, Fault::Size] {
                for truth in [True, False] {
                    add(&registers, &and(truth.clone(), faulty_side(fault, which)));
                    add(&registers, &and(faulty_side(fault, which + 1), truth));
                    which += 1;
                }
            }
        }
    }

    /// A part of an "and" that keeps a divisor off 0, or a value off the highest:
    /// it comes too late, but in an if of its own it comes in time.
    fn narrowing_faults(&mut self, entries: &mut Vec<Entry>) {
        let mut add = |statements: Vec<Statement>| {
            let registers = vec![(0, 3), (5, i32::MAX), (2, 3)];
            let plan = Plan::of(0, vec![], vec![Thread { registers, statements }]);
            entries.push(Entry { sheet: plan.bytes(), length: PLAIN });
        };
        let zero = || operation(DIVIDE, Constant(7), Register(0));
        let size = || operation(PLUS, Register(1), Constant(1));
        let not_zero = || Comparison(LESS, Constant(0), Register(0));
        let not_highest = || Comparison(LESS, Register(1), Constant(i32::MAX));
        for code in [EQUAL, LESS] {
            let both = || Comparison(code, zero(), size());
            let turned = || Comparison(code, size(), zero());
            for condition in [
                and(not_zero(), Comparison(code, zero(), Constant(9))),
                and(not_highest(), Comparison(code, Constant(9), size())),
                and(not_zero(), both()),
                and(not_zero(), turned()),
                and(not_highest(), both()),
                and(not_highest(), turned()),
                and(and(not_zero(), not_highest()), both()),
                and(not_zero(), and(not_highest(), turned())),
                and(not(not_highest()), turned()),
                and(Comparison(EQUAL, Register(0), Constant(2)), both()),
                and(False, turned()),
                not(and(not(not_highest()), turned())),
                not(and(not_highest(), not(turned()))),
            ] {
                add(vec![jump((1, 1), 2, &condition), skip((1, 1)), halt()]);
            }
        }
        for (guard, value) in [(not_zero(), zero()), (not_highest(), size())] {
            for guard in [guard.clone(), not(not(guard.clone())), and(guard.clone(), True)] {
                add(vec![jump((1, 1), 2, &guard), halt(), assign((1, 1), 2, &value), halt()]);
                // the branch on which it does not hold
                add(vec![jump((1, 1), 2, &guard), assign((1, 1), 2, &value), halt()]);
            }
        }
        // equal takes no value off
        for (register, value, fault) in [(0, 0, zero()), (1, i32::MAX, size())] {
            let is = Comparison(EQUAL, Register(register), Constant(value));
            add(vec![jump((1, 1), 2, &is), assign((1, 1), 2, &fault), halt()]);
            add(vec![jump((1, 1), 2, &not(is)), halt(), assign((1, 1), 2, &fault), halt()]);
        }
    }

    /// A statement with that fault, or with none: an assignment or an if.
    fn statement_with(&mut self, fault: Fault, times: Times, as_if: bool, next: usize) -> Statement {
        let which = self.random.below(60);
        if as_if {
            jump(times, next, &faulty_side(fault, which))
        } else {
            assign(times, 2, &part(fault, which))
        }
    }

    /// A fault on one branch of an if, or another one on each.
    fn branch_faults(&mut self, entries: &mut Vec<Entry>) {
        let open = Comparison(LESS, Register(2), Constant(3));
        for yes in FAULTS {
            for no in FAULTS {
                for as_if in [false, true] {
                    for (a, b) in [((1, 1), (1, 1)), ((3, 3), (1, 2))] {
                        let statements = vec![
                            jump((1, 1), 3, &open),
                            self.statement_with(no, a, as_if, 2),
                            halt(),
                            skip((1, 1)),
                            self.statement_with(yes, b, !as_if, 5),
                            halt(),
                        ];
                        let plan = Plan::of(0, vec![], vec![Thread { registers: WIDE.to_vec(), statements }]);
                        entries.push(Entry { sheet: plan.bytes(), length: PLAIN });
                    }
                }
            }
        }
    }

    /// Threads with different faults: the first that has an event decides.
    fn thread_faults(&mut self, entries: &mut Vec<Entry>) {
        let mut plans = Vec::new();
        let thread = |statements: Vec<Statement>| Thread { registers: WIDE.to_vec(), statements };
        let waits = Thread { registers: vec![], statements: vec![skip((1, 2)), halt()] };
        let faults = [Fault::Zero, Fault::Size];
        for first in faults {
            for second in faults {
                for (a, b) in [(false, false), (false, true), (true, false), (true, true)] {
                    for (slow, fast) in [((1, 1), (1, 1)), ((5, 5), (1, 1)), ((2, 3), (1, 2)), ((1, 2), (4, 9))] {
                        let threads = vec![
                            thread(vec![self.statement_with(first, slow, a, 1), halt()]),
                            thread(vec![self.statement_with(second, fast, b, 1), halt()]),
                        ];
                        if a != b || first != second {
                            plans.push(Plan::of(0, vec![], threads));
                        }
                    }
                }
                // a third thread before, between and after
                for place in 0..3 {
                    let as_if = self.random.chance(50);
                    let mut threads = vec![
                        thread(vec![self.statement_with(first, (1, 2), as_if, 1), halt()]),
                        thread(vec![self.statement_with(second, (1, 3), !as_if, 1), halt()]),
                    ];
                    threads.insert(place, waits.clone());
                    plans.push(Plan::of(0, vec![], threads));
                }
                // a loop before the one, a wait before the other
                for (turns, wait) in [(2, 1), (2, 4), (2, 9)] {
                    let more = operation(PLUS, Register(4), Constant(1));
                    let again = Comparison(LESS, Register(4), Constant(turns));
                    let statements = vec![
                        assign((1, 1), 4, &more),
                        jump((1, 1), 0, &again),
                        self.statement_with(first, (1, 1), false, 3),
                        halt(),
                    ];
                    let looping = Thread { registers: [&WIDE[..], &[(0, 0)]].concat(), statements };
                    let last = self.statement_with(second, (1, 1), false, 2);
                    let waiting = thread(vec![skip((wait, wait)), last, halt()]);
                    plans.push(Plan::of(0, vec![], vec![looping.clone(), waiting.clone()]));
                    plans.push(Plan::of(0, vec![], vec![waiting, looping]));
                }
            }
        }
        // a value that another thread stores first, or has not stored yet
        for (fault, stored) in [(Fault::Zero, 0), (Fault::Size, i32::MAX)] {
            for (a, b) in [((1, 1), (5, 5)), ((5, 5), (1, 1)), ((1, 3), (1, 3))] {
                let stores = Thread { registers: vec![(stored, stored)], statements: vec![store(a, 0, 0), halt()] };
                let value = match fault {
                    Fault::Zero => operation(DIVIDE, Constant(7), Register(0)),
                    _ => operation(PLUS, Register(0), Constant(7)),
                };
                let statements = vec![load(b, 0, 0), assign((1, 1), 0, &value), halt()];
                let loads = Thread { registers: vec![(1, 1)], statements };
                plans.push(Plan::of(0, vec![(4, 5)], vec![stores.clone(), loads.clone()]));
                plans.push(Plan::of(0, vec![(4, 5)], vec![loads, stores]));
            }
        }
        // one thread waits for a lock for good; stuck only once the other has halted
        let takes = Thread { registers: vec![], statements: vec![lock((1, 1), 0), halt()] };
        let wants = Thread { registers: vec![], statements: vec![skip((2, 2)), lock((1, 1), 0), halt()] };
        for fault in FAULTS {
            let last = thread(vec![skip((4, 4)), self.statement_with(fault, (1, 1), false, 2), halt()]);
            plans.push(Plan::of(1, vec![], vec![takes.clone(), wants.clone(), last.clone()]));
            plans.push(Plan::of(1, vec![], vec![last, wants.clone(), takes.clone()]));
        }
        for plan in plans {
            entries.push(Entry { sheet: plan.limited(60).bytes(), length: PLAIN });
        }
        // states made before the fault, more than there are slots
        let branches = thread(vec![jump((1, 1), 1, &Comparison(LESS, Register(2), Constant(3))), halt()]);
        for fault in faults {
            for as_if in [false, true] {
                let last = thread(vec![self.statement_with(fault, (1, 1), as_if, 1), halt()]);
                for (threads, most) in [
                    (vec![waits.clone(), waits.clone(), waits.clone(), last.clone()], 3),
                    (vec![branches.clone(), last.clone()], 2),
                    (vec![branches.clone(), waits.clone(), last], 3),
                ] {
                    for slots in 1..=most {
                        let sheet = Plan::of(0, vec![], threads.clone()).limited(60).bytes();
                        entries.push(Entry { sheet, length: 100 * slots });
                    }
                }
            }
        }
    }

    /// A sheet with every kind of field, ended after each of its bytes.
    fn cuts(&mut self, entries: &mut Vec<Entry>) {
        let statements = vec![
            lock((1, 1), 0),
            load((1, 2), 0, 0),
            jump((1, 1), 4, &Comparison(LESS, Register(0), Constant(3))),
            assign((1, 1), 0, &Operation(DIVIDE, Box::new(Constant(6)), Box::new(Register(0)))),
            store((1, 1), 0, 0),
            unlock((1, 1), 0),
            halt(),
        ];
        let first = Thread { registers: vec![(2, 3)], statements };
        let second = Thread { registers: vec![], statements: vec![skip((1, 3)), halt()] };
        let mut plan = Plan::of(1, vec![(1, 4)], vec![first, second]).limited(60);
        plan.budget = 1000;
        let sheet = plan.bytes();
        for end in 0..=sheet.len() {
            entries.push(Entry { sheet: sheet[..end].to_vec(), length: PLAIN });
        }
        // each field's tag and length changed
        for place in fields(&sheet) {
            for tag in 0..8 {
                let mut sheet = sheet.clone();
                sheet[place] = tag;
                sheet.truncate(place + 24);
                entries.push(Entry { sheet, length: PLAIN });
            }
            for (change, long) in [(1, 0), (255, 0), (0, 1)] {
                let mut sheet = sheet.clone();
                sheet[place + 2] = sheet[place + 2].wrapping_add(change);
                sheet[place + 1] = long;
                entries.push(Entry { sheet, length: PLAIN });
            }
        }
    }

    /// Sheets that hold one, two, three and more states, with every length.
    fn lengths(&mut self, entries: &mut Vec<Entry>) {
        for count in 1..=4 {
            let thread = Thread { registers: vec![], statements: vec![skip((1, 2)), halt()] };
            let sheet = Plan::of(0, vec![], vec![thread; count]).bytes();
            for length in LENGTHS.into_iter().chain([1, 399, 400, 401, 499, 500, 599, 600]) {
                entries.push(Entry { sheet: sheet.clone(), length });
            }
        }
        for refused in [&[][..], &[1], &[9, 0, 0]] {
            for length in [0, 99, 100] {
                entries.push(Entry { sheet: refused.to_vec(), length });
            }
        }
    }

    /// States to which several refusals of the search apply at once.
    fn order_edges(&mut self, entries: &mut Vec<Entry>) {
        let thread = |statements: Vec<Statement>| Thread { registers: vec![], statements };
        let waits = thread(vec![skip((1, 3)), halt()]);
        let faulty = |value: Arithmetic, times: Times| Thread {
            registers: vec![(-1, 1)],
            statements: vec![assign(times, 0, &value), halt()],
        };
        let divides = |times: Times| faulty(operation(DIVIDE, Constant(1), Register(0)), times);
        let grows = |times: Times| faulty(operation(MINUS, Register(0), Constant(i32::MIN)), times);
        let both = |first, second| thread(vec![lock((1, 1), first), lock((1, 1), second), halt()]);
        for threads in [
            vec![waits.clone(), waits.clone(), divides((1, 3))],
            vec![waits.clone(), divides((3, 3)), divides((1, 4))],
            vec![waits.clone(), divides((4, 4)), waits.clone()],
            vec![waits.clone(), waits.clone(), grows((1, 3))],
            vec![waits.clone(), grows((3, 3)), divides((1, 4))],
            vec![waits.clone(), grows((4, 4)), waits.clone()],
            vec![waits.clone(), waits.clone(), waits],
            vec![both(0, 1), both(1, 0)],
        ] {
            for (limit, budget) in [(1, 2), (2, 1), (2, 3), (3, 2), (3, 100), (60, 100)] {
                for length in [100, 200, 300, PLAIN] {
                    let mut plan = Plan::of(2, vec![], threads.clone()).limited(limit);
                    plan.budget = budget;
                    entries.push(Entry { sheet: plan.bytes(), length });
                }
            }
        }
    }

    /// Searches of some thousand steps, the budget just enough and just not.
    fn long_searches(&mut self, entries: &mut Vec<Entry>) {
        let more = Operation(PLUS, Box::new(Register(0)), Box::new(Constant(1)));
        let test = Comparison(LESS, Register(0), Constant(3000));
        let statements = vec![assign((1, 1), 0, &more), jump((1, 2), 0, &test), halt()];
        let counts = Thread { registers: vec![(0, 0)], statements };
        let steps = Thread { registers: vec![], statements: vec![skip((1, 1)), skip((1, 2)), halt()] };
        for threads in [vec![counts], vec![steps.clone(); 3], vec![steps; 4]] {
            let mut plan = Plan::of(0, vec![], threads);
            plan.budget = MOST_STEPS;
            let Some(found) = answer(&plan.bytes(), PLAIN) else { continue };
            for budget in [MOST_STEPS, found.steps as u32, found.steps as u32 - 1] {
                plan.budget = budget;
                entries.push(Entry { sheet: plan.bytes(), length: PLAIN });
            }
        }
    }

    /// 16,384 bytes and more.
    fn long_sheets(&mut self, entries: &mut Vec<Entry>) {
        fn tree(depth: usize) -> Arithmetic {
            if depth == 1 {
                return Register(0);
            }
            Operation(PLUS, Box::new(tree(depth - 1)), Box::new(tree(depth - 1)))
        }
        let mut statements = Vec::new();
        for depth in [12, 11, 11, 9] {
            statements.push(assign((1, 1), 0, &tree(depth)));
        }
        let mut plan = Plan::of(0, vec![], vec![Thread { registers: vec![(0, 0)], statements }]);
        // what is left is filled by sums of a byte more or less
        loop {
            let left = 16_384 - plan.bytes().len() - 8;
            let statements = &mut plan.threads[0].statements;
            let before = statements.len();
            match left {
                0 => break,
                8 => statements.push(skip((1, 1))),
                _ if left >= 400 => statements.push(assign((1, 1), 0, &tree(6))),
                _ => {
                    // 11, 14 or 17 bytes each, or 8 for a skip
                    let sizes = [8, 11, 14, 17];
                    let fits = |left: usize| {
                        let mut reach = vec![false; left + 1];
                        reach[0] = true;
                        for at in 1..=left {
                            reach[at] = sizes.iter().any(|&size| at >= size && reach[at - size]);
                        }
                        reach[left]
                    };
                    let size = sizes.into_iter().rev().find(|&size| left >= size && fits(left - size));
                    match size {
                        Some(11) => statements.push(assign((1, 1), 0, &tree(1))),
                        Some(14) => statements.push(assign((1, 1), 0, &tree(2))),
                        Some(17) => {
                            statements.push(assign((1, 1), 0, &Operation(PLUS, Box::new(tree(2)), Box::new(tree(1)))))
                        }
                        _ => statements.push(skip((1, 1))),
                    }
                }
            }
            debug_assert!(plan.threads[0].statements.len() > before);
        }
        plan.threads[0].statements.push(halt());
        let sheet = plan.bytes();
        assert_eq!(sheet.len(), 16_384);
        let more = [&sheet[..], &[6]].concat();
        entries.push(Entry { sheet: sheet.clone(), length: PLAIN });
        entries.push(Entry { sheet: more, length: PLAIN });
        entries.push(Entry { sheet: vec![0; 16_385], length: 0 });
        let mut long = sheet.clone();
        long.extend(field(6, &body(&halt())));
        entries.push(Entry { sheet: long, length: PLAIN });
        self.too_long_sheets(&sheet, entries);
    }

    /// More than 16,384 bytes, with every other refusal of a reader in them or
    /// no room for a state, and sheets up to 16,384 bytes beside them. `full`
    /// is read to its end and has 16,384 bytes.
    fn too_long_sheets(&mut self, full: &[u8], entries: &mut Vec<Entry>) {
        let padded = |front: &[u8], size: usize, byte: u8| {
            let mut sheet = front.to_vec();
            sheet.resize(size, byte);
            sheet
        };
        let thread = Thread { registers: vec![], statements: vec![skip((2, 3)), halt()] };
        let short = Plan::of(0, vec![], vec![thread.clone()]).bytes();
        let ninth = Plan::of(0, vec![(0, 0); 9], vec![thread]).bytes();
        let no_halt = [&full[..full.len() - 8], &field(6, &body(&skip((1, 1))))].concat();
        let statement = fields(full).into_iter().find(|&place| full[place] == 6).expect("a statement");
        let changed = |at: usize, byte: u8| {
            let mut sheet = full.to_vec();
            sheet[statement + at] = byte;
            sheet
        };
        for (sheet, length) in [
            (full[..16_383].to_vec(), PLAIN),
            (no_halt.clone(), PLAIN),
            (padded(&short, 16_384, 0), PLAIN),
            (padded(&short, 16_385, 0), PLAIN),
            (padded(&short, 16_386, 0xFF), 100),
            (padded(full, 20_000, 0), 200),
            // without 9: 1, 2, 3 and 4 at the first field
            (padded(&[1, 0xFF, 0xFF], 16_386, 0), PLAIN),
            (padded(&short[1..], 16_385, 0), 99),
            (padded(&field(1, &[0; 17]), 16_385, 0), 0),
            (padded(&header(10, 1, 0, 11), 16_385, 0), 199),
            // 5, 6, 7 and 8
            (padded(&changed(8, 1), 16_385, 6), 200),
            (padded(&changed(9, 32), 16_385, 6), 300),
            ([&no_halt[..], &field(4, &[0])].concat(), PLAIN),
            (padded(&ninth, 16_385, 0), 101),
            // 14 before the first step
            ([full, &field(6, &body(&halt()))].concat(), 0),
        ] {
            entries.push(Entry { sheet, length });
        }
    }
}

fn operation(operator: u8, left: Arithmetic, right: Arithmetic) -> Arithmetic {
    Operation(operator, Box::new(left), Box::new(right))
}

fn not(condition: Condition) -> Condition {
    match condition {
        Not(operand) => *operand,
        condition => Not(Box::new(condition)),
    }
}

fn and(left: Condition, right: Condition) -> Condition {
    And(Box::new(left), Box::new(right))
}

fn or(left: Condition, right: Condition) -> Condition {
    not(and(not(left), not(right)))
}

/// One thread of the statements and a last halt, with a header that takes nothing
/// from the search.
fn alone(registers: Vec<Range>, mut statements: Vec<Statement>) -> Entry {
    statements.push(halt());
    let plan = Plan::of(0, vec![], vec![Thread { registers, statements }]);
    Entry { sheet: plan.bytes(), length: PLAIN }
}

/// The value in r0, its ends told from their neighbours if it has a reading.
fn assigned(registers: &[Range], value: &Arithmetic) -> Entry {
    let mut statements = vec![assign((1, 1), 0, value)];
    if let Some(range) = value.range(registers) {
        tell_apart(&Register(0), range, &mut statements);
    }
    alone(registers.to_vec(), statements)
}

/// The operator on r0 and r1 in a condition: in every test, or in one that narrows
/// r2 by it. None if it has no reading.
fn compared(operator: u8, left: Range, right: Range, form: usize) -> Option<Entry> {
    let value = operation(operator, Register(0), Register(1));
    let range = value.range(&[left, right])?;
    if form == NARROWED_FORMS {
        let mut statements = vec![];
        tell_apart(&value, range, &mut statements);
        return Some(alone(vec![left, right], statements));
    }
    let (before, condition, after) = narrowed_to(2, &value, range, form);
    let mut statements = vec![jump((1, 1), 2, &condition), halt()];
    tell_apart(&Register(2), after, &mut statements);
    Some(alone(vec![left, right, before], statements))
}

/// Tests that do not all come out alike if an end of the value is one further out
/// or in, each a jump over a skip of another time.
fn tell_apart(value: &Arithmetic, (low, high): Range, statements: &mut Vec<Statement>) {
    let own = || value.clone();
    for (test, time) in [
        (Comparison(LESS, own(), Constant(low)), 1),
        (Comparison(LESS, own(), Constant(low.saturating_add(1))), 2),
        (Comparison(LESS, Constant(high), own()), 4),
        (Comparison(LESS, Constant(high.saturating_sub(1)), own()), 8),
    ] {
        statements.push(jump((1, 1), statements.len() + 2, &test));
        statements.push(skip((time, time)));
    }
}

/// The forms of `narrowed_to`.
const NARROWED_FORMS: usize = 5;

/// A range for the register, a condition that narrows it by the value, whose own
/// range is low..high, and what the register's becomes.
fn narrowed_to(register: u8, value: &Arithmetic, (low, high): Range, form: usize) -> (Range, Condition, Range) {
    let before = (low.saturating_sub(3), high.saturating_add(3));
    let (own, value) = (Register(register), value.clone());
    match form {
        0 => (before, Comparison(EQUAL, own, value), (low, high)),
        1 => (before, Comparison(LESS, own, value), (before.0, high.saturating_sub(1))),
        2 => (before, Comparison(LESS, value, own), (low.saturating_add(1), before.1)),
        3 => (before, not(Comparison(LESS, own, value)), (low, before.1)),
        _ => (before, not(Comparison(LESS, value, own)), (before.0, high)),
    }
}

/// The ranges of the registers where the condition holds, as the oracle's answers
/// show them; None if it cannot hold. Values are small.
fn all_ends(registers: &[Range], condition: &Condition) -> Option<Vec<Range>> {
    const FAR: u16 = 1000;
    const MIDDLE: i32 = 64;
    let reaches = |probe: Condition| {
        let statements = vec![
            jump((1, 1), 2, condition),
            halt(),
            jump((1, 1), 4, &probe),
            halt(),
            skip((FAR, FAR)),
            halt(),
        ];
        let plan = Plan::of(0, vec![], vec![Thread { registers: registers.to_vec(), statements }]);
        check(&plan.bytes(), PLAIN).high >= u64::from(FAR)
    };
    if !reaches(True) {
        return None;
    }
    let at = |value: u32| Constant(value as i32 - MIDDLE);
    let most = 2 * MIDDLE as u32;
    let ends = (0..registers.len()).map(|register| {
        let own = || Register(register as u8);
        let past_low = least(0, most, |value| reaches(Comparison(LESS, own(), at(value))));
        let high = least(0, most, |value| !reaches(Comparison(LESS, at(value), own())));
        (past_low as i32 - 1 - MIDDLE, high as i32 - MIDDLE)
    });
    Some(ends.collect())
}

/// The least ranges that hold both; one that is absent is ignored.
fn hull(left: Option<Vec<Range>>, right: Option<Vec<Range>>) -> Option<Vec<Range>> {
    let (Some(left), Some(right)) = (&left, &right) else { return left.or(right) };
    Some(left.iter().zip(right).map(|(a, b)| (a.0.min(b.0), a.1.max(b.1))).collect())
}

/// The least number of low..high with the property, which high has and which
/// numbers above one that has it have too.
fn least(low: u32, high: u32, has: impl Fn(u32) -> bool) -> u32 {
    let (mut low, mut high) = (low, high);
    while low < high {
        let middle = low + (high - low) / 2;
        if has(middle) {
            high = middle;
        } else {
            low = middle + 1;
        }
    }
    low
}
