//! Cases of what 01 refuses: each fault alone, and each two of them in one text, in both orders.

use crate::entries::Cases;
use crate::text_answer::Case;

/// A text in its parts.
#[derive(Clone)]
struct Plan {
    front: [String; 4],
    variables: Vec<String>,
    threads: Vec<Thread>,
    behind: &'static str,
}

/// A thread's `reg` lines and its statements; a halt stands behind them, unless it is dropped.
#[derive(Clone)]
struct Thread {
    registers: Vec<String>,
    statements: Vec<String>,
    halt: bool,
}

#[derive(Clone, Copy)]
enum Fault {
    /// Another of limit, budget, label, locks.
    Front(usize, &'static str),
    Variable(&'static str),
    Variables(usize),
    Register(usize, &'static str),
    Registers(usize, usize),
    Statement(usize, &'static str),
    Statements(usize, usize),
    NoHalt(usize),
    Threads(usize),
    /// Behind everything: unreadable.
    Behind(&'static str),
}
use Fault::*;

const FRONTS: [Fault; 11] = [
    Front(0, "limit 0"),
    Front(0, "limit 4294967296"),
    Front(1, "budget 10000001"),
    Front(1, "budget 4294967297"),
    Front(2, "label 2..1"),
    Front(2, "label 0..11"),
    Front(2, "label 4294967296..4294967296"),
    Front(3, "locks 9"),
    Front(3, "locks 256"),
    Variable("var 1..0"),
    Variable("var 0..2147483648"),
];
/// Ranges, statements of each fault: times, names, expressions, numbers too big, targets that are absent.
const REGISTERS: [&str; 2] = ["reg 1..0", "reg -2147483649..0"];
const STATEMENTS: [&str; 7] = [
    "0..1 skip",
    "1..65536 skip",
    "1..1 lock l1",
    "1..1 r0 := r1",
    "1..1 if !!!!!!!!!!!!true goto 0",
    "1..1 if true goto 99",
    "1..1 if true goto 256",
];
/// One line each with two faults, of which the number that is too big comes first.
const TWICE: [&str; 14] = [
    "0..1 lock l9",
    "2..1 r9 := r9",
    "0..65536 skip",
    "1..65536 lock l9",
    "1..1 r9 := 2147483648",
    "1..1 r0 := r9 + 2147483648",
    "1..1 r0 := 1-1-1-1-1-1-1-1-1-1-1-1-2147483648",
    "1..1 r0 := 1-1-1-1-1-1-1-1-1-1-1-1-r9",
    "1..1 r0 := r9-1-1-1-1-1-1-1-1-1-1-1-1",
    "1..1 r9 := 1-1-1-1-1-1-1-1-1-1-1-1-1",
    "1..1 if r9 < 0 goto 256",
    "1..1 if r9 < 0 goto 99",
    "1..1 store r9 to x256",
    "1..1 load r256 from x9",
];

fn all_faults() -> Vec<Fault> {
    let mut faults = FRONTS.to_vec();
    faults.push(Variables(9));
    for thread in 0..2 {
        faults.extend(REGISTERS.map(|line| Register(thread, line)));
        faults.extend(STATEMENTS.map(|line| Statement(thread, line)));
        faults.extend([Registers(thread, 9), Registers(thread, 264), NoHalt(thread)]);
    }
    faults.extend([Statements(0, 64), Statements(1, 65), Threads(5), Behind("x"), Behind("thread\n")]);
    faults
}

impl Plan {
    fn new() -> Plan {
        let thread = Thread { registers: vec![], statements: vec![], halt: true };
        Plan {
            front: ["limit 10", "budget 9", "label 0..9", "locks 1"].map(String::from),
            variables: vec![String::from("var 0..1")],
            threads: vec![thread; 2],
            behind: "",
        }
    }

    fn with(mut self, fault: Fault) -> Plan {
        match fault {
            Front(nth, line) => self.front[nth] = line.into(),
            Variable(line) => self.variables.push(line.into()),
            Variables(count) => self.variables.resize(count, "var 0..0".into()),
            Register(thread, line) => self.threads[thread].registers.push(line.into()),
            Registers(thread, count) => self.threads[thread].registers.resize(count, "reg 0..0".into()),
            Statement(thread, line) => self.threads[thread].statements.push(line.into()),
            Statements(thread, count) => self.threads[thread].statements.resize(count, "1..1 skip".into()),
            NoHalt(thread) => self.threads[thread].halt = false,
            Threads(count) => self.threads.resize(count, Thread { registers: vec![], statements: vec![], halt: true }),
            Behind(text) => self.behind = text,
        }
        self
    }

    fn text(&self) -> String {
        let mut lines = [&self.front[..], &self.variables].concat();
        for Thread { registers, statements, halt } in &self.threads {
            lines.push(String::from("thread"));
            lines.extend([&registers[..], statements].concat());
            // one statement at least
            if *halt || statements.is_empty() {
                lines.push(if *halt { "halt" } else { "1..1 skip" }.into());
            }
        }
        lines.join("\n") + "\n" + self.behind
    }
}

/// Whether a fault makes a long text; of two such no pair is made.
fn is_long(fault: Fault) -> bool {
    matches!(fault, Registers(_, 264) | Statements(..))
}

impl Cases<Case> {
    pub fn faults(&mut self) {
        let faults = all_faults();
        for (nth, &one) in faults.iter().enumerate() {
            self.fit(Plan::new().with(one).text().as_bytes());
            for (other_nth, &other) in faults.iter().enumerate() {
                // of the long ones not every pair
                if !(is_long(one) || is_long(other)) || !is_long(other) && (nth + other_nth) % 3 == 0 {
                    self.fit(Plan::new().with(one).with(other).text().as_bytes());
                }
            }
        }
        for line in TWICE {
            for halt in [true, false] {
                let mut plan = Plan::new().with(Statement(1, line));
                plan.threads[1].halt = halt;
                self.fit(plan.text().as_bytes());
                self.fit(plan.with(Register(0, "reg 0..0")).with(NoHalt(0)).text().as_bytes());
            }
        }
        self.firsts();
        self.edges();
        self.places();
    }

    /// Limits, budgets and labels about the ends of their ranges, each with each.
    fn firsts(&mut self) {
        for limit in ["0", "1", "1000000", "1000001", "4294967297"] {
            for budget in ["0", "1", "1000001", "10000000", "10000001", "4294967297"] {
                for label in ["0..0", "0..1000000", "1..0", "0..1000001", "0..4294967296"] {
                    let front = format!("limit {limit}\nbudget {budget}\nlabel {label}\n");
                    self.fit((front + "locks 0\nthread\nhalt").as_bytes());
                }
            }
        }
    }

    /// A ninth variable and register and a 65th statement with a fault of their own, and what stands behind them.
    fn edges(&mut self) {
        for line in ["var 0..0", "var 1..0", "var 0..2147483648"] {
            self.fit(Plan::new().with(Variables(7)).with(Variable(line)).text().as_bytes());
            self.fit(Plan::new().with(Variables(8)).with(Variable(line)).text().as_bytes());
        }
        for line in ["reg 0..0", "reg 1..0", "reg 0..2147483648"] {
            for thread in 0..2 {
                self.fit(Plan::new().with(Registers(thread, 7)).with(Register(thread, line)).text().as_bytes());
                self.fit(Plan::new().with(Registers(thread, 8)).with(Register(thread, line)).text().as_bytes());
            }
        }
        for line in STATEMENTS.into_iter().chain(TWICE).chain(["1..1 skip"]) {
            for count in [63, 64] {
                let plan = Plan::new().with(Statements(1, count)).with(Statement(1, line));
                self.fit(plan.clone().text().as_bytes());
                self.fit(plan.with(NoHalt(1)).text().as_bytes());
            }
        }
        for line in REGISTERS {
            self.fit(Plan::new().with(Threads(5)).with(Register(4, line)).text().as_bytes());
            self.fit(Plan::new().with(Threads(5)).with(Register(3, line)).text().as_bytes());
        }
        for fault in
            [NoHalt(3), NoHalt(4), Statement(3, "1..1 if true goto 9"), Statement(4, "1..1 skip"), Registers(4, 9)]
        {
            self.fit(Plan::new().with(Threads(5)).with(fault).text().as_bytes());
        }
    }

    /// Lines that begin with spaces: the place is the line's first byte, not the first word's.
    fn places(&mut self) {
        for fault in all_faults().into_iter().filter(|&fault| !is_long(fault)) {
            let text = Plan::new().with(fault).text();
            self.fit(("  ".to_string() + &text.replace('\n', " \n   ")).as_bytes());
            self.fit(text.trim_end().as_bytes());
        }
    }
}
