"""Slips of the rule for runs, tools/record_rule.rs; a module of record_slips.py."""

SLIPS, SAME = [], []


def slip(name, what, *edits):
    SLIPS.append((name, what, edits))


def same(name, why, *edits):
    """A rule in other words."""
    SAME.append((name, why, edits))


# what stands there
QUOTIENT = "    (dividend * divisor.signum()).div_euclid(divisor.abs())\n"
LEFT_VALUE = "    let left = i64::from(value(rest, registers)?);\n"
RIGHT_VALUE = "    let right = i64::from(value(rest, registers)?);\n"
ZERO = "        _ if right == 0 => return Err(NO_READING),\n"
SIZE = "    i32::try_from(result).map_err(|_| OFF_THE_SCALE)\n"
AND = ("            let left = holds(rest, registers)?;\n            let right = holds(rest, registers)?;\n"
       "            Ok(left && right)\n")
SIDES = "            let left = value(rest, registers)?;\n            let right = value(rest, registers)?;\n"
COMPARE = "            Ok(if code == 36 { left == right } else { left < right })\n"
LIVE = "        self.statement(sheet, thread).code != HALT\n"
FINISHED = "        (0..self.threads.len()).all(|thread| !self.live(sheet, thread))\n"
HALTED = "        if !self.live(sheet, thread) {\n            return false;\n        }\n"
CLOCK = "        let clock = self.threads[thread].clock;\n"
TIMES = "        if tick < clock + statement.least || clock + statement.greatest < tick {\n            return false;\n        }\n"
CLOCKS = "        if self.threads.iter().any(|other| tick < other.clock) {\n            return false;\n        }\n"
LIVE_ONES = "        let mut live = (0..self.threads.len()).filter(|&other| self.live(sheet, other));\n"
BOUND = "        live.all(|other| tick <= self.threads[other].clock + self.statement(sheet, other).greatest)\n"
ASSIGN = "            2 => own.registers[operand(0)] = value(&mut &statement.operands[1..], &own.registers)?,\n"
HOLDS = "                if holds(&mut &statement.operands[1..], &own.registers)? {\n                    next = operand(0);\n                }\n"
STORE = "            4 => self.variables[operand(1)] = own.registers[operand(0)],\n"
LOAD = "            5 => own.registers[operand(0)] = self.variables[operand(1)],\n"
UNLOCK = "                if self.owners[operand(0)] == Some(thread) {\n"
LOCK = "                if *self.owners[operand(0)].get_or_insert(thread) != thread {\n                    next = own.statement;\n                }\n"
MOVED = "        own.statement = next;\n        own.clock = tick;\n"

# ---- the start and an event

slip("values of the last thread first", "register values go to the threads from the last to the first",
     ("        State { threads, variables, owners: [None; 8] }\n",
      "        let mut all: Vec<i32> = threads.iter().rev().flat_map(|own: &Own| own.registers.clone()).collect();\n"
      "        for own in &mut threads {\n            own.registers = all.drain(..own.registers.len()).collect();\n        }\n"
      "        State { threads, variables, owners: [None; 8] }\n"))
slip("a halted thread ends its halt", "a halted thread has an event at its clock",
     (HALTED, ""), ("        let mut next = own.statement + 1;\n", "        let mut next = own.statement + usize::from(statement.code != HALT);\n"))
slip("least time not asked", "an event may come before the statement's least time", (TIMES, TIMES.replace("tick < clock + statement.least || ", "")))
slip("least time exclusive", "an event comes after the statement's least time", (TIMES, TIMES.replace("tick <", "tick <=")))
slip("greatest time exclusive", "an event comes before the statement's greatest time",
     (TIMES, TIMES.replace("greatest < tick", "greatest <= tick")))
slip("own greatest not asked", "the greatest time of the event's own thread is not asked",
     (TIMES, TIMES.replace(" || clock + statement.greatest < tick", "")), (LIVE_ONES, LIVE_ONES.replace("|&other| ", "|&other| other != thread && ")))
slip("others' greatest not asked", "another live thread may be left behind", (BOUND, "        true\n"), (LIVE_ONES, ""))
slip("others' greatest exclusive", "an event comes before the bound of another live thread",
     (BOUND, BOUND.replace("tick <=", "(tick <").replace("greatest)", "greatest || other == thread && tick <= clock + statement.greatest))")))
slip("others' least asked", "an event comes by the least time of every live thread",
     (LIVE_ONES, "        let later = |other: usize| tick > self.threads[other].clock + self.statement(sheet, other).least;\n"
      "        if (0..self.threads.len()).any(|other| other != thread && self.live(sheet, other) && later(other)) {\n            return false;\n        }\n" + LIVE_ONES))
slip("halted threads' clocks asked", "an event comes by the clock of every halted thread", (LIVE_ONES, LIVE_ONES.replace(".filter(|&other| self.live(sheet, other))", "")))
slip("threads at locks not asked", "a thread that stands at a lock may be left behind",
     (LIVE_ONES, LIVE_ONES.replace("self.live(sheet, other)", "self.live(sheet, other) && (other == thread || self.statement(sheet, other).code != LOCK)")))
slip("times from the last tick", "a statement's times count from the last tick",
     (CLOCK, "        let clock = self.threads.iter().map(|own| own.clock).max().unwrap_or(0);\n"))
slip("ticks rise", "two events have no tick in common", (CLOCKS, CLOCKS.replace("tick < other.clock", "tick <= other.clock && tick > 0")))
slip("lowest thread first", "of events at one tick the lower thread comes first",
     (CLOCKS, "        if self.threads[thread + 1..].iter().any(|other| tick == other.clock && tick > 0) {\n            return false;\n        }\n" + CLOCKS))
slip("finished if one halts", "a run is finished where some thread stands at halt", (FINISHED, FINISHED.replace(".all(", ".any(")))
slip("only the last halt halts", "a halt before the last statement is passed like a skip",
     (LIVE, "        self.threads[thread].statement + 1 < sheet.threads[thread].statements.len()\n"))

# ---- effects

slip("clock not set", "an event leaves the thread's clock", (MOVED, MOVED.replace("        own.clock = tick;\n", "")))
slip("all clocks set", "an event sets every thread's clock", (MOVED, "        own.statement = next;\n        self.threads.iter_mut().for_each(|own| own.clock = tick);\n"))
slip("failed try keeps the clock", "a try that fails leaves the thread's clock",
     (MOVED, "        if statement.code != LOCK || next != own.statement {\n            own.clock = tick;\n        }\n        own.statement = next;\n"))
slip("failed try moves on", "a try that fails moves on", (LOCK, LOCK.replace("next = own.statement;", "")))
slip("lock taken from another", "a lock owned by another is taken over", (LOCK, "                self.owners[operand(0)] = Some(thread);\n"))
slip("relock waits", "a thread stays at a lock that it owns",
     (LOCK, "                if self.owners[operand(0)].is_some() {\n                    next = own.statement;\n                }\n" + LOCK))
slip("unlock frees others' locks", "unlock frees the lock whoever owns it", (UNLOCK, "                if self.owners[operand(0)].is_some() {\n"))
slip("unlock frees nothing", "unlock frees no lock", (UNLOCK, UNLOCK.replace("Some(thread)", "Some(99)")))
slip("unlock of another's stays", "unlock of a lock that the thread does not own stays",
     (UNLOCK, "                if self.owners[operand(0)] != Some(thread) {\n                    next = own.statement;\n                } else {\n"))
slip("unlock counts", "a lock taken twice is not freed by the first unlock",
     (UNLOCK, "                let before = sheet.threads[thread].statements[..own.statement].iter();\n"
      "                let takes = before.filter(|before| before.code == LOCK && before.operands == statement.operands);\n"
      "                if self.owners[operand(0)] == Some(thread) && takes.count() < 2 {\n"))
slip("one lock", "all locks are one", (LOCK, LOCK.replace("operand(0)", "0")),
     (UNLOCK + "                    self.owners[operand(0)] = None;\n", UNLOCK.replace("operand(0)", "0") + "                    self.owners[0] = None;\n"))
slip("halt frees", "a lock owned by a halted thread is free",
     (MOVED, MOVED + "        if sheet.threads[thread].statements[next].code == HALT {\n"
      "            self.owners = self.owners.map(|owner| owner.filter(|&owner| owner != thread));\n        }\n"))
slip("if jumps where it fails", "an if jumps where its condition fails", (HOLDS, HOLDS.replace("if holds", "if !holds")))
slip("if never jumps", "an if moves on always", (HOLDS, HOLDS.replace("next = operand(0);", "")))
slip("if always jumps", "an if jumps always", (HOLDS, HOLDS.replace("? {", "? || true {")))
slip("jump by one more", "an if jumps to the statement behind its target",
     (HOLDS, HOLDS.replace("operand(0)", "(operand(0) + 1).min(sheet.threads[thread].statements.len() - 1)")))
slip("assign forgets", "assign leaves the register", (ASSIGN, "            2 => {\n                value(&mut &statement.operands[1..], &own.registers)?;\n            }\n"))
slip("store forgets", "store leaves the variable", (STORE, ""))
slip("load forgets", "load leaves the register", (LOAD, ""))
slip("store is load", "store and load are exchanged", (STORE, STORE.replace("4 =>", "5 =>")), (LOAD, LOAD.replace("5 =>", "4 =>")))
slip("store of register 0", "store takes register 0", (STORE, STORE.replace("registers[operand(0)]", "registers[0]")))
slip("load of variable 0", "load takes variable 0", (LOAD, LOAD.replace("variables[operand(1)]", "variables[0]")))

# ---- arithmetic

# a function that passes over an expression, put before `holds`
PAST = ("fn holds(rest",
        "fn past(rest: &mut &[u8]) {\n    match taken(rest, 1)[0] {\n        32 | 33 => {}\n"
        "        16 => drop(taken(rest, 4)),\n        17 => drop(taken(rest, 1)),\n"
        "        34 => past(rest),\n        _ => {\n            past(rest);\n            past(rest);\n        }\n    }\n}\n\nfn holds(rest")
slip("division toward zero", "division drops the fraction toward zero", (QUOTIENT, "    dividend / divisor\n"))
slip("division upward", "division goes toward plus infinity", (QUOTIENT, "    -(-dividend * divisor.signum()).div_euclid(divisor.abs())\n"))
slip("division by magnitude", "division goes by the dividend's sign alone", (QUOTIENT, "    dividend.div_euclid(divisor)\n"))
slip("zero divisor is 16", "a divisor of 0 is 16", (ZERO, ZERO.replace("NO_READING", "OFF_THE_SCALE")))
slip("zero divisor gives 0", "a quotient by 0 is 0", (ZERO, "        _ if right == 0 => 0,\n"))
slip("off the scale is 10", "a result off the 32-bit values is 10", (SIZE, SIZE.replace("OFF_THE_SCALE", "NO_READING")))
slip("results wrap", "a result off the 32-bit values wraps", (SIZE, "    Ok(result as i32)\n"))
slip("results end at the ends", "a result off the 32-bit values becomes the nearest of them",
     (SIZE, "    Ok(result.clamp(i32::MIN.into(), i32::MAX.into()) as i32)\n"))
slip("right operand's fault first", "the right operand is worked out before the left",
     (LEFT_VALUE + RIGHT_VALUE, "    let mut behind = *rest;\n    past(&mut behind);\n    let right = i64::from(value(&mut behind, registers)?);\n" + LEFT_VALUE + "    *rest = behind;\n"),
     PAST)
slip("and stops at its left", "the right of and is not worked out where the left fails",
     (AND, AND.replace("            let right", "            if !left {\n                past(rest);\n                return Ok(false);\n            }\n            let right")),
     PAST)
slip("right of and first", "the right of and is worked out before the left",
     (AND, "            let mut right = *rest;\n            past(&mut right);\n            let right_holds = holds(&mut right, registers)?;\n"
      "            let left = holds(rest, registers)?;\n            *rest = right;\n            Ok(left && right_holds)\n"),
     PAST)
slip("right of a comparison first", "the right of a comparison is worked out before the left",
     (SIDES, "            let mut right = *rest;\n            past(&mut right);\n            let right_value = value(&mut right, registers)?;\n"
      "            let left = value(rest, registers)?;\n            *rest = right;\n            let right = right_value;\n"),
     PAST)
slip("and is or", "and holds where one of its sides does", (AND, AND.replace("&&", "||")))
slip("not keeps", "not keeps what its operand gives", ("        34 => Ok(!holds(rest, registers)?),\n", "        34 => Ok(holds(rest, registers)?),\n"))
slip("less or equal", "less holds for equal sides", (COMPARE, COMPARE.replace("left < right", "left <= right")))
slip("equal is less", "equal holds where the left is below the right", (COMPARE, COMPARE.replace("left == right", "left < right")))
slip("true and false exchanged", "true fails, false holds", ("        32 => Ok(true),\n        33 => Ok(false),\n", "        32 => Ok(false),\n        33 => Ok(true),\n"))

# ---- the same rules in other words

same("every clock not asked", "the recovered tick is never below the tick before, the greatest clock", (CLOCKS, ""))
same("own greatest asked once", "the event's own thread is one of the live threads", (TIMES, TIMES.replace(" || clock + statement.greatest < tick", "")))
same("relock told apart", "a lock that its thread owns is left as it is",
     (LOCK, "                if self.owners[operand(0)] == Some(thread) {\n                    // nothing changes\n                } else "
      + LOCK.lstrip()))
