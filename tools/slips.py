#!/usr/bin/env python3
"""Shows that the corpus notices slips: rules of the oracle changed one at a time.

    slips.py [--only WORD] CORPUS

Each slip is a name, what it does, and edits of tools/oracle.rs (old text, which
stands there exactly once, and new text). The edited oracle is compiled and
answers the corpus; the table printed gives the entries it answers otherwise, and
those on which it panics. An oracle that does not end in time has been noticed too. A
second table has the changes that only say a rule in other words, a third what the
search comes to on how many entries, counted by a panic put there. Exit status 0 if
every slip is noticed, no change of words is, and all of the third table is come to.
"""

import os
import re
import shutil
import subprocess
import sys
import tempfile

TOOLS = os.path.dirname(os.path.abspath(__file__))
SECONDS = 60
# stands between the texts of two files
BREAK = "\0"


def edited(text, name, edits):
    for old, new in edits:
        if text.count(old) != 1:
            sys.exit(f"{name}: the old text stands {text.count(old)} times: {old!r}")
        text = text.replace(old, new)
    return text


def modules(name):
    """The files of a program: its own and, by their `mod` lines, those of its modules; not those of its tests."""
    with open(os.path.join(TOOLS, f"{name}.rs"), encoding="utf-8") as file:
        text = file.read()
    found = {name}
    for module in re.findall(r"^mod (\w+);", re.sub(r"#\[cfg\(test\)\]\nmod \w+;", "", text), re.MULTILINE):
        found |= modules(module)
    return found


class Program:
    """A program of tools/ that answers a corpus, and the changes of its text that are tried."""

    def __init__(self, name, *options, edited=()):
        """The program's own file is edited, or the modules that are named so; `text` is theirs, one behind the other."""
        self.name, self.options = name, options  # options of the compiler
        self.slips, self.same_rules = [], []
        self.edited = edited or (name,)
        self.modules = sorted(modules(name) - set(self.edited))
        texts = []
        for part in self.edited:
            with open(os.path.join(TOOLS, f"{part}.rs"), encoding="utf-8") as file:
                texts.append(file.read())
        self.text = BREAK.join(texts)

    def slip(self, name, what, *edits):
        self.slips.append((name, what, edits))

    def same(self, name, why, *edits):
        """A rule in other words."""
        self.same_rules.append((name, why, edits))

    def compiled(self, text, folder):
        """The program of this text."""
        source, program = os.path.join(folder, f"{self.name}.rs"), os.path.join(folder, self.name)
        for part, own in zip(self.edited, text.split(BREAK)):
            with open(os.path.join(folder, f"{part}.rs"), "w", encoding="utf-8") as file:
                file.write(own)
        # not optimised: compiling takes longer than the corpus
        compiler = subprocess.run(["rustc", *self.options, "-C", "overflow-checks=off", "-A", "warnings", "-o", program, source],
                                  capture_output=True, text=True)
        if compiler.returncode != 0:
            sys.exit(compiler.stderr)
        return program

    def answered(self, text, corpus, folder):
        """How many entries the program of this text answers otherwise, and on how many it panics; or what else it does."""
        try:
            run = subprocess.run([self.compiled(text, folder), "corpus", corpus], capture_output=True, text=True, timeout=SECONDS)
        except subprocess.TimeoutExpired:
            return "no end"
        found = re.match(r"(\d+) of \d+ entries are answered otherwise, (\d+) end in a panic", run.stdout)
        if run.returncode != 0 or not found:
            return "no answer"
        return int(found.group(1)), int(found.group(2))

    def changed(self, text, corpus, folder):
        """What the program of this text makes of the corpus, in words for a table; 0 for nothing otherwise."""
        found = self.answered(text, corpus, folder)
        if isinstance(found, str):
            return found
        otherwise, panics = found
        return f"{otherwise} and {panics} panics" if panics else otherwise

    def try_all(self, corpus, folder, only=""):
        """Prints a table of the slips and one of the rules in other words. Gives what is to be said of both, and whether every
        slip was noticed and no change of words."""
        for module in self.modules:
            shutil.copy(os.path.join(TOOLS, f"{module}.rs"), folder)
        tables = [[(name, what, edited(self.text, name, edits)) for name, what, edits in table if only in name]
                  for table in (self.slips, self.same_rules)]
        if self.changed(self.text, corpus, folder) != 0:
            sys.exit(f"{self.name}.rs itself answers the corpus otherwise")
        noticed = []
        for heads, texts in zip(("slip | what", "same rule | why"), tables):
            print(f"| {heads} | entries changed |\n|---|---|---|")
            noticed.append(0)
            for name, what, text in texts:
                count = self.changed(text, corpus, folder)
                noticed[-1] += count != 0
                print(f"| {name} | {what} | {count} |", flush=True)
            print()
        slips, same_rules = map(len, tables)
        told = f"{slips} slips, {slips - noticed[0]} unnoticed; {same_rules} same rules, {noticed[1]} noticed"
        return told, noticed == [slips, 0]

    def main(self, arguments, usage):
        """Tries what a command line asks for: `[--only WORD] CORPUS`."""
        only = ""
        if len(arguments) == 3 and arguments[0] == "--only":
            only, arguments = arguments[1], arguments[2:]
        if len(arguments) != 1:
            sys.exit(usage)
        with tempfile.TemporaryDirectory() as folder:
            told, well = self.try_all(arguments[0], folder, only)
        print(told)
        sys.exit(not well)


ORACLE = Program("oracle")
REACHED = []

slip, same = ORACLE.slip, ORACLE.same


def reach(name, *edits):
    """A panic where the search comes to this."""
    REACHED.append((name, edits))


def constant(name, old, new):
    """A constant one off."""
    slip(f"{name} {new}", f"{name} is {new}", (f"const {name}: {old};", f"const {name}: {old.split(' = ')[0]} = {new};"))


# ---- the reader: the order of checks

slip("length before body short", "a length that does not fit is 3 though the body is cut short",
     ("        let body = self.body()?;\n        if body.len() != length {",
      "        if unsigned(&self.bytes[place + 1..place + 3]) != length as u64 {\n            return refuse(BAD_LENGTH, place);\n        }\n"
      "        let body = self.body()?;\n        if body.len() != length {"))
slip("statement length before body short", "a statement's length under 5 is 3 though the body is cut short",
     ("    let body = reader.body()?;\n    if body.len() < 5 {",
      "    if unsigned(&reader.bytes[place + 1..place + 3]) < 5 {\n        return refuse(BAD_LENGTH, place);\n    }\n"
      "    let body = reader.body()?;\n    if body.len() < 5 {"))
slip("body short before tag", "a body cut short is 1 though the tag is not due",
     ("        Ok(self.bytes[self.place])",
      "        let length = unsigned(&self.bytes[self.place + 1..self.place + 3]) as usize;\n"
      "        if self.bytes.len() - self.place - HEADER < length {\n            return refuse(SHORT, self.place);\n        }\n"
      "        Ok(self.bytes[self.place])"))
slip("tag before header", "a tag that is never due is 2 though its header is cut short",
     ("        if self.bytes.len() - self.place < HEADER {",
      "        let rest = &self.bytes[self.place..];\n        if rest.len() < HEADER && !rest.first().is_some_and(|&tag| tag == 0 || tag > 6) {"))
slip("targets before halt", "closing checks targets, then halt",
     ("    if !matches!(last.action, Action::Halt) {\n        return refuse(NO_HALT, last.place);\n    }\n    for statement in statements {",
      "    for statement in statements {"),
     ("                return refuse(NO_SUCH_NAME, statement.place);\n            }\n        }\n    }\n    Ok(())",
      "                return refuse(NO_SUCH_NAME, statement.place);\n            }\n        }\n    }\n"
      "    if !matches!(last.action, Action::Halt) {\n        return refuse(NO_HALT, last.place);\n    }\n    Ok(())"))
slip("targets from the last", "closing checks targets from the last statement back",
     ("    for statement in statements {\n        if let Action::If { target, .. } = statement.action {",
      "    for statement in statements.iter().rev() {\n        if let Action::If { target, .. } = statement.action {"))
slip("target where it is read", "a target past 63 is 5 before the expression and the closing",
     ("            let target = usize::from(body[5]);\n            let mut", "            let target = name(5, MAX_STATEMENTS)?;\n            let mut"))
slip("closing at a cut header", "a thread closes on a lone tag 4",
     ("(reader.at_end() || reader.tag()? == 4)", "(reader.at_end() || reader.bytes[reader.place] == 4)"))
slip("closing before stray bytes", "a thread closes where less than a header remains",
     ("(reader.at_end() || reader.tag()? == 4)", "(reader.bytes.len() - reader.place < HEADER || reader.tag()? == 4)"))
slip("closing at any tag", "a thread closes on every tag but 6",
     ("(reader.at_end() || reader.tag()? == 4)", "(reader.at_end() || reader.tag()? != 6)"))
slip("closing after the new field's header", "tag 4 with a wrong length is 3 before the thread closes",
     ("            close_thread(&statements)?;\n",
      "            if !reader.at_end() {\n                let place = reader.place;\n                reader.body_of(1)?;\n                reader.place = place;\n"
      "            }\n            close_thread(&statements)?;\n"))
slip("no statement is no halt", "a thread without a statement is 7, not 2 or 1",
     ("        if !statements.is_empty() && (reader.at_end()",
      "        if statements.is_empty() && (reader.at_end() || reader.tag()? == 4) {\n            return refuse(NO_HALT, place);\n        }\n"
      "        if !statements.is_empty() && (reader.at_end()"))
slip("fifth thread before closing", "a fifth thread is 8 before the fourth closes",
     ("threads.push(read_thread(&mut reader, variables.len(), locks)?);", "threads.push(read_thread(&mut reader, variables.len(), locks, threads.len())?);"),
     ("fn read_thread(reader: &mut Reader, variables: usize, locks: usize)", "fn read_thread(reader: &mut Reader, variables: usize, locks: usize, before: usize)"),
     ("            close_thread(&statements)?;\n",
      "            if before + 1 == MAX_THREADS && !reader.at_end() {\n                return refuse(TOO_MANY, reader.place);\n            }\n            close_thread(&statements)?;\n"))
slip("65th statement before its tag", "a field after 64 statements is 8 though its tag is not due",
     ("        if reader.tag()? != 6 {\n            return refuse(OUT_OF_TURN, reader.place);\n        }\n        if statements.len() == MAX_STATEMENTS {\n            return refuse(TOO_MANY, reader.place);\n        }\n",
      "        let tag = reader.tag()?;\n        if statements.len() == MAX_STATEMENTS {\n            return refuse(TOO_MANY, reader.place);\n        }\n        if tag != 6 {\n            return refuse(OUT_OF_TURN, reader.place);\n        }\n"))
slip("65th statement after its contents", "a 65th statement is read before it is 8",
     ("        if statements.len() == MAX_STATEMENTS {\n            return refuse(TOO_MANY, reader.place);\n        }\n        statements.push(read_statement(reader, &names)?);",
      "        let place = reader.place;\n        let read = read_statement(reader, &names)?;\n        if statements.len() == MAX_STATEMENTS {\n            return refuse(TOO_MANY, place);\n        }\n        statements.push(read);"))
slip("ninth variable after its body", "a ninth variable is read before it is 8",
     ("        if variables.len() == MAX_VARIABLES {\n            return refuse(TOO_MANY, reader.place);\n        }\n        variables.push(read_range(&mut reader)?);",
      "        let place = reader.place;\n        let range = read_range(&mut reader)?;\n        if variables.len() == MAX_VARIABLES {\n            return refuse(TOO_MANY, place);\n        }\n        variables.push(range);"))
slip("fifth thread after its body", "a fifth thread's field is read before it is 8",
     ("        if threads.len() == MAX_THREADS {\n            return refuse(TOO_MANY, place);",
      "        if threads.len() == MAX_THREADS {\n            reader.body_of(1)?;\n            return refuse(TOO_MANY, place);"))
slip("times before length for the code", "times are 4 before the code's length is 3",
     ("    if !fits {\n        return refuse(BAD_LENGTH, place);\n    }\n", ""),
     ("    if !in_range || least > greatest {\n        return refuse(OFF_RANGE, place);\n    }\n",
      "    if !in_range || least > greatest {\n        return refuse(OFF_RANGE, place);\n    }\n    if !fits {\n        return refuse(BAD_LENGTH, place);\n    }\n"))
slip("names before times", "an absent lock is 5 before the times are 4",
     ("    let in_range = if code == 0", "    if code >= 6 && usize::from(body[5]) >= names.locks {\n        return refuse(NO_SUCH_NAME, place);\n    }\n    let in_range = if code == 0"))
slip("expression before names", "an assignment's expression is read before its register",
     ("            let register = name(5, names.registers)?;\n", ""),
     ("            let value = operand.arithmetic(MAX_NESTING)?;\n            operand.end()?;\n",
      "            let value = operand.arithmetic(MAX_NESTING)?;\n            operand.end()?;\n            let register = name(5, names.registers)?;\n"))
slip("expression before times", "a bad expression is 6 before the times are 4",
     ("    let in_range = if code == 0",
      "    if code == 2 {\n        let mut operand = Operand { bytes: &body[6..], place, registers: 8 };\n        operand.arithmetic(MAX_NESTING)?;\n    }\n    let in_range = if code == 0"))
slip("register before depth", "an absent register thirteen deep is 5",
     ("    fn arithmetic(&mut self, depth: usize) -> Result<Arithmetic, Refusal> {\n        if depth == 0 {\n",
      "    fn arithmetic(&mut self, depth: usize) -> Result<Arithmetic, Refusal> {\n        if depth == 0 {\n"
      "            if self.bytes.len() > 1 && self.bytes[0] == 17 && usize::from(self.bytes[1]) >= self.registers {\n                return refuse(NO_SUCH_NAME, self.place);\n            }\n"))
slip("left over first", "bytes left over after the longest expression are 6 before an absent register is 5",
     ("                if register >= self.registers {\n                    return refuse(NO_SUCH_NAME, self.place);",
      "                if register >= self.registers {\n                    if self.bytes.first().is_some_and(|&code| code > 37) {\n                        return self.bad();\n                    }\n                    return refuse(NO_SUCH_NAME, self.place);"))
slip("too long last", "the fields are read before 9",
     ("    if bytes.len() > MAX_SHEET {\n        return refuse(TOO_LONG, 0);\n    }\n    read_fields(bytes)\n", "    read_fields(bytes)\n"),
     ("    Ok(Program { limit, budget,", "    if bytes.len() > MAX_SHEET {\n        return refuse(TOO_LONG, 0);\n    }\n    Ok(Program { limit, budget,"))

# ---- the reader: which refusal, which place

slip("bytes missing is short", "bytes missing in an expression are 1",
     ("        if self.bytes.len() < count {\n            return self.bad();", "        if self.bytes.len() < count {\n            return refuse(SHORT, self.place);"))
slip("absent register is bad expression", "an absent register in an expression is 6",
     ("                if register >= self.registers {\n                    return refuse(NO_SUCH_NAME, self.place);", "                if register >= self.registers {\n                    return self.bad();"))
slip("left over allowed", "bytes left over after an expression are read past",
     ("if self.bytes.is_empty() { Ok(()) } else { self.bad() }", "Ok(())"))
slip("register too many is 8", "a register field too many is 8",
     ("        if reader.tag()? != 6 {\n            return refuse(OUT_OF_TURN, reader.place);",
      "        if reader.tag()? != 6 {\n            if reader.tag()? == 5 && count == MAX_REGISTERS {\n                return refuse(TOO_MANY, reader.place);\n            }\n            return refuse(OUT_OF_TURN, reader.place);"))
slip("nine registers is 8", "nine registers in tag 4 is 8",
     ("    if count > MAX_REGISTERS {\n        return refuse(OFF_RANGE, place);", "    if count > MAX_REGISTERS {\n        return refuse(TOO_MANY, place);"))
slip("short statement is 1", "a statement's length under 5 is 1",
     ("    if body.len() < 5 {\n        return refuse(BAD_LENGTH, place);", "    if body.len() < 5 {\n        return refuse(SHORT, place);"))
slip("7 at the thread", "7's place is the thread's first statement",
     ("return refuse(NO_HALT, last.place);", "return refuse(NO_HALT, statements[0].place);"))
slip("target at the end", "a target's place is the last statement",
     ("                return refuse(NO_SUCH_NAME, statement.place);", "                return refuse(NO_SUCH_NAME, last.place);"))
slip("no thread accepted", "a sheet may have no thread",
     ("    while reader.tag()? == 2 {", "    while !reader.at_end() && reader.tag()? == 2 {"),
     ("    while threads.is_empty() || !reader.at_end() {", "    while !reader.at_end() {"))
slip("no early halt", "a halt before the last statement is 7",
     ("    let last = &statements[statements.len() - 1];\n",
      "    let last = &statements[statements.len() - 1];\n    for statement in &statements[..statements.len() - 1] {\n        if matches!(statement.action, Action::Halt) {\n            return refuse(NO_HALT, statement.place);\n        }\n    }\n"))

# ---- the reader: ranges

constant("MAX_SHEET", "usize = 16_384", "16_383")
constant("MAX_SHEET", "usize = 16_384", "16_385")
constant("MAX_LOCKS", "usize = 8", "7")
constant("MAX_LOCKS", "usize = 8", "9")
constant("MAX_VARIABLES", "usize = 8", "7")
constant("MAX_VARIABLES", "usize = 8", "9")
constant("MAX_REGISTERS", "usize = 8", "7")
constant("MAX_REGISTERS", "usize = 8", "9")
constant("MAX_THREADS", "usize = 4", "3")
constant("MAX_THREADS", "usize = 4", "5")
constant("MAX_STATEMENTS", "usize = 64", "63")
constant("MAX_STATEMENTS", "usize = 64", "65")
constant("MAX_NESTING", "usize = 12", "11")
constant("MAX_NESTING", "usize = 12", "13")
constant("MAX_LIMIT", "u64 = 1_000_000", "999_999")
constant("MAX_LIMIT", "u64 = 1_000_000", "1_000_001")
constant("MAX_BUDGET", "u64 = 10_000_000", "9_999_999")
constant("MAX_BUDGET", "u64 = 10_000_000", "10_000_001")
slip("limit 0", "a limit of 0 is read", ("!(1..=MAX_LIMIT)", "!(0..=MAX_LIMIT)"))
slip("budget 0", "a budget of 0 is read", ("!(1..=MAX_BUDGET)", "!(0..=MAX_BUDGET)"))
slip("label of one tick", "label low must be below label high", ("label_low > label_high\n", "label_low >= label_high\n"))
slip("label high below limit", "label high must be below the limit", ("label_high > limit\n", "label_high >= limit\n"))
slip("label above limit", "label high may be above the limit", ("        || label_high > limit\n", ""))
slip("label signed", "the label's numbers are signed",
     ("        || label_low > label_high\n        || label_high > limit\n", "        || label_low as i32 > label_high as i32\n        || i64::from(label_high as i32) > limit as i64\n"))
slip("single value refused", "a range's low must be below its high", ("    if range.low > range.high {", "    if range.low >= range.high {"))
slip("range unsigned", "starting values are compared as unsigned", ("    if range.low > range.high {", "    if range.low as u32 > range.high as u32 {"))
slip("times signed", "a greatest time above 32,767 is 4", ("else { least >= 1 };", "else { least >= 1 && greatest < 32_768 };"))
slip("least time 0", "a least time of 0 is read", ("else { least >= 1 };", "else { true };"))
slip("halt with a greatest time", "halt's greatest time may be above 0", ("if code == 0 { greatest == 0 }", "if code == 0 { least == 0 }"))
slip("least above greatest", "least may be above greatest", ("    if !in_range || least > greatest {", "    if !in_range {"))
slip("least below greatest", "least must be below greatest, but for halt", ("    if !in_range || least > greatest {", "    if !in_range || code != 0 && least >= greatest {"))
slip("skip may be longer", "halt and skip may have more than 5 bytes", ("        0 | 1 => body.len() == 5,", "        0 | 1 => body.len() >= 5,"))
slip("assign of 6 bytes", "assign and if may have 6 bytes", ("        2 | 3 => body.len() >= 7,", "        2 | 3 => body.len() >= 6,"))
slip("if of 7 bytes refused", "assign and if must have 8 bytes", ("        2 | 3 => body.len() >= 7,", "        2 | 3 => body.len() >= 8,"))
slip("store may be longer", "store and load may have more than 7 bytes", ("        4 | 5 => body.len() == 7,", "        4 | 5 => body.len() >= 7,"))
slip("lock may be longer", "lock and unlock may have more than 6 bytes", ("        6 | 7 => body.len() == 6,", "        6 | 7 => body.len() >= 6,"))
slip("name one past", "a name equal to the count is read", ("        if name < count {", "        if name <= count {"))
slip("register one past", "a register equal to the count is read in an expression", ("                if register >= self.registers {", "                if register > self.registers {"))
slip("target one past", "a target equal to the number of statements is read", ("            if target >= statements.len() {", "            if target > statements.len() {"))
slip("last target refused", "a target must be below the last statement", ("            if target >= statements.len() {", "            if target + 1 >= statements.len() {"))
slip("equal not counted as deep", "the sides of equal are as deep as equal itself",
     ("Condition::Equal(self.arithmetic(depth - 1)?, self.arithmetic(depth - 1)?)", "Condition::Equal(self.arithmetic(depth)?, self.arithmetic(depth)?)"))
slip("less not counted as deep", "the sides of less are as deep as less itself",
     ("Condition::Less(self.arithmetic(depth - 1)?, self.arithmetic(depth - 1)?)", "Condition::Less(self.arithmetic(depth)?, self.arithmetic(depth)?)"))
slip("not not counted as deep", "negation adds no depth", ("Box::new(self.condition(depth - 1)?)", "Box::new(self.condition(depth)?)"))
slip("and's right not deep", "the right of and is as deep as and itself",
     ("                let right = self.condition(depth - 1)?;", "                let right = self.condition(depth)?;"))
slip("operator's right not deep", "the right of an operator is as deep as the operator itself",
     ("        let right = self.arithmetic(depth - 1)?;", "        let right = self.arithmetic(depth)?;"))

# ---- arithmetic

QUOTIENT = "    dividend / divisor - i64::from(upward)\n"
INEXACT, SIGNS_DIFFER = "dividend % divisor != 0", "(dividend < 0) != (divisor < 0)"
slip("rounding toward zero", "division drops the fraction toward zero, as in 01", (QUOTIENT, "    dividend / divisor\n"))
slip("rounding up", "division rounds up", (QUOTIENT, f"    dividend / divisor + i64::from({INEXACT} && !upward)\n"))
slip("rounding to the nearest", "division rounds to the nearest, down from a half",
     (QUOTIENT, "    let down = dividend / divisor - i64::from(upward);\n    down + i64::from(2 * (dividend - down * divisor).abs() > divisor.abs())\n"))
slip("no negative remainder", "division leaves no negative remainder", (QUOTIENT, "    dividend.div_euclid(divisor)\n"))
for name, where, signs in (
        ("both are negative", "where dividend and divisor are both negative", "dividend < 0 && divisor < 0"),
        ("the dividend is negative", "where the dividend is negative", "dividend < 0"),
        ("the divisor is negative", "where the divisor is negative", "divisor < 0"),
        ("only the dividend is negative", "only where a negative dividend has a positive divisor", "dividend < 0 && divisor > 0"),
        ("only the divisor is negative", "only where a positive dividend has a negative divisor", "dividend > 0 && divisor < 0"),
        ("the signs are alike too", "whatever the signs", "true")):
    slip(f"rounding down where {name}", f"an inexact quotient is lowered by one {where}", (SIGNS_DIFFER, signs))
slip("exact quotients lowered", "an exact quotient below zero is lowered by one too", (INEXACT, "dividend != 0"))
slip("0 lowered", "0 by a negative divisor is -1", (INEXACT, f"(dividend == 0 || {INEXACT})"))
IN_RANGE = "    i32::try_from(result).map_err(|_| OFF_THE_SCALE)\n"
slip("wrapping", "a result outside the 32-bit values wraps", (IN_RANGE, "    Ok(result as i32)\n"))
slip("saturating", "a result outside the 32-bit values stays at the end",
     (IN_RANGE, "    Ok(result.clamp(i64::from(i32::MIN), i64::from(i32::MAX)) as i32)\n"))
slip("lowest value left out", "the lowest value counts as outside", (IN_RANGE, "    i32::try_from(result).ok().filter(|&value| value != i32::MIN).ok_or(OFF_THE_SCALE)\n"))
slip("highest value left out", "the highest value counts as outside", (IN_RANGE, "    i32::try_from(result).ok().filter(|&value| value != i32::MAX).ok_or(OFF_THE_SCALE)\n"))
slip("lowest by -1", "the lowest value divided by -1 is the lowest value",
     (QUOTIENT, "    i64::from((dividend as i32).wrapping_div(divisor as i32)) - i64::from(upward)\n"))
slip("divisor 0 at the ends", "a divisor's interval is looked at only at its ends",
     ("right.low <= 0 && 0 <= right.high", "(right.low == 0 || right.high == 0)"))
OPERANDS = "            let left = interval_of(left, registers)?;\n            let right = interval_of(right, registers)?;\n            if *operator"
slip("difference of a register", "a register less itself is 0",
     (OPERANDS,
      "            if let (Operator::Minus, Arithmetic::Register(a), Arithmetic::Register(b)) = (operator, &**left, &**right) {\n                if a == b {\n                    return Ok(Interval::ZERO);\n                }\n            }\n" + OPERANDS))
slip("only the whole in range", "only the whole expression's result is held to the 32-bit values",
     ("        Arithmetic::Operation(operator, left, right) => {\n            let left = interval_of(left, registers)?;",
      "        Arithmetic::Operation(..) if true => {\n            let (low, high) = wide(expression, registers)?;\n            match (i32::try_from(low), i32::try_from(high)) {\n                (Ok(low), Ok(high)) => Ok(Interval { low, high }),\n                _ => Err(OFF_THE_SCALE),\n            }\n        }\n"
      "        Arithmetic::Operation(operator, left, right) => {\n            let left = interval_of(left, registers)?;"),
     ("/// \"10 is given in every part of a condition with the registers as they stand\n",
      "fn wide(expression: &Arithmetic, registers: &Registers) -> Result<(i128, i128), Fault> {\n    let Arithmetic::Operation(operator, left, right) = expression else {\n"
      "        return interval_of(expression, registers).map(|range| (i128::from(range.low), i128::from(range.high)));\n    };\n"
      "    let (left, right) = (wide(left, registers)?, wide(right, registers)?);\n    if *operator == Operator::Divide && right.0 <= 0 && 0 <= right.1 {\n        return Err(NO_READING);\n    }\n"
      "    let ends = [(left.0, right.0), (left.0, right.1), (left.1, right.0), (left.1, right.1)].map(|(a, b)| match operator {\n"
      "        Operator::Plus => a + b,\n        Operator::Minus => a - b,\n        Operator::Times => a.saturating_mul(b),\n        Operator::Divide => a / b - i128::from(a % b != 0 && (a < 0) != (b < 0)),\n    });\n"
      "    Ok((*ends.iter().min().unwrap(), *ends.iter().max().unwrap()))\n}\n\n/// \"10 is given in every part of a condition with the registers as they stand\n"))
LOW = "ends[0].min(ends[1]).min(ends[2]).min(ends[3])"
HIGH = "ends[0].max(ends[1]).max(ends[2]).max(ends[3])"
for corner, words in enumerate(["both lows", "the left low with the right high", "the left high with the right low", "both highs"]):
    others = [end for end in range(4) if end != corner]
    slip(f"least without corner {corner}", f"the least leaves out {words}", (LOW, "ends[{}].min(ends[{}]).min(ends[{}])".format(*others)))
    slip(f"greatest without corner {corner}", f"the greatest leaves out {words}", (HIGH, "ends[{}].max(ends[{}]).max(ends[{}])".format(*others)))
slip("greatest is the least", "the greatest is taken as the least over the ends", (HIGH, LOW))
# one end of a quotient's interval rounded otherwise
for name, what, end, rounded in (
        ("least toward zero", "the least quotient goes toward zero", LOW, "a / b"),
        ("greatest toward zero", "the greatest quotient goes toward zero", HIGH, "a / b"),
        ("greatest up", "the greatest quotient is rounded up, the least down", HIGH, "a / b + i32::from(a % b != 0 && (a < 0) == (b < 0))")):
    slip(name, what, (end, "if *operator == Operator::Divide {\n                let pairs = [(left.low, right.low), (left.low, right.high), (left.high, right.low), (left.high, right.high)];\n"
                      f"                let ends = pairs.map(|(a, b)| {rounded});\n                {end}\n            }} else {{\n                {end}\n            }}"))

# ---- zero or size: which of the two, and in which order

TEN, SIXTEEN = "const NO_READING: u8 = 10;", "const OFF_THE_SCALE: u8 = 16;"
LEFT, RIGHT = "            let left = interval_of(left, registers)?;\n", "            let right = interval_of(right, registers)?;\n"
ZERO = "            if *operator == Operator::Divide && right.low <= 0 && 0 <= right.high {\n                return Err(NO_READING);\n            }\n"
CORNERS = ("            let ends = [\n                apply(*operator, left.low, right.low)?,\n                apply(*operator, left.low, right.high)?,\n"
           "                apply(*operator, left.high, right.low)?,\n                apply(*operator, left.high, right.high)?,\n            ];\n")
NO_ENDS = ((f"            let low = {LOW};\n", ""), (f"            let high = {HIGH};\n", ""))
# least and greatest as 64-bit numbers
WIDE = ("            let wide = |a: i32, b: i32| {\n                let (a, b) = (i64::from(a), i64::from(b));\n                match operator {\n"
        "                    Operator::Plus => a + b,\n                    Operator::Minus => a - b,\n                    Operator::Times => a * b,\n                    Operator::Divide => quotient(a, b),\n                }\n            };\n"
        "            let ends = [wide(left.low, right.low), wide(left.low, right.high), wide(left.high, right.low), wide(left.high, right.high)];\n"
        f"            let (low, high) = ({LOW}, {HIGH});\n")
slip("both faults 10", "a result off the 32-bit values is 10", (SIXTEEN, "const OFF_THE_SCALE: u8 = 10;"))
slip("both faults 16", "a divisor that may be 0 is 16", (TEN, "const NO_READING: u8 = 16;"))
slip("faults exchanged", "a divisor that may be 0 is 16, a result off the 32-bit values 10",
     (TEN, "const NO_READING: u8 = 16;"), (SIXTEEN, "const OFF_THE_SCALE: u8 = 10;"))
slip("off the scale 17", "a result off the 32-bit values is 17", (SIXTEEN, "const OFF_THE_SCALE: u8 = 17;"))
for operator, word in (("Plus", "sum"), ("Minus", "difference"), ("Times", "product"), ("Divide", "quotient")):
    slip(f"{word} off the scale is 10", f"a {word} off the 32-bit values is 10",
         (IN_RANGE, f"    i32::try_from(result).map_err(|_| if operator == Operator::{operator} {{ NO_READING }} else {{ OFF_THE_SCALE }})\n"))
    slip(f"{word} not held", f"a {word} off the 32-bit values stays at the end",
         (IN_RANGE, f"    if operator == Operator::{operator} {{\n        return Ok(result.clamp(i64::from(i32::MIN), i64::from(i32::MAX)) as i32);\n    }}\n" + IN_RANGE))
slip("right operand first", "the right operand speaks before the left", (LEFT + RIGHT, "            let (right, left) = (interval_of(right, registers)?, interval_of(left, registers)?);\n"))
slip("zero before the left operand", "a divisor that may be 0 is 10 before the left operand speaks",
     (LEFT + RIGHT, "            if let (Operator::Divide, Ok(Interval { low: i32::MIN..=0, high: 0..=i32::MAX })) = (operator, interval_of(right, registers)) {\n                return Err(NO_READING);\n            }\n" + LEFT + RIGHT))
slip("10 before 16 in an expression", "where both operands have a fault, 10 is passed up before 16",
     (LEFT + RIGHT, "            if let (Err(a), Err(b)) = (interval_of(left, registers), interval_of(right, registers)) {\n                return Err(a.min(b));\n            }\n" + LEFT + RIGHT))
slip("16 before 10 in an expression", "where both operands have a fault, 16 is passed up before 10",
     (LEFT + RIGHT, "            if let (Err(a), Err(b)) = (interval_of(left, registers), interval_of(right, registers)) {\n                return Err(a.max(b));\n            }\n" + LEFT + RIGHT))
slip("size before zero", "a divide's ends are held to the 32-bit values before its divisor is looked at",
     (ZERO, "            let corners = [(left.low, right.low), (left.low, right.high), (left.high, right.low), (left.high, right.high)];\n"
      "            if *operator == Operator::Divide && corners.iter().any(|&(a, b)| apply(*operator, a, b) == Err(OFF_THE_SCALE)) {\n                return Err(OFF_THE_SCALE);\n            }\n" + ZERO))
slip("size before zero anywhere", "the lowest value by -1 is 16 wherever the intervals hold them, before zero",
     (ZERO, "            if *operator == Operator::Divide && left.low == i32::MIN && right.low <= -1 && -1 <= right.high {\n                return Err(OFF_THE_SCALE);\n            }\n" + ZERO))
slip("divisor 0 strictly inside", "a divisor that ends at 0 is looked at end by end, where -1 may come first", ("right.low <= 0 && 0 <= right.high {", "right.low < 0 && 0 < right.high {"))
slip("operand's fault is the divide's", "a fault of a divide's operands is 10",
     (LEFT + RIGHT, "            let own = |fault| if *operator == Operator::Divide { NO_READING } else { fault };\n"
      "            let left = interval_of(left, registers).map_err(own)?;\n            let right = interval_of(right, registers).map_err(own)?;\n"))
slip("operand's fault is the sum's", "a fault of the operands of +, - and times is 16",
     (LEFT + RIGHT, "            let own = |fault| if *operator != Operator::Divide { OFF_THE_SCALE } else { fault };\n"
      "            let left = interval_of(left, registers).map_err(own)?;\n            let right = interval_of(right, registers).map_err(own)?;\n"))
slip("only the low end held", "only a result's low end is held to the 32-bit values",
     (CORNERS, WIDE + "            let Ok(low) = i32::try_from(low) else { return Err(OFF_THE_SCALE) };\n            let high = high.min(i64::from(i32::MAX)) as i32;\n"), *NO_ENDS)
slip("only the high end held", "only a result's high end is held to the 32-bit values",
     (CORNERS, WIDE + "            let Ok(high) = i32::try_from(high) else { return Err(OFF_THE_SCALE) };\n            let low = low.max(i64::from(i32::MIN)) as i32;\n"), *NO_ENDS)

# ---- products in 32 bits (02, ticket 3)


def wrapping_products(test):
    """Products that wrap at 32 bits where the test on the ends holds."""
    return (CORNERS, "            let ends = [left.low, left.high, right.low, right.high];\n"
            f"            let narrow = *operator == Operator::Times && {test};\n"
            "            let corner = |a: i32, b: i32| if narrow { Ok(a.wrapping_mul(b)) } else { apply(*operator, a, b) };\n"
            + CORNERS.replace("apply(*operator, ", "corner("))


SIXTEEN_BITS = "(-32_768..=32_767).contains(&end)"
for name, where, test in (
        ("within bounds twice as wide", "where all four ends lie within -65,536..65,536", "ends.iter().all(|&end| (-65_536..=65_536).contains(&end))"),
        ("tested by the left factor", "where the left factor's ends lie within -32,768..32,767", f"ends[..2].iter().all(|&end| {SIXTEEN_BITS})"),
        ("tested by the right factor", "where the right factor's ends lie within -32,768..32,767", f"ends[2..].iter().all(|&end| {SIXTEEN_BITS})"),
        ("tested by the lows", "where both lows lie within -32,768..32,767", f"[ends[0], ends[2]].iter().all(|&end| {SIXTEEN_BITS})"),
        ("tested by the highs", "where both highs lie within -32,768..32,767", f"[ends[1], ends[3]].iter().all(|&end| {SIXTEEN_BITS})"),
        ("tested by any end", "where at least one end lies within -32,768..32,767", f"ends.iter().any(|&end| {SIXTEEN_BITS})"),
        ("tested from above only", "where all four ends are at most 32,767", "ends.iter().all(|&end| end <= 32_767)"),
        ("tested from below only", "where all four ends are at least -32,768", "ends.iter().all(|&end| end >= -32_768)"),
        ("within bounds of 46,341", "where all four ends lie within -46,341..46,341", "ends.iter().all(|&end| (-46_341..=46_341).contains(&end))"),
        *((f"tested without the {end}", f"where all ends but the {end} lie within -32,768..32,767", f"ends.iter().enumerate().all(|(at, &end)| at == {at} || {SIXTEEN_BITS})")
          for at, end in enumerate(["left low", "left high", "right low", "right high"]))):
    slip(f"32-bit products {name}", f"products wrap at 32 bits {where}", wrapping_products(test))

# ---- conditions

# a part without a reading may be anything
ANYTHING = ("    (interval_of(left, registers).expect(kept), interval_of(right, registers).expect(kept))",
            "    let (_, anything) = (kept, Interval { low: i32::MIN, high: i32::MAX });\n"
            "    (interval_of(left, registers).unwrap_or(anything), interval_of(right, registers).unwrap_or(anything))")
BOTH_PARTS = "            reading(left, registers)?;\n            reading(right, registers)\n"
BOTH_SIDES = "            interval_of(left, registers)?;\n            interval_of(right, registers)?;\n            Ok(())\n"
for name, number, code in (("divisor", 10, "NO_READING"), ("size", 16, "OFF_THE_SCALE")):
    slip(f"{name} after narrowing", f"{number} is looked for on the right of and after narrowing by the left",
         (BOTH_PARTS,
          "            reading(left, registers)?;\n            let mut narrowed = *registers;\n            match reading(right, registers) {\n"
          f"                Err({code}) if narrow(left, true, &mut narrowed) => reading(right, &narrowed),\n                Err({code}) => Ok(()),\n                other => other,\n            }}\n"), ANYTHING)
slip("left of and not looked at", "10 and 16 are looked for on the right of and only", (BOTH_PARTS, "            reading(right, registers)\n"), ANYTHING)
slip("right of and not looked at", "10 and 16 are looked for on the left of and only", (BOTH_PARTS, "            reading(left, registers)\n"), ANYTHING)
slip("left side not looked at", "10 and 16 are looked for on the right of a comparison only",
     (BOTH_SIDES, "            interval_of(right, registers)?;\n            Ok(())\n"), ANYTHING)
slip("right side not looked at", "10 and 16 are looked for on the left of a comparison only",
     (BOTH_SIDES, "            interval_of(left, registers)?;\n            Ok(())\n"), ANYTHING)
slip("negation not looked at", "10 and 16 are not looked for under not",
     ("        Condition::Not(operand) => reading(operand, registers),\n", "        Condition::Not(_) => Ok(()),\n"), ANYTHING)
slip("right part first", "the right part of and speaks before the left",
     (BOTH_PARTS, "            reading(right, registers)?;\n            reading(left, registers)\n"))
slip("right side first", "the right side of a comparison speaks before the left",
     (BOTH_SIDES, "            interval_of(right, registers)?;\n            interval_of(left, registers)?;\n            Ok(())\n"))
for word, choice, other in (("10 before 16", "min", "16"), ("16 before 10", "max", "10")):
    slip(f"{word} in an and", f"where both parts of and have a fault, {word.split()[0]} is passed up before {other}",
         (BOTH_PARTS, f"            if let (Err(a), Err(b)) = (reading(left, registers), reading(right, registers)) {{\n                return Err(a.{choice}(b));\n            }}\n" + BOTH_PARTS))
    slip(f"{word} in a comparison", f"where both sides of a comparison have a fault, {word.split()[0]} is passed up before {other}",
         (BOTH_SIDES, f"            if let (Err(a), Err(b)) = (interval_of(left, registers), interval_of(right, registers)) {{\n                return Err(a.{choice}(b));\n            }}\n" + BOTH_SIDES))
IF_FAULT = "            reading(condition, &state.threads[thread].registers).map_err(at_fault)?;\n"
ASSIGN_FAULT = "                interval_of(value, &state.threads[thread].registers).map_err(at_fault)?\n"
for word, text in (("an if", IF_FAULT), ("an assignment", ASSIGN_FAULT)):
    for code, what in (("NO_READING", "10"), ("OFF_THE_SCALE", "16")):
        slip(f"{word}'s fault is {what}", f"every fault of {word} is {what}", (text, text.replace("map_err(at_fault)", f"map_err(|_| at_fault({code}))")))
slip("right of and first", "yes: and narrows by the right, then by the left",
     ("if yes => narrow(left, true, registers) && narrow(right, true, registers),", "if yes => narrow(right, true, registers) && narrow(left, true, registers),"))
slip("and without chaining", "yes: each side of and narrows the registers before it, and the results are met",
     ("if yes => narrow(left, true, registers) && narrow(right, true, registers),",
      "if yes => {\n            let mut other = *registers;\n            let may = narrow(left, true, &mut other) && narrow(right, true, registers);\n"
      "            for (register, other) in registers.iter_mut().zip(&other) {\n                register.low = register.low.max(other.low);\n                register.high = register.high.min(other.high);\n            }\n"
      "            may && registers.iter().all(|register| register.low <= register.high)\n        }"))
slip("and by the left only", "yes: and narrows by the left only",
     ("if yes => narrow(left, true, registers) && narrow(right, true, registers),", "if yes => narrow(left, true, registers) && narrow(right, true, &mut registers.clone()),"))
NO_AND = "            let right_may_fail = narrow(right, false, registers);\n"
slip("no of and chained", "no: the right of and is worked out where the left holds",
     (NO_AND, "            let mut held = *registers;\n            let right_may_fail = narrow(left, true, &mut held) && narrow(right, false, &mut held);\n            if right_may_fail {\n                *registers = held;\n            }\n"))
slip("no of and met", "no: the sides of and are met, not joined",
     ("                    register.low = register.low.min(other.low);\n                    register.high = register.high.max(other.high);",
      "                    register.low = register.low.max(other.low);\n                    register.high = register.high.min(other.high);"))
slip("no of and: right only", "no: both sides of and may fail, and the right's result is kept",
     ("                    register.low = register.low.min(other.low);\n                    register.high = register.high.max(other.high);", "                    let _ = (register, other);"))
slip("no of and: left only", "no: both sides of and may fail, and the left's result is kept",
     ("                    register.low = register.low.min(other.low);\n                    register.high = register.high.max(other.high);", "                    *register = *other;"))
slip("no of and: lows not joined", "no: the join of and leaves the lows",
     ("                    register.low = register.low.min(other.low);\n", ""))
slip("no of and: highs not joined", "no: the join of and leaves the highs",
     ("                    register.high = register.high.max(other.high);\n", ""))
slip("no of and keeps", "no: and keeps the registers as they are",
     ("            let mut other = *registers;\n            let left_may_fail", "            let before = *registers;\n            let mut other = *registers;\n            let left_may_fail"),
     ("            left_may_fail || right_may_fail\n", "            *registers = before;\n            left_may_fail || right_may_fail\n"))
slip("no of and: empty not ignored", "no: an empty side of and empties the join",
     ("            left_may_fail || right_may_fail\n", "            left_may_fail && right_may_fail\n"))
slip("no of and: left empty only", "no: and is empty if its left is",
     ("            left_may_fail || right_may_fail\n", "            left_may_fail\n"))
slip("no of and: right empty only", "no: and is empty if its right is",
     ("            left_may_fail || right_may_fail\n", "            right_may_fail\n"))
slip("no of and: empty side joined", "no: an empty side of and is joined, its registers as far as they were narrowed",
     ("            if left_may_fail && right_may_fail {\n", "            if left_may_fail || right_may_fail {\n"))
slip("no of and: empty side keeps", "no: and keeps the registers as they are where one of its sides is empty",
     ("            let mut other = *registers;\n            let left_may_fail", "            let before = *registers;\n            let mut other = *registers;\n            let left_may_fail"),
     ("            } else if left_may_fail {\n                *registers = other;\n", "            } else {\n                *registers = before;\n"))
slip("no of and: apart not joined", "no: where the two sides' ranges of a register do not meet, the right's is kept",
     ("                for (register, other) in registers.iter_mut().zip(&other) {\n                    register.low = register.low.min(other.low);",
      "                for (register, other) in registers.iter_mut().zip(&other) {\n                    if register.high < other.low || other.high < register.low {\n                        continue;\n                    }\n"
      "                    register.low = register.low.min(other.low);"))
slip("no of and: one register joined", "no: the join of and is of register 0 only, the others are the right's",
     ("                for (register, other) in registers.iter_mut().zip(&other) {\n                    register.low = register.low.min(other.low);",
      "                for (register, other) in registers.iter_mut().zip(&other).take(1) {\n                    register.low = register.low.min(other.low);"))
slip("and: empty left forgotten", "yes: and is empty only if its right is",
     ("if yes => narrow(left, true, registers) && narrow(right, true, registers),", "if yes => {\n            narrow(left, true, registers);\n            narrow(right, true, registers)\n        }"))
slip("and: empty right forgotten", "yes: and is empty only if its left is",
     ("if yes => narrow(left, true, registers) && narrow(right, true, registers),", "if yes => narrow(left, true, registers) && (narrow(right, true, registers) || true),"))
slip("negation keeps yes", "negation does not turn yes into no", ("narrow(operand, !yes, registers)", "narrow(operand, yes, registers)"))
slip("equal: left not narrowed", "yes: equal narrows the right register only",
     ("                raise(left, meet.low, registers)\n                    && lower(left, meet.high, registers)\n                    && raise(right,", "                raise(right,"))
slip("equal: right not narrowed", "yes: equal narrows the left register only",
     ("                    && raise(right, meet.low, registers)\n                    && lower(right, meet.high, registers)\n", ""))
slip("equal: lows not narrowed", "yes: equal leaves the left register's low",
     ("                raise(left, meet.low, registers)\n                    && lower(left,", "                lower(left,"))
slip("equal: highs not narrowed", "yes: equal leaves the right register's high", ("                    && lower(right, meet.high, registers)\n", ""))
slip("equal: a single meet is empty", "yes: equal is empty if the meet is a single value", ("                if meet.low > meet.high {", "                if meet.low >= meet.high {"))
slip("equal: never empty", "yes: equal is not empty where the intervals do not meet",
     ("                if meet.low > meet.high {\n                    return false;", "                if meet.low > meet.high {\n                    return true;"))
EQUAL_NO = "!(a.low == a.high && a == b)"
slip("equal no: same intervals", "no: equal empties if the intervals are the same", (EQUAL_NO, "a != b"))
slip("equal no: left single", "no: equal empties if the left is a single value", (EQUAL_NO, "!(a.low == a.high)"))
slip("equal no: never empty", "no: equal always keeps", (EQUAL_NO, "true"))
slip("equal no: ends taken off", "no: equal takes a single right value off the left register's ends",
     (EQUAL_NO,
      "!(a.low == a.high && a == b)\n                    && (b.low != b.high || a.low != b.low || raise(left, b.low + 1, registers))\n                    && (b.low != b.high || a.high != b.low || lower(left, b.low - 1, registers))"))
slip("less: at most", "yes: less is not empty where left low is right high", ("                a.low < b.high && lower", "                a.low <= b.high && lower"))
slip("less: lows compared", "yes: less is empty unless left low is below right low", ("                a.low < b.high && lower", "                a.low < b.low && lower"))
slip("less: highs compared", "yes: less is empty unless left high is below right high", ("                a.low < b.high && lower", "                a.high < b.high && lower"))
slip("less: decided only", "yes: less is empty unless left high is below right low", ("                a.low < b.high && lower", "                a.high < b.low && lower"))
slip("less: left high not less 1", "yes: a left register's high becomes right high", ("lower(left, b.high - 1, registers)", "lower(left, b.high, registers)"))
slip("less: right low not plus 1", "yes: a right register's low becomes left low", ("raise(right, a.low + 1, registers)", "raise(right, a.low, registers)"))
slip("less: left by right low", "yes: a left register's high becomes at most right low less 1", ("lower(left, b.high - 1, registers)", "lower(left, b.low.saturating_sub(1), registers)"))
slip("less: right by left high", "yes: a right register's low becomes at least left high plus 1", ("raise(right, a.low + 1, registers)", "raise(right, a.high.saturating_add(1), registers)"))
slip("less: left not narrowed", "yes: less narrows the right register only", ("a.low < b.high && lower(left, b.high - 1, registers)", "a.low < b.high"))
slip("less: right not narrowed", "yes: less narrows the left register only", (" && raise(right, a.low + 1, registers)", ""))
slip("less no: above", "no: less is empty where left high is right low", ("                a.high >= b.low && raise", "                a.high > b.low && raise"))
slip("less no: lows compared", "no: less is empty unless left low is at least right low", ("                a.high >= b.low && raise", "                a.low >= b.low && raise"))
slip("less no: highs compared", "no: less is empty unless left high is at least right high", ("                a.high >= b.low && raise", "                a.high >= b.high && raise"))
slip("less no: left low plus 1", "no: a left register's low is raised past right low", ("raise(left, b.low, registers)", "raise(left, b.low.saturating_add(1), registers)"))
slip("less no: right high less 1", "no: a right register's high is lowered below left high", ("lower(right, a.high, registers)", "lower(right, a.high.saturating_sub(1), registers)"))
slip("less no: left by right high", "no: a left register's low is raised to right high", ("raise(left, b.low, registers)", "raise(left, b.high, registers)"))
slip("less no: left not narrowed", "no: less narrows the right register only", ("a.high >= b.low && raise(left, b.low, registers)", "a.high >= b.low"))
slip("less no: right not narrowed", "no: less narrows the left register only", (" && lower(right, a.high, registers)\n", "\n"))
slip("low set, not raised", "a low becomes the bound though it was above it", ("        register.low = register.low.max(bound);", "        register.low = bound;"))
slip("high set, not lowered", "a high becomes the bound though it was below it", ("        register.high = register.high.min(bound);", "        register.high = bound;"))
slip("register of nothing kept", "a register narrowed to nothing does not empty the state",
     ("        register.low = register.low.max(bound);\n        return register.low <= register.high;", "        register.low = register.low.max(bound);"))
slip("register of nothing becomes one value", "a register narrowed to nothing has its high left",
     ("        register.low = register.low.max(bound);\n", "        register.low = register.low.max(bound).min(register.high);\n"))
slip("empty states kept", "an empty branch is followed", ("                if !narrow(condition, yes, &mut own.registers) {", "                if !narrow(condition, yes, &mut own.registers) && false {"))
slip("no before yes", "the no state is made before the yes state", ("[(true, *target), (false, next)]", "[(false, next), (true, *target)]"))
slip("branches not narrowed", "the registers stay as they were in both branches",
     ("                if !narrow(condition, yes, &mut own.registers) {", "                if !narrow(condition, yes, &mut own.registers.clone()) {"))
slip("yes branch only", "an undecided comparison follows the yes branch only",
     ("                if !narrow(condition, yes, &mut own.registers) {", "                if !narrow(condition, yes, &mut own.registers) || !yes && narrow(condition, true, &mut state.threads[thread].registers.clone()) {"))

# ---- values written

ASSIGN = "            Action::Assign { register, .. } => own.registers[register] = value,"
STORE = "            Action::Store { register, variable } => next.variables[variable] = own.registers[register],"
LOAD = "            Action::Load { register, variable } => own.registers[register] = next.variables[variable],"
JOIN = "Interval {{ low: {0}.low.min({1}.low), high: {0}.high.max({1}.high) }}"
slip("assign joins", "assign joins the value to the register's", (ASSIGN, ASSIGN.replace("= value", "= " + JOIN.format("value", "own.registers[register]"))))
slip("store joins", "store joins the value to the variable's",
     (STORE, STORE.replace("= own.registers[register]", "= " + JOIN.format("own.registers[register]", "next.variables[variable]"))))
slip("load joins", "load joins the value to the register's",
     (LOAD, LOAD.replace("= next.variables[variable]", "= " + JOIN.format("next.variables[variable]", "own.registers[register]"))))
slip("store forgets", "store leaves the variable", (STORE, "            Action::Store { .. } => {}"))
slip("load forgets", "load leaves the register", (LOAD, "            Action::Load { .. } => {}"))
slip("load of the start", "load gives the variable's starting range", (LOAD, LOAD.replace("next.variables", "program.variables")))
slip("load narrowed to the low", "load gives the variable's low only", (LOAD, LOAD.replace("next.variables[variable]", "Interval::single(next.variables[variable].low)")))

# ---- locks

slip("unlock frees another's lock", "unlock frees the lock whoever owns it", ("    if owners[lock] == Some(thread as u8) {\n", "    if true || owners[lock] == Some(thread as u8) {\n"))
slip("unlock does nothing", "unlock frees no lock", ("        owners[lock] = None;\n", ""))
slip("unlock of another's waits", "unlock of a lock that the thread does not own stays",
     ("            Action::Unlock { lock } => unlock(lock, thread, &mut next.owners),\n            Action::Lock { lock } => {\n                // ",
      "            Action::Unlock { lock } => {\n                if next.owners[lock] != Some(thread as u8) {\n                    own.statement -= 1;\n                }\n                unlock(lock, thread, &mut next.owners)\n            }\n            Action::Lock { lock } => {\n                // "))
slip("relock waits", "a thread waits at a lock that it owns itself",
     ("    let owner = owners[lock].get_or_insert(thread as u8);\n    usize::from(*owner) == thread", "    let free = owners[lock].is_none();\n    owners[lock].get_or_insert(thread as u8);\n    free"))
slip("relock is stuck", "a thread at a lock that it owns itself counts as waiting", ("owners[*lock].is_some_and(|owner| usize::from(owner) != thread)", "owners[*lock].is_some()"))
slip("lock taken from another", "a lock owned by another is taken over",
     ("    let owner = owners[lock].get_or_insert(thread as u8);\n    usize::from(*owner) == thread", "    owners[lock] = Some(thread as u8);\n    true"))
slip("lock not taken", "a thread moves past a lock that another owns", ("                    own.statement -= 1;\n                }\n            }\n            Action::Skip", "                }\n            }\n            Action::Skip"))
slip("lock at release", "a waiting thread takes the lock at the tick of release without a fresh try",
     ("            Action::Unlock { lock } => unlock(lock, thread, &mut next.owners),\n            Action::Lock { lock } => {\n                // ",
      "            Action::Unlock { lock: freed } => {\n                unlock(freed, thread, &mut next.owners);\n                for other in 0..program.threads.len() {\n                    let waiting = matches!(state.statement(program, other).action, Action::Lock { lock } if lock == freed);\n"
      "                    if next.owners[freed].is_none() && waiting && other != thread && state.threads[other].clock.high > 0 {\n                        next.owners[freed] = Some(other as u8);\n                        next.threads[other].statement += 1;\n                        next.threads[other].clock = Window { low: from, high: bound };\n                    }\n                }\n            }\n            Action::Lock { lock } => {\n                // "))
slip("no event while waiting", "a thread that waits has no event",
     ("        if from > bound {\n", "        if from > bound || waits(&statement.action, thread, &state.owners) {\n"))
slip("failed try keeps the clock", "a try that fails leaves the clock's low", ("                    own.statement -= 1;\n                }\n            }\n            Action::Skip", "                    own.statement -= 1;\n                    own.clock.low = state.threads[thread].clock.low;\n                }\n            }\n            Action::Skip"))
slip("halt frees locks", "a lock owned by a halted thread is free",
     ("        let Some(state) = stack.pop() else { break };", "        let Some(mut state) = stack.pop() else { break };\n        for lock in 0..MAX_LOCKS {\n            if state.owners[lock].is_some_and(|owner| !state.live(program, usize::from(owner))) {\n                state.owners[lock] = None;\n            }\n        }"))

# ---- the turn

slip("bound of threads that do not wait", "M leaves out the threads that wait",
     ("            .filter(|&thread| self.live(program, thread))\n            .map(|thread| self.threads[thread].clock.high + self.statement(program, thread).greatest)\n            .min()",
      "            .filter(|&thread| self.live(program, thread))\n            .map(|thread| (waits(&self.statement(program, thread).action, thread, &self.owners), self.threads[thread].clock.high + self.statement(program, thread).greatest))\n            .min()\n            .map(|(_, bound)| bound)"))
slip("bound of all threads", "M goes over the halted threads too",
     ("    fn bound(&self, program: &Program) -> Option<u64> {\n", "    fn bound(&self, program: &Program) -> Option<u64> {\n        if (0..program.threads.len()).all(|thread| !self.live(program, thread)) {\n            return None;\n        }\n"),
     ("            .filter(|&thread| self.live(program, thread))\n            .map(|thread| self.threads[thread].clock.high", "            .map(|thread| self.threads[thread].clock.high"))
slip("bound from the lows", "M takes clock lows", (".map(|thread| self.threads[thread].clock.high + self", ".map(|thread| self.threads[thread].clock.low + self"))
slip("bound of least times", "M takes least times", ("self.statement(program, thread).greatest)\n            .min()", "self.statement(program, thread).least)\n            .min()"))
slip("bound is the greatest", "M is the greatest over live threads", ("self.statement(program, thread).greatest)\n            .min()", "self.statement(program, thread).greatest)\n            .max()"))
slip("own end", "an event ends by the thread's own greatest time, not by M",
     ("        if from > bound {\n            continue;\n        }\n", "        if from > bound {\n            continue;\n        }\n        let bound = state.threads[thread].clock.high + statement.greatest;\n"))
LATEST = "    let latest_low = state.window(program).low;\n"
slip("lows of live threads", "the latest low goes over live threads only",
     (LATEST, "    let live = (0..program.threads.len()).filter(|&thread| state.live(program, thread));\n    let latest_low = live.map(|thread| state.threads[thread].clock.low).max().unwrap_or(0);\n"))
slip("lows not looked at", "an event may come before another thread's clock low", (LATEST, "    let latest_low = 0;\n"))
slip("latest high", "an event comes after every clock high", (LATEST, "    let latest_low = state.window(program).high;\n"))
slip("own low only with least", "an event comes from the latest low plus least time", ("latest_low.max(state.threads[thread].clock.low + statement.least)", "latest_low + statement.least"))
slip("from the high", "an event comes from the thread's clock high plus least time", ("latest_low.max(state.threads[thread].clock.low + statement.least)", "latest_low.max(state.threads[thread].clock.high + statement.least)"))
slip("single tick passed over", "an event of a single tick is passed over", ("        if from > bound {\n", "        if from >= bound {\n"))
slip("thread not passed over", "an event may begin after M", ("        if from > bound {\n            continue;\n        }\n", ""))
slip("passed over worked out", "a thread that is passed over has its arithmetic worked out",
     ("        if from > bound {\n            continue;",
      "        if from > bound {\n            let registers = &state.threads[thread].registers;\n            let reads = match &statement.action {\n                Action::Assign { value, .. } => interval_of(value, registers).map(drop),\n                Action::If { condition, .. } => reading(condition, registers),\n                _ => Ok(()),\n            };\n            if let Err(number) = reads {\n                return refuse(number, statement.place);\n            }\n            continue;"))
FAULT_LOOP = "        if let Err(Refusal { number, place }) = push_successors(program, &state, bound, &mut stack) {\n"
PUSH = "fn push_successors(program: &Program, state: &State, bound: u64, stack: &mut Vec<State>) -> Result<(), Refusal> {\n"
# the fault of one thread, if it has an event and a fault
FAULTS_OF_THREADS = (PUSH, PUSH.replace("push_successors", "faults_of").replace("stack: &mut Vec<State>) -> Result<(), Refusal>", "only: usize) -> Result<(), Refusal>")
                     + "    let latest_low = state.window(program).low;\n    let statement = state.statement(program, only);\n    let own = &state.threads[only];\n"
                     "    if latest_low.max(own.clock.low + statement.least) > bound {\n        return Ok(());\n    }\n    let at_fault = |number| Refusal { number, place: statement.place };\n"
                     "    match &statement.action {\n        Action::Assign { value, .. } => interval_of(value, &own.registers).map(drop).map_err(at_fault),\n"
                     "        Action::If { condition, .. } => reading(condition, &own.registers).map_err(at_fault),\n        _ => Ok(()),\n    }\n}\n\n" + PUSH)
for word, what, choice in (
        ("last thread's fault", "the last thread with a fault decides", ".last()"),
        ("10 before 16 between threads", "a thread's 10 is given before an earlier thread's 16", ".min_by_key(|fault| fault.number)"),
        ("16 before 10 between threads", "a thread's 16 is given before an earlier thread's 10", ".min_by_key(|fault| std::cmp::Reverse(fault.number))")):
    slip(word, what, FAULTS_OF_THREADS,
         (FAULT_LOOP, f"        let chosen = (0..program.threads.len()).filter_map(|thread| faults_of(program, &state, bound, thread).err()){choice};\n"
          "        if let Some(Refusal { number, place }) = chosen {\n            return refused(number, place, steps);\n        }\n" + FAULT_LOOP))
slip("place of the first thread", "a fault's place is the first thread's statement",
     ("        let at_fault = |number| Refusal { number, place: statement.place };\n", "        let at_fault = |number| Refusal { number, place: state.statement(program, 0).place };\n"))
slip("place of the next statement", "a fault's place is where the next statement stands",
     ("        let at_fault = |number| Refusal { number, place: statement.place };\n", "        let at_fault = |number| Refusal { number, place: program.threads[thread].statements[state.threads[thread].statement + 1].place };\n"))
slip("threads in reverse", "the highest thread number comes first", ("    for thread in 0..program.threads.len() {\n        let statement = state.statement(program, thread);", "    for thread in (0..program.threads.len()).rev() {\n        let statement = state.statement(program, thread);"))
slip("earliest thread only", "only the thread with the earliest low goes next",
     ("        if from > bound {\n            continue;",
      "        let earliest = (0..program.threads.len()).filter(|&other| state.live(program, other)).map(|other| state.threads[other].clock.low + state.statement(program, other).least).min();\n"
      "        if from > bound || earliest.is_some_and(|earliest| earliest < state.threads[thread].clock.low + statement.least) {\n            continue;"))
slip("all clocks move", "an event raises the other live threads' clock lows too",
     ("        let Some(state) = stack.pop() else { break };",
      "        let Some(mut state) = stack.pop() else { break };\n        let latest = state.window(program).low;\n        for thread in 0..program.threads.len() {\n            if state.live(program, thread) {\n                state.threads[thread].clock.low = latest.min(state.threads[thread].clock.high);\n            }\n        }"))

# ---- the search

slip("last made uppermost", "the last state made is uppermost", ("        stack[held..].reverse();\n", ""))
slip("new states underneath", "new states go under those held", ("        stack[held..].reverse();\n", "        stack[held..].reverse();\n        stack.rotate_left(held);\n"))
slip("12 before 11", "past the limit is tried before stuck",
     ("        if state.stuck(program) {\n            return refused(STUCK, 0, steps);\n        }\n        if bound > program.limit {\n            return refused(PAST_THE_LIMIT, 0, steps);\n        }\n",
      "        if bound > program.limit {\n            return refused(PAST_THE_LIMIT, 0, steps);\n        }\n        if state.stuck(program) {\n            return refused(STUCK, 0, steps);\n        }\n"))
FAULT = "            return refused(number, place, steps);\n"
LIMIT = "        if bound > program.limit {\n"
BUDGET = "        if steps == program.budget {\n"
WHAT = {10: "a divisor that may be 0", 16: "a result off the 32-bit values"}
for number, what in WHAT.items():
    given = f"Err(Refusal {{ number: number @ {number}, place }})"
    slip(f"14 before {number}", f"out of room is given before {what}",
         (FAULT, f"            if number == {number} && stack.len() > slots {{\n                return refused(OUT_OF_ROOM, 0, steps);\n            }}\n" + FAULT))
    slip(f"{number} before 12", f"{what} is given before past the limit",
         (LIMIT, f"        if let (true, {given}) = (bound > program.limit, push_successors(program, &state, bound, &mut Vec::new())) {{\n" + FAULT + "        }\n" + LIMIT))
    slip(f"13 after {number}", f"{what} is tried before out of steps",
         (BUDGET, f"        let top = stack[stack.len() - 1];\n        if let (true, Some(bound)) = (steps == program.budget, top.bound(program)) {{\n"
          f"            if bound <= program.limit {{\n                if let {given} = push_successors(program, &top, bound, &mut Vec::new()) {{\n    " + FAULT + "                }\n            }\n        }\n" + BUDGET))
slip("14 before 12", "out of room is given before past the limit",
     ("        if bound > program.limit {\n", "        let mut made = Vec::new();\n        if bound > program.limit && push_successors(program, &state, bound, &mut made).is_ok() && stack.len() + made.len() > slots {\n            return refused(OUT_OF_ROOM, 0, steps);\n        }\n        if bound > program.limit {\n"))
slip("13 after the state", "out of steps is tried after a final state is counted",
     ("        if steps == program.budget {\n            return refused(OUT_OF_STEPS, 0, steps);\n        }\n", ""),
     ("        if state.stuck(program) {\n            return refused(STUCK, 0, steps);", "        if steps > program.budget {\n            return refused(OUT_OF_STEPS, 0, steps - 1);\n        }\n        if state.stuck(program) {\n            return refused(STUCK, 0, steps);"))
slip("13 after 11", "stuck is tried before out of steps",
     ("        if steps == program.budget {\n", "        let top = stack[stack.len() - 1];\n        if steps == program.budget && top.bound(program).is_some() && top.stuck(program) {\n            return refused(STUCK, 0, steps);\n        }\n        if steps == program.budget {\n"))
slip("budget one more", "one step more than the budget is taken", ("        if steps == program.budget {\n", "        if steps > program.budget {\n"))
slip("budget one less", "one step less than the budget is taken", ("        if steps == program.budget {\n", "        if steps + 1 > program.budget || steps + 1 == program.budget && steps > 0 {\n"))
slip("13 with nothing held", "out of steps though no state is held",
     ("    let Window { low, high } = window.expect(", "    if steps == program.budget {\n        return refused(OUT_OF_STEPS, 0, steps);\n    }\n    let Window { low, high } = window.expect("))
slip("taken state held", "the state just taken counts as held", ("        if stack.len() > slots {\n", "        if stack.len() + 1 > slots {\n"))
slip("slots not filled", "14 where held plus new equals the slots", ("        if stack.len() > slots {\n", "        if stack.len() >= slots {\n"))
slip("only new states", "14 counts the new states only", ("        if stack.len() > slots {\n", "        if stack.len() - held > slots {\n"))
slip("only held states", "14 counts the states held before only", ("        if stack.len() > slots {\n", "        if held > slots {\n"))
slip("one slot more", "14 where held plus new exceeds the slots by two", ("        if stack.len() > slots {\n", "        if stack.len() > slots + 1 {\n"))
slip("slots rounded up", "slots are the length divided by 100, rounded up", ("length / STATE_LENGTH)", "(length + STATE_LENGTH - 1) / STATE_LENGTH)"))
slip("state of 99", "a state fills 99 numbers", ("const STATE_LENGTH: usize = 100;", "const STATE_LENGTH: usize = 99;"))
slip("state of 101", "a state fills 101 numbers", ("const STATE_LENGTH: usize = 100;", "const STATE_LENGTH: usize = 101;"))
slip("no slot needed", "0 slots are not refused at the start", ("    if slots == 0 {\n", "    if false {\n"))
slip("14 at the start with a step", "0 slots give steps 1", ("        return refused(OUT_OF_ROOM, 0, 0);", "        return refused(OUT_OF_ROOM, 0, 1);"))
slip("room before reading", "0 slots are refused before the sheet is read", ("    match read_program(sheet) {\n        Ok(program) => search",
      "    if length < STATE_LENGTH {\n        return Answer { refusal: OUT_OF_ROOM, place: 0, steps: 0, low: 0, high: 0 };\n    }\n    match read_program(sheet) {\n        Ok(program) => search"))
slip("limit reached", "12 where M equals the limit", ("        if bound > program.limit {\n", "        if bound >= program.limit {\n"))
slip("limit one more", "12 where M is above the limit by two", ("        if bound > program.limit {\n", "        if bound > program.limit + 1 {\n"))
slip("limit against the lows", "12 where the latest clock low is above the limit", ("        if bound > program.limit {\n", "        if state.window(program).low > program.limit {\n"))
slip("stuck with a halted thread", "11 is not given where some thread has halted",
     ("            .filter(|&thread| self.live(program, thread))\n            .all(|thread| waits(&self.statement(program, thread).action, thread, &self.owners))\n    }\n\n    /// The greatest clock low",
      "            .all(|thread| waits(&self.statement(program, thread).action, thread, &self.owners))\n    }\n\n    /// The greatest clock low"))
slip("stuck if one waits", "11 where some live thread waits",
     ("            .all(|thread| waits(&self.statement(program, thread).action, thread, &self.owners))\n    }\n\n    /// The greatest clock low",
      "            .any(|thread| waits(&self.statement(program, thread).action, thread, &self.owners))\n    }\n\n    /// The greatest clock low"))
slip("never stuck", "11 is never given", ("        if state.stuck(program) {\n            return refused(STUCK, 0, steps);", "        if false {\n            return refused(STUCK, 0, steps);"))
slip("refused state not counted", "11 does not count the refused state", ("return refused(STUCK, 0, steps);", "return refused(STUCK, 0, steps - 1);"))
for number in WHAT:
    slip(f"{number} without a place", f"{number}'s place is 0", (FAULT, FAULT.replace("place", f"if number == {number} {{ 0 }} else {{ place }}")))
    slip(f"{number} not counted", f"{number} does not count the refused state", (FAULT, FAULT.replace("steps", f"if number == {number} {{ steps - 1 }} else {{ steps }}")))
slip("16 with the window so far", "16 gives the window found before it",
     (FAULT, "            let found = window.filter(|_| number == OFF_THE_SCALE).unwrap_or(Window { low: 0, high: 0 });\n            return Answer { low: found.low, high: found.high, ..refused(number, place, steps) };\n"))
slip("low of the earliest thread", "a final state's low is the least clock low",
     ("            let found = state.window(program);", "            let mut found = state.window(program);\n            found.low = state.threads[..program.threads.len()].iter().map(|thread| thread.clock.low).min().unwrap_or(0);"))
slip("high of the earliest thread", "a final state's high is the least clock high",
     ("            let found = state.window(program);", "            let mut found = state.window(program);\n            found.high = state.threads[..program.threads.len()].iter().map(|thread| thread.clock.high).min().unwrap_or(0);"))
slip("window's low not widened", "the window keeps its first low", ("low: window.low.min(found.low),", "low: window.low,"))
slip("window's high not widened", "the window keeps its first high", ("high: window.high.max(found.high),\n            }));", "high: window.high,\n            }));"))
slip("window's low raised", "the window's low is the greatest low found", ("low: window.low.min(found.low),", "low: window.low.max(found.low),"))
slip("window from 0", "the window starts as 0..0", ("let mut window: Option<Window> = None;", "let mut window: Option<Window> = Some(Window { low: 0, high: 0 });"))
slip("label's low not reached", "the window's low must be above the label's", ("program.label_low <= low", "program.label_low < low"))
slip("label's high not reached", "the window's high must be below the label's", ("high <= program.label_high", "high < program.label_high"))
slip("label's low not looked at", "only the label's high is looked at", ("program.label_low <= low && high", "high"))
slip("label's high not looked at", "only the label's low is looked at", ("program.label_low <= low && high <= program.label_high", "program.label_low <= low"))
slip("label met", "the window need only meet the label", ("program.label_low <= low && high <= program.label_high", "program.label_low <= high && low <= program.label_high"))
slip("15 without the window", "15 gives no window", ("place: 0, steps, low, high }\n", "place: 0, steps, low: if kept { low } else { 0 }, high: if kept { high } else { 0 } }\n"))


# ---- the same rules in other words

same("ends held, not corners", "the least and the greatest leave the 32-bit values where one of the four does",
     (CORNERS, WIDE + "            let (Ok(low), Ok(high)) = (i32::try_from(low), i32::try_from(high)) else { return Err(OFF_THE_SCALE) };\n"), *NO_ENDS)
same("16-bit factors multiplied in 32 bits", "a product of two values within -32,768..32,767 fits 32 bits",
     wrapping_products(f"ends.iter().all(|&end| {SIXTEEN_BITS})"))
same("factors to 46,340 multiplied in 32 bits", "the square of 46,340 is the greatest that fits 32 bits",
     wrapping_products("ends.iter().all(|&end| (-46_340..=46_340).contains(&end))"))
same("rounding by the remainder", "a remainder has the dividend's sign: where it is not the divisor's, the fraction lies below zero",
     (f"{INEXACT} && {SIGNS_DIFFER}", "dividend % divisor * divisor < 0"))
same("10 and 16 before 11", "where every live thread waits for a lock, none has arithmetic to work out",
     ("        if state.stuck(program) {\n            return refused(STUCK, 0, steps);",
      "        if let (true, Err(Refusal { number, place })) = (state.stuck(program), push_successors(program, &state, bound, &mut Vec::new())) {\n" + FAULT + "        }\n"
      "        if state.stuck(program) {\n            return refused(STUCK, 0, steps);"))
same("a divisor of 0 alone", "a divisor of 0..0 has no quotient at its ends, which is 10 as well",
     ("right.low <= 0 && 0 <= right.high {", "(right.low < 0 && 0 <= right.high || right.low <= 0 && 0 < right.high) {"))
same("a lowered register is not empty", "the tests before it leave a value wherever a high is lowered",
     ("        register.high = register.high.min(bound);\n        return register.low <= register.high;", "        register.high = register.high.min(bound);"))
same("less worked out again", "lowering the left's high leaves its low, the only end that the right's rule takes",
     (" && raise(right, a.low + 1, registers)", " && {\n                    let (a, _) = both(left, right, registers);\n                    raise(right, a.low + 1, registers)\n                }"))
same("a sure branch keeps", "where one state of an if is empty, nothing is taken from the registers of the other",
     ("                if !narrow(condition, yes, &mut own.registers) {",
      "                let sure = !narrow(condition, !yes, &mut own.registers.clone());\n                if !sure && !narrow(condition, yes, &mut own.registers) {"))
same("fifth thread before its tag", "where four threads have closed, only tag 4 or the end can follow",
     ("        if reader.tag()? != 4 {\n            return refuse(OUT_OF_TURN, place);\n        }\n        if threads.len() == MAX_THREADS {\n            return refuse(TOO_MANY, place);\n        }\n",
      "        let tag = reader.tag()?;\n        if threads.len() == MAX_THREADS {\n            return refuse(TOO_MANY, place);\n        }\n        if tag != 4 {\n            return refuse(OUT_OF_TURN, place);\n        }\n"))
same("variable before register", "a store's absent register and variable are both 5 at the same place",
     ("Action::Store { register: name(5, names.registers)?, variable: name(6, names.variables)? }",
      "Action::Store { variable: name(6, names.variables)?, register: name(5, names.registers)? }"))


# ---- what the entries come to

reach("both sides of an and may fail", ("            if left_may_fail && right_may_fail {\n", "            if left_may_fail && right_may_fail {\n                panic!();\n"))
reach("both sides of an and may fail, with other registers",
      ("            if left_may_fail && right_may_fail {\n", "            if left_may_fail && right_may_fail {\n                assert!(other == *registers);\n"))
reach("both sides of an and may fail, and the join is not what was there before",
      ("            let mut other = *registers;\n            let left_may_fail", "            let before = *registers;\n            let mut other = *registers;\n            let left_may_fail"),
      ("            } else if left_may_fail {\n                *registers = other;\n            }\n",
       "                assert!(before == *registers);\n            } else if left_may_fail {\n                *registers = other;\n            }\n"))
reach("one side of an and that fails is empty",
      ("            left_may_fail || right_may_fail\n", "            assert!(left_may_fail == right_may_fail);\n            left_may_fail || right_may_fail\n"))
reach("the right of an and is empty after its left, not by itself",
      ("if yes => narrow(left, true, registers) && narrow(right, true, registers),",
       "if yes => {\n            let alone = narrow(right, true, &mut registers.clone());\n            let left = narrow(left, true, registers);\n            let right = left && narrow(right, true, registers);\n"
       "            assert!(!alone || !left || right);\n            right\n        }"))
reach("a register is narrowed to nothing",
      ("        register.low = register.low.max(bound);\n", "        register.low = register.low.max(bound);\n        assert!(register.low <= register.high);\n"))

DIFFERENT = "matches!(({}, {}), (Err(a), Err(b)) if a != b)"
reach("both operands of an operator have a fault, not the same",
      (LEFT + RIGHT, "            assert!(!" + DIFFERENT.format("interval_of(left, registers)", "interval_of(right, registers)") + ");\n" + LEFT + RIGHT))
reach("both sides of a comparison have a fault, not the same",
      (BOTH_SIDES, "            assert!(!" + DIFFERENT.format("interval_of(left, registers)", "interval_of(right, registers)") + ");\n" + BOTH_SIDES))
reach("both parts of an and have a fault, not the same",
      (BOTH_PARTS, "            assert!(!" + DIFFERENT.format("reading(left, registers)", "reading(right, registers)") + ");\n" + BOTH_PARTS))
reach("a divide whose divisor may be 0 and whose left operand is off the scale",
      (LEFT + RIGHT, "            if *operator == Operator::Divide && interval_of(left, registers) == Err(OFF_THE_SCALE) {\n"
       "                assert!(!matches!(interval_of(right, registers), Ok(right) if right.low <= 0 && 0 <= right.high));\n            }\n" + LEFT + RIGHT))
reach("a divide of the lowest value by an interval that holds -1 and 0",
      (ZERO, "            assert!(!(*operator == Operator::Divide && left.low == i32::MIN && right.low <= -1 && 0 <= right.high));\n" + ZERO))
ENDS_WITHIN = "[left.low, left.high, right.low, right.high].iter().filter(|&&end| " + SIXTEEN_BITS + ").count()"
reach("a product of factors whose four ends lie within -32,768..32,767",
      (CORNERS, f"            assert!(*operator != Operator::Times || {ENDS_WITHIN} < 4);\n" + CORNERS))
reach("a product of factors of which some ends lie within these bounds and some do not",
      (CORNERS, f"            assert!(*operator != Operator::Times || [0, 4].contains(&{ENDS_WITHIN}));\n" + CORNERS))
reach("two threads with different faults in one turn", FAULTS_OF_THREADS,
      (FAULT_LOOP, "        let faults: Vec<u8> = (0..program.threads.len()).filter_map(|thread| faults_of(program, &state, bound, thread).err()).map(|fault| fault.number).collect();\n"
       "        assert!(faults.iter().all(|fault| *fault == faults[0]));\n" + FAULT_LOOP))


def main(arguments):
    only = ""
    if arguments[:1] == ["--only"]:
        only, arguments = arguments[1], arguments[2:]
    if len(arguments) != 1:
        sys.exit("usage: slips.py [--only WORD] CORPUS")
    with tempfile.TemporaryDirectory() as folder:
        told, well = ORACLE.try_all(arguments[0], folder, only)
        print("| what the search comes to | entries |\n|---|---|")
        missing = 0
        for name, edits in REACHED:
            if only in name:
                found = ORACLE.answered(edited(ORACLE.text, name, edits), arguments[0], folder)
                missing += found == (0, 0)
                print(f"| {name} | {found[1]} |", flush=True)
        print()
    print(f"{told}; {missing} of the last table without an entry")
    sys.exit(not well or missing > 0)


if __name__ == "__main__":
    main(sys.argv[1:])
