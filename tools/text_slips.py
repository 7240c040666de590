#!/usr/bin/env python3
"""Shows that the corpus of texts notices slips: rules of the conversion, and of what it refuses, changed one at a time.

    text_slips.py [--only WORD] CORPUS

Works as slips.py does, on tools/text_words.rs, text_expression.rs, text_lines.rs and text_answer.rs. A second table has the
changes that only say a rule in other words. Exit status 0 if every slip is noticed and no change of words is.
"""

import sys

sys.dont_write_bytecode = True

import text_text as t
from slip_edits import first, other
from slips import Program

TEXTS = Program("texts", "--edition", "2021", edited=("text_words", "text_expression", "text_lines", "text_answer"))

slip, same = TEXTS.slip, TEXTS.same

# 4 at the first line with a number too big
BIG_LINE = "    if let Some(line) = lines.iter().find(|line| line.too_big) {\n        return Err((OFF_RANGE, line.start));\n    }\n"
# the number is kept, cut to the bytes that its field has
CUT = (t.TOO_BIG, "        number\n")

# whether a byte stands behind the next one
FOLLOWS = first("    fn byte(&self) -> Option<u8> {\n", "    pub fn follows(&self, byte: u8) -> bool {\n        self.bytes.get(self.place + 1) == Some(&byte)\n    }\n\n")

# how often a byte stands in the line so far
IN_LINE = first("    fn byte(&self) -> Option<u8> {\n", "    pub fn in_line(&self, byte: u8) -> usize {\n        let line = self.bytes[..self.place].rsplit(|&byte| byte == NEWLINE).next().unwrap_or(&[]);\n        line.iter().filter(|&&other| other == byte).count()\n    }\n\n")

# ---- spaces and words

slip("no space needed", "letters and digits of two words may meet", (t.MEET, ""))
slip("digits meet only", "a space is needed only where two digits would meet", other(t.OF_WORDS, ("alphanumeric", "digit")))
slip("letters meet only", "a space is needed only where two letters would meet", other(t.OF_WORDS, ("alphanumeric", "alphabetic")))
slip("space before every word", "a space is needed before every word of letters or digits",
     other(t.MEET, ("of_words(before)", "before.is_some_and(|byte| byte != SPACE && byte != NEWLINE)")))
slip("space before every sign", "a space is needed before signs too", other(t.MEET, ("of_words(next) && of_words(before)", "of_words(before) && next != Some(NEWLINE)")))
slip("meeting words stop earlier", "where words meet, the place is the last byte of the first", other(t.MEET, ("return self.stop()", "self.place -= 1;\n            return self.stop()")))
slip("meeting words stop later", "where words meet, the place is the second byte of the second", other(t.MEET, ("return self.stop()", "self.place += 1;\n            return self.stop()")))
slip("tabs are spaces", "a tab is a space", other(t.SPACES, ("self.byte() == Some(SPACE)", "matches!(self.byte(), Some(SPACE | b'\\t'))")))
slip("carriage returns are spaces", "a carriage return is a space", other(t.SPACES, ("self.byte() == Some(SPACE)", "matches!(self.byte(), Some(SPACE | b'\\r'))")))
slip("zeros are spaces", "a byte 0 is a space", other(t.SPACES, ("self.byte() == Some(SPACE)", "matches!(self.byte(), Some(SPACE | 0))")))
slip("no-break spaces", "byte 160 is a space", other(t.SPACES, ("self.byte() == Some(SPACE)", "matches!(self.byte(), Some(SPACE | 160))")))
slip("seven bits", "the highest bit of a byte is not looked at", ("        self.bytes.get(self.place).copied()\n", "        self.bytes.get(self.place).map(|byte| byte & 127)\n"))
slip("one space only", "two spaces in a row are unreadable", other(t.SPACES, ("while", "if")))
slip("no spaces before the newline", "spaces at a line's end are unreadable", ("    pub fn end_of_line(&mut self) -> Read<bool> {\n        match self.peek() {\n", "    pub fn end_of_line(&mut self) -> Read<bool> {\n        match self.byte() {\n"))
slip("capitals", "capitals are read as small letters", other(t.LONGER, ("concat()", "concat().to_ascii_lowercase()")), other(t.FOUND, ("word.as_bytes() == so_far", "word.as_bytes() == so_far.to_ascii_lowercase()")))
slip("words cut short", "three letters of a word or more suffice",
     other(t.FOUND, ("word.as_bytes() == so_far", "word.as_bytes() == so_far || so_far.len() > 2 && word.as_bytes().starts_with(so_far) && !self.byte().is_some_and(|byte| byte.is_ascii_lowercase())")))
slip("words at their start", "an unknown word stops where it begins", other(t.OTHER, ("return", "self.place = start;\n                return")))
slip("words at the text's end", "a word that the text's end cuts off stops where it begins", ("            let Some(next) = self.byte() else { return self.stop() };\n", "            let Some(next) = self.byte() else {\n                self.place = start;\n                return self.stop();\n            };\n"))
slip("a byte late", "the place of a 20 is one byte late", other(t.STOP, ("self.place", "self.place + 1")))
slip("a byte late in the text", "the same, but not at the text's end", other(t.STOP, ("self.place", "(self.place + 1).min(self.bytes.len())")))
slip("a byte early", "the place of a 20 is one byte early", other(t.STOP, ("self.place", "self.place.saturating_sub(1)")))
slip("behind the spaces only", "a 20 stands where the spaces before it begin",
     other(t.STOP, ("self.place", "self.bytes[..self.place].iter().rposition(|&byte| byte != SPACE).map_or(0, |at| at + 1)")))
slip("column", "the place of a 20 is counted in its line", other(t.STOP, ("self.place", "self.place - self.bytes[..self.place].iter().rposition(|&byte| byte == NEWLINE).map_or(0, |at| at + 1)")))
slip("line", "the place of a 20 is the start of its line", other(t.STOP, ("self.place", "self.bytes[..self.place].iter().rposition(|&byte| byte == NEWLINE).map_or(0, |at| at + 1)")))
slip("place of two bytes", "places are cut to 16 bits", other(t.STOP, ("self.place", "self.place & 0xFFFF")))
slip("text's end at its last byte", "the text's end is 20 at the last byte", other(t.STOP, ("self.place", "self.place.min(self.bytes.len().saturating_sub(1))")))
slip("names in two words", "a space may stand in a name, r 0", other(t.NAME, ("self.rest_of_name()", "self.peek();\n        self.rest_of_name()")))

# ---- numbers

slip("no leading zeros", "a number may not begin with a zero", other(t.NO_DIGIT, ("self.place == start", "self.place == start || self.place > start + 1 && self.bytes[start] == b'0'")))
slip("ten digits", "numbers of more than ten digits are unreadable", other(t.NO_DIGIT, ("self.place == start", "self.place == start || self.place > start + 10")))
slip("zeros count as digits", "a number of more than ten digits is too big, zeros included", other(t.NO_DIGIT, ("Ok(i128::from(number))", "Ok(i128::from(if self.place > start + 10 { u64::MAX } else { number }))")))
slip("no digits", "a number may have no digits", other(t.NO_DIGIT, ("if self.place == start {\n            return self.stop();\n        }\n        ", "")))
slip("numbers cut to 32 bits", "a number is cut to 32 bits", other(t.DIGIT, ("number.saturating_mul(10).saturating_add(u64::from(digit - b'0'))", "(number * 10 + u64::from(digit - b'0')) & 0xFFFF_FFFF")))
slip("numbers cut to 64 bits", "a number is cut to 64 bits", other(t.DIGIT, ("saturating_mul(10).saturating_add", "wrapping_mul(10).wrapping_add")))
slip("nineteen digits", "the digits behind the nineteenth are dropped", other(t.DIGIT, ("number = ", "number = if self.place - start > 18 { number } else { "), (");\n", ") };\n")))
slip("numbers cut to their fields", "a number too big for its field is cut", CUT)
slip("names cut", "a number too big for one byte is cut", other(t.MOST, ("(1 << (8 * BYTES)) - 1", "if BYTES == 1 { i128::MAX } else { (1 << (8 * BYTES)) - 1 }")))
slip("times cut", "a number too big for two bytes is cut", other(t.MOST, ("(1 << (8 * BYTES)) - 1", "if BYTES == 2 { i128::MAX } else { (1 << (8 * BYTES)) - 1 }")))
slip("limits cut", "a number too big for four bytes without a sign is cut", other(t.MOST, ("(1 << (8 * BYTES)) - 1", "if BYTES == 4 { i128::MAX } else { (1 << (8 * BYTES)) - 1 }")))
slip("values cut", "a value too big is cut", other(t.SIGNED, ("i32::MIN.into(), i32::MAX.into()", "i128::MIN, i128::MAX")))
slip("values unsigned", "values go up to 2^32 - 1", other(t.SIGNED, ("i32::MAX.into()", "u32::MAX.into()")))
slip("lowest value too big", "-2147483648 is too big", other(t.SIGNED, ("i32::MIN.into()", "(i32::MIN + 1).into()")))
slip("values from -2147483649", "-2147483649 is not too big", other(t.SIGNED, ("i32::MIN.into()", "i128::from(i32::MIN) - 1")))
slip("greatest too big", "the greatest number that a field holds is too big", other(t.MOST, ("(1 << (8 * BYTES)) - 1", "(1 << (8 * BYTES)) - 2")))
slip("one too many", "a number one too big for its field is not", other(t.MOST, ("(1 << (8 * BYTES)) - 1", "1 << (8 * BYTES)")))
slip("too big is the greatest", "the greatest that a field holds stands for a number too big", (t.TOO_BIG, "        most\n"))
slip("too big is unreadable", "a number too big is 20", other(t.LINE_TOO_BIG, ("Ok(std::mem::take(&mut self.too_big))", "if self.too_big { self.stop() } else { Ok(false) }")))
slip("minus dropped", "a minus is read and forgotten", other(t.NEGATED, ("-number", "number")))
slip("minus close to its digits", "no space may stand behind a constant's minus", other(t.MINUS, ("self.place += 1;\n        }\n        self.begin()?;", "self.place += 1;\n        } else {\n            self.begin()?;\n        }")))
slip("minus everywhere", "a minus is read in every number, and forgotten", other(t.NUMBER, ("self.begin()?;", "self.begin()?;\n        if self.byte() == Some(b'-') {\n            self.place += 1;\n        }")))
slip("plus", "a plus is read as a minus is", other(t.MINUS, ("if minus {", "if minus || self.byte() == Some(b'+') {")))
slip("two minuses", "a second minus behind a minus is read", other(t.MINUS, ("if minus {\n            self.place += 1;\n        }", "while self.peek() == Some(b'-') {\n            self.place += 1;\n        }")))

# ---- expressions

slip("sums and products alike", "multiply and divide bind as plus and minus do",
     other(t.SUM_SIGNS, ("(b'+' | b'-')", "(b'+' | b'-' | b'*' | b'/')"), ("[\"+\", \"-\"]", "[\"+\", \"-\", \"*\", \"/\"]")), (t.SUM, "        let mut chain = Chain::of(first);\n"),
     (t.SUM_JOIN, "            chain.join([PLUS, MINUS, TIMES, DIVIDE][b\"+-*/\".iter().position(|&other| other == sign).unwrap()], operand);\n"))
slip("sums before products", "plus and minus bind before multiply and divide", other(t.SUM + t.SUM_SIGNS, ("b'+' | b'-'", "b'*' | b'/'"), ('"+", "-"', '"*", "/"')),
     other(t.SUM_JOIN, ("sign == b'+' { PLUS } else { MINUS }", "sign == b'*' { TIMES } else { DIVIDE }")),
     other(t.PRODUCT_SIGNS, ("b'*' | b'/'", "b'+' | b'-'"), ('"*", "/"', '"+", "-"')),
     other(t.PRODUCT_JOIN, ("sign == b'*' { TIMES } else { DIVIDE }", "sign == b'+' { PLUS } else { MINUS }")))
slip("sums from the right", "plus and minus are joined from the right", (t.SUM, "        let (mut chain, mut last) = (Chain::of(Vec::new()), self.product(first, open)?);\n"),
     (t.SUM_JOIN + t.SUM_END, "            chain.operands.push(if sign == b'+' { PLUS } else { MINUS });\n            let operand = self.product(operand, open)?;\n"
      "            chain.operands.extend(std::mem::replace(&mut last, operand));\n        }\n        Ok([chain.operands, last].concat())\n"))
slip("products from the right", "multiply and divide are joined from the right",
     (t.PRODUCT_JOIN, "            let operand = self.operand(open)?;\n            return Ok([vec![if sign == b'*' { TIMES } else { DIVIDE }], chain.bytes(), self.product(operand, open)?].concat());\n"))
slip("ands from the right", "&& is joined from the right", (t.AND_JOIN, "            let next = self.negation(open)?;\n            return Ok([vec![AND], chain.bytes(), self.conjunction(next, open)?].concat());\n"))
slip("operators in order", "the first operator of a chain stands first", other(t.REVERSED, ("        self.codes.reverse();\n", "")))
slip("plus and minus exchanged", "18 stands for minus, 19 for plus", other(t.SUM_JOIN, ("PLUS } else { MINUS", "MINUS } else { PLUS")))
slip("times and divide exchanged", "20 stands for divide, 21 for times", other(t.PRODUCT_JOIN, ("TIMES } else { DIVIDE", "DIVIDE } else { TIMES")))
slip("true and false exchanged", "32 stands for false, 33 for true", other(t.TRUTH, ("TRUE, FALSE", "FALSE, TRUE")))
slip("equal and less exchanged", "36 stands for <, 37 for ==", other(t.COMPARED, ("EQUAL, LESS", "LESS, EQUAL")))
slip("sides exchanged", "the right side of a comparison stands first", (t.SIDES, "        let right = self.arithmetic(open)?;\n        Ok([vec![code], right, left].concat())\n"))
slip("a single =", "= is read for equal", other(t.COMPARED, ("&[\"==\", \"<\"]", "&[\"=\", \"<\"]")))
slip("a single &", "& is read for and", other(t.ANDS, ("\"&&\"", "\"&\"")))
slip("one ! only", "a ! may not follow a !", other(t.NOTS, ("while", "if")))
slip("! dropped twice", "two ! are read as none", other(t.TAKEN, ("bytes.extend(taken)", "if bytes.len() == 2 {\n            bytes.clear();\n        }\n        bytes.extend(taken)")))
slip("! takes what follows", "! takes all of an and", (t.TAKEN, "        if !bytes.is_empty() {\n            bytes.extend(self.conjunction(taken, open)?);\n            return Ok(bytes);\n        }\n" + t.TAKEN))
slip("! without comparisons", "! takes no comparison without a parenthesis", other(t.TRUTH, ("            Some(b't'", "            Some(byte) if !bytes.is_empty() && !b\"tf(\".contains(&byte) => return self.stop(),\n            Some(b't'")))
slip("no conditions in parentheses", "a parenthesis holds arithmetic only", other(t.EITHER, ("self.parenthesis(open, Text::either)", "self.operand(open).map(Arithmetic)")))
slip("conditions in parentheses only", "a parenthesis where a condition is due holds one", other(t.EITHER, ("Text::either)", "Text::condition).map(Condition)")))
slip("no and in parentheses", "a parenthesis holds no &&", other(t.IN_CONJUNCTION, ("self.conjunction(first, open).map(Condition)", "Ok(Condition(first))")))
slip("no ! in parentheses", "a parenthesis does not begin with !, true or false", (t.IN_CONDITION, ""))
slip("parenthesis decides too soon", "a parenthesis that begins with an operand holds a comparison", (t.IN_ARITHMETIC, ""))
slip("parenthesis of a sum unfollowed", "behind a parenthesis of arithmetic in a condition == or < comes at once", ("                    let left = self.sum(first, open)?;\n                    self.comparison(left, open)?\n", "                    self.comparison(first, open)?\n"))
for deepest in (31, 33):
    slip(f"{deepest} deep", f"parentheses may stand {deepest} deep", other(t.DEEPEST, ("32", str(deepest))))
slip("twelve deep", "parentheses may stand 12 deep, as expressions do", other(t.DEEPEST, ("32", "12")))
slip("parentheses of any depth", "parentheses may stand as deep as they like", other(t.TOO_DEEP, ("open == DEEPEST", "open > 1000")))
slip("depth behind the (", "a parenthesis 33 deep is 20 behind its (", (t.TOO_DEEP, "        self.word(\"(\")?;\n        if open == DEEPEST {\n            return self.stop();\n        }\n"))
slip("depth of each kind", "parentheses round arithmetic and round conditions are counted apart", other(t.SIDES, ("self.arithmetic(open)", "self.arithmetic(0)")))
slip("parentheses counted in all", "a 33rd parenthesis in a line is 20, however deep", other(t.TOO_DEEP, ("open == DEEPEST", "self.in_line(b'(') == DEEPEST")), IN_LINE)
slip("registers with a minus", "a minus before a register is read, and forgotten", first(t.REGISTER, "            Some(b'-') if self.follows(b'r') => self.word(\"-\").and_then(|()| self.operand(open)),\n"), FOLLOWS)
slip("minus before a parenthesis", "a minus before a parenthesis is read, and forgotten", first(t.OPERAND, "            Some(b'-') if self.follows(b'(') => self.word(\"-\").and_then(|()| self.operand(open)),\n"), FOLLOWS)

# ---- lines

slip("unlock and lock exchanged", "6 stands for lock, 7 for unlock", other(t.STATEMENTS, ("\"unlock\", \"lock\"", "\"lock\", \"unlock\"")))
slip("store and load exchanged", "4 stands for load, 5 for store", other(t.STATEMENTS, ("\"store\", \"load\"", "\"load\", \"store\"")))
slip("variable before register", "the variable stands before the register", (t.NAMES, "        Ok([self.name(\"x\")?, register].concat())\n"))
slip("store from", "store has from as load does", other(t.STORE, ("\"to\"", "\"from\"")))
slip("load to", "load has to as store does", other(t.LOAD, ("\"from\"", "\"to\"")))
slip("condition before target", "the condition stands before the target", (t.TARGET, "                [condition, self.number::<1>()?.to_vec()].concat()\n"))
slip("targets from 1", "targets count from 1", (t.TARGET, "                [vec![self.number::<1>()?[0].wrapping_sub(1)], condition].concat()\n"))
slip("ends exchanged", "the high end stands first", (t.LOW_HIGH, "        Ok([end(self)?, low].concat())\n"))
slip("halt of times 1", "halt has times 1 and 1", other(t.HALT, ("[0; 5]", "[0, 1, 0, 1, 0]")))
slip("halt with times", "halt may have times", other(t.STATEMENTS, ("\"lock\"]", "\"lock\", \"halt\"]")), ("const STATEMENTS: [&str; 7]", "const STATEMENTS: [&str; 8]"), other(t.CODE, ("which as u8 + 1", "(which as u8 + 1) & 7")))
slip("skip without times", "skip needs no times", other(t.BEHIND_STATEMENTS, ("\"halt\"]", "\"halt\", \"skip\"]")))
slip("no variables", "no var lines are read", other(t.BEHIND_VARIABLES, ("\"var\", ", "")))
slip("no registers", "no reg lines are read", other(t.BEHIND_REGISTERS, ("\"reg\", ", "")))
slip("registers anywhere", "reg lines may stand behind statements", other(t.BEHIND_STATEMENTS, ("\"halt\"", "\"halt\", \"reg\"")))
slip("variables anywhere", "var lines may stand behind a thread", other(t.BEHIND_REGISTERS, ("\"halt\"", "\"halt\", \"var\"")))
slip("one thread", "a second thread is not read", other(t.BEHIND_STATEMENTS, ("\"thread\", ", "")))
slip("empty threads", "a thread may have no statements where another follows", other(t.BEHIND_REGISTERS, ("\"halt\"", "\"halt\", \"thread\"")))
slip("last thread empty", "a thread may have no statements at the text's end", other(t.UNTIL, ("before != STATEMENT_TAG", "before < THREAD_TAG")))
slip("no thread", "a text may end behind its header", other(t.UNTIL, ("before != STATEMENT_TAG || ", "")))
slip("statements at once", "statements may stand before the first thread", other(t.BEHIND_VARIABLES, ("\"thread\"", "\"thread\", \"halt\"")))
slip("budget first", "budget comes before limit", other(t.HEADERS, ("\"limit\", \"budget\"", "\"budget\", \"limit\"")))
slip("locks may lack", "the locks line may be left out", ("    for word in [\"limit\", \"budget\", \"label\", \"locks\"] {\n        lines.push(text.header(word)?);\n    }\n", "    for word in [\"limit\", \"budget\", \"label\"] {\n        lines.push(text.header(word)?);\n    }\n    if text.peek() == Some(b'l') {\n        lines.push(text.header(\"locks\")?);\n    } else {\n        lines.push(Line { start: text.place(), tag: LOCKS_TAG, body: vec![0], too_big: false });\n    }\n"))
slip("newline needed", "the last newline may not be missing", other(t.AT_END, ("None => {}", "None => return self.stop()")))
slip("newline not needed", "lines need no newline between them", other(t.AT_NEWLINE, ("            Some(NEWLINE)", "            Some(b'1') => {}\n            Some(NEWLINE)")))
slip("blank lines read", "blank lines are passed over", (t.NEXT_LINE, t.NEXT_LINE.replace("        let start", "        while self.peek() == Some(b'\\n') {\n            let _ = self.end_of_line();\n        }\n        let start")))
slip("blank line at its start", "a blank line of spaces is 20 at its first byte", (t.NEXT_LINE, t.NEXT_LINE + "        if matches!(self.peek(), None | Some(b'\\n')) {\n            return Err(crate::text_words::Unreadable(start));\n        }\n"))
slip("last line of spaces", "a last line of spaces is passed over", other(t.UNTIL, ("!text.is_over()", "text.peek().is_some()")))
slip("last blank line", "a blank line at the text's end is passed over", other(t.AT_NEWLINE, ("self.place += 1,", "{\n                while self.byte() == Some(NEWLINE) && self.bytes[self.place..].iter().all(|&byte| byte == NEWLINE) {\n                    self.place += 1;\n                }\n                self.place += usize::from(self.byte() == Some(NEWLINE));\n            }")))

# ---- 9

slip("9 behind 01's numbers", "9 is given behind 01's other numbers", (t.TOO_LONG, ""), (t.SPACE, t.TOO_LONG + t.SPACE))
slip("9 behind 19", "9 is given behind 19", (t.TOO_LONG, ""), (t.SPACE, t.SPACE + t.TOO_LONG))
slip("9 behind a number too big", "a number too big is 4 before 9", first(t.TOO_LONG, BIG_LINE.replace("if let", "if made.sheet.len() > MAX_SHEET {\n    if let").replace("\n    }\n", "\n    }\n    }\n")))
slip("9 never", "a sheet may have any length", (t.TOO_LONG, ""))
slip("9 at 16,385", "a sheet of 16,385 bytes is not too long", other(t.TOO_LONG, ("> MAX_SHEET", "> MAX_SHEET + 1")))
slip("9 at 16,384", "a sheet of 16,384 bytes is too long", other(t.TOO_LONG, ("> MAX_SHEET", ">= MAX_SHEET")))
slip("9 for the text", "a text of more than 16,384 bytes is too long", other(t.TOO_LONG, ("made.sheet", "case.text")))
slip("9 before 20", "a text of more than 16,384 bytes is 9 before it is 20", first(t.READ, "    if case.text.len() > MAX_SHEET && lines(&case.text).is_err() {\n        return Err((TOO_LONG, 0));\n    }\n"))
slip("9 at the text's end", "9's place is the text's length", other(t.TOO_LONG, ("(TOO_LONG, 0)", "(TOO_LONG, case.text.len())")))
slip("9 without lines too big", "lines with a number too big do not count for 9", (t.TOO_LONG, "    let counted: Vec<Line> = lines.iter().map(|line| Line { body: if line.too_big { vec![] } else { line.body.clone() }, ..*line }).collect();\n" + t.TOO_LONG.replace("made.sheet.len()", "self::made(&counted).sheet.len()")))
slip("9 is 19", "a sheet that is too long is 19", other(t.TOO_LONG, ("(TOO_LONG", "(OUTPUT_FULL")))

# ---- 01's numbers and their places

slip("nothing read", "01's numbers are not given", (t.READER, ""))
slip("too big first of all", "a number too big is 4 before all of 01's numbers", first(t.READER, BIG_LINE))
slip("too big last of all", "a number too big is 4 behind all of 01's numbers", other(t.PUT, ("if too_big { UNDUE } else { tag }", "tag")), (t.READER, t.READER + BIG_LINE))
slip("too big behind 8", "a number too big is 4 behind 8",
     (t.PUT, "    let high = [0, 0, 0, 1, 0, 0, 0, 0];\n    let body = match tag {\n        2 | 5 if too_big => &high[..],\n        6 if too_big => &[0, 0, 0, 0, 255],\n        _ => body,\n    };\n" + t.PUT.replace("if too_big { UNDUE }", "if too_big && ![2, 5, 6].contains(&tag) { UNDUE }")))
slip("too big is 5", "a name too big is 5", other(t.REFUSED_AT, ("OUT_OF_TURN { OFF_RANGE }", "OUT_OF_TURN { 5 }")))
slip("too big is 2", "a number too big is 2", other(t.REFUSED_AT, ("if number == OUT_OF_TURN { OFF_RANGE } else { number }", "number")))
slip("registers cut to a byte", "the number of registers is cut to 8 bits", other(t.COUNTED, ("count.min(255)", "count")))
slip("nine registers at the ninth", "a ninth reg is 4 at its own line", other(t.REFUSED_AT, ("lines[line].start", "lines[if lines[line].tag == THREAD_TAG && number == OFF_RANGE { line + 9 } else { line }].start")))
slip("nine registers are 8", "a ninth reg is 8", other(t.REFUSED_AT, ("else { number }", "else if lines[line].tag == THREAD_TAG { 8 } else { number }")))
slip("the later if two", "of limit and budget the later is named", other(t.AT_FAULT, (".position", ".collect::<Vec<_>>().iter().rposition"), ("|(range, line)|", "|&(range, line)|")))
slip("label before budget", "a label at fault is named before the budget", other(t.AT_FAULT, ("[LIMITS, BUDGETS].iter().zip(first)", "[LIMITS].iter().zip(first)")))
slip("budget before limit", "a budget at fault is named before the limit", (t.AT_FAULT, "    if is_off(&first[1], &BUDGETS) {\n        return 1;\n    }\n" + t.AT_FAULT))
slip("all at limit", "limit, budget and label are all named by the limit's line", other(t.FIRST_FIELD, ("at_fault(lines)", "at_fault(lines) * 0")))
slip("all at label", "limit, budget and label are all named by the label's line", other(t.FIRST_FIELD, ("at_fault(lines)", "at_fault(lines) * 0 + 2")))
slip("label above the limit at limit", "a label above the limit is named by the limit's line", other(t.AT_FAULT, ("unwrap_or(2)", "unwrap_or(0)")))
slip("limits too big at label", "a limit or a budget too big is named by the label's line", other(t.IS_OFF, ("line.too_big || ", "!line.too_big && ")))
slip("budgets to 1,000,000", "a budget above 1,000,000 is named before the label", other(t.LIMITS, ("10_000_000", "1_000_000")))
slip("limits to 10,000,000", "a limit up to 10,000,000 is not named", other(t.LIMITS, ("1..=1_000_000;", "1..=10_000_000;")))
slip("places in the sheet", "places are those in the sheet", other(t.REFUSED_AT, ("lines[line].start", "place")))
slip("places by number of line", "places are numbers of lines", other(t.REFUSED_AT, ("lines[line].start", "line")))
slip("places at the first word", "a place is that of the line's first word, behind its spaces", ("        let start = self.place();\n        let words", "        self.peek();\n        let start = self.place();\n        let words"))
slip("places at the first word of headers", "the same of the lines before the variables", ("        let start = self.place();\n        self.word(word)?;\n", "        self.peek();\n        let start = self.place();\n        self.word(word)?;\n"))
slip("7 at the thread", "7's place is its thread's line", other(t.REFUSED_AT, ("lines[line].start", "lines[if number == 7 { lines[..line].iter().rposition(|line| line.tag == THREAD_TAG).unwrap() } else { line }].start")))
slip("7 behind the thread", "7's place is the line behind the last statement, or the text's end", ("    let (number, place) = fields_refused(&made.sheet)?;\n", "    let (number, place) = fields_refused(&made.sheet)?;\n    if number == 7 {\n        let line = made.places.iter().position(|&at| at == place)? + 1;\n        return Some((7, lines.get(line).map_or(0, |line| line.start)));\n    }\n"))
slip("one place for all", "01's numbers have place 0", other(t.REFUSED_AT, ("lines[line].start", "0 * line")))

# ---- 19 and the buffer

slip("19 before 01's numbers", "19 is given before 01's numbers", first(t.READER, t.SPACE))
slip("19 before 9", "19 is given before 9", first(t.TOO_LONG, t.SPACE.replace("if ", "if made.sheet.len() > MAX_SHEET && ")))
slip("19 before 20", "with no room 19 is given before the text is read", first(t.READ, "    if case.room == 0 {\n        return Err((OUTPUT_FULL, 0));\n    }\n"))
slip("19 at the text's end", "19's place is the text's length", other(t.SPACE, ("(OUTPUT_FULL, 0)", "(OUTPUT_FULL, case.text.len())")))
for number in (9, 14):
    slip(f"19 is {number}", f"{number} is given in the place of 19", other(t.SPACE, ("OUTPUT_FULL", str(number))))
slip("a byte too few", "one byte fewer than the sheet suffices", other(t.SPACE, ("> case.room", "> case.room + 1")), first(t.WRITTEN, "    sheet.truncate(case.room);\n"))
slip("a byte more", "one byte more than the sheet is asked for", other(t.SPACE, ("> case.room", ">= case.room")))
slip("room for 16,384", "16,384 bytes are always asked for", other(t.SPACE, ("made.sheet.len() > case.room", "MAX_SHEET > case.room")))
slip("room for the text", "as many bytes as the text has are asked for", other(t.SPACE, ("made.sheet.len()", "case.text.len()")))
slip("zeros lacking", "what is behind the sheet is 255", other(t.TAIL, (", 0", ", 255")))
slip("zeros lacking where refused", "what a refused one leaves is 255", other(t.TAIL, ("case.room, 0", "case.room, if told.0 == 0 { 0 } else { 255 }")))
slip("sheet left where refused", "the sheet stays, as far as it goes, where 01's numbers or 19 are given",
     (t.REFUSED, "        Err(told) => (told, lines(&case.text).map_or(Vec::new(), |lines| made(&lines).sheet.into_iter().take(case.room).collect())),\n"),
     (t.WRITTEN, "    let written = if told.0 == 0 { sheet.len() } else { 0 };\n"))
slip("sheet left where 19", "the same, only where 19 is given",
     (t.REFUSED, "        Err(told) if told.0 == OUTPUT_FULL => (told, lines(&case.text).map_or(Vec::new(), |lines| made(&lines).sheet.into_iter().take(case.room).collect())),\n" + t.REFUSED),
     (t.WRITTEN, "    let written = if told.0 == 0 { sheet.len() } else { 0 };\n"))
slip("text left behind", "the text stands behind the sheet", (t.TAIL, "    sheet.extend(&case.text);\n" + t.TAIL))
slip("room told", "the buffer's length is told as what is written", other(t.WRITTEN, ("sheet.len()", "if told.0 == 0 { case.room } else { 0 }")))
slip("written where refused", "a refused one tells the sheet's length", (t.WRITTEN, "    let written = if told.0 == 0 { sheet.len() } else { lines(&case.text).map_or(0, |lines| made(&lines).sheet.len()) };\n"))
slip("written where 19", "the same, only where 19 is given", (t.WRITTEN, "    let written = if told.0 != OUTPUT_FULL { sheet.len() } else { lines(&case.text).map_or(0, |lines| made(&lines).sheet.len()) };\n"))
slip("all refused", "no text is converted", first(t.READ, "    return Err((UNREADABLE, 0));\n"))
slip("B for every text", "every text is B's", (t.ACCEPTED, "    let b = crate::text_lines::lines(b\"limit 10\\nbudget 100\\nlabel 2..3\\nlocks 0\\nthread\\n2..3 skip\\nhalt\").ok().map(|lines| self::made(&lines).sheet);\n    Ok(b.unwrap_or(made.sheet))\n"))

# ---- the same rules in other words

same("too big once, always", "the lines behind one with a number too big are not looked at", other(t.LINE_TOO_BIG, ("std::mem::take(&mut self.too_big)", "self.too_big")))
same("other tags are never due", "a field of tag 7 or more is never due either", other(t.UNDUE, ("0", "200")))
same("registers counted to nine", "nine registers are refused as 255 are", other(t.COUNTED, ("255", "9")))
same("great numbers counted to 2^40", "a number of 2^40 is too big for every field", other(t.NO_DIGIT, ("i128::from(number)", "i128::from(number.min(1 << 40))")))
same("1 for a number too big", "a line with a number too big is refused whatever stands for it", (t.TOO_BIG, t.TOO_BIG.replace("        0\n", "        1\n")))
same("capitals are no letters", "no word begins with a capital, which stops there with or without a space", other(t.OF_WORDS, ("byte.is_ascii_alphanumeric()", "matches!(byte, b'a'..=b'z' | b'0'..=b'9')")))
same("!s in pairs by recursion", "a ! takes the next one", (t.NOTS, "        if self.peek() == Some(b'!') {\n            self.word(\"!\")?;\n            bytes.push(NOT);\n            bytes.extend(self.negation(open)?);\n            return Ok(bytes);\n        }\n"))
same("5 spaces at a time", "spaces are free, however many", other(t.SPACES, ("while self.byte()", "while self.bytes[self.place..].starts_with(b\"     \") {\n            self.place += 5;\n        }\n        while self.byte()")))
same("labels looked at", "where neither limit nor budget is at fault the label is", other(t.AT_FAULT, (".unwrap_or(2)", ".unwrap_or_else(|| usize::from(!first.is_empty()) * 2)")))
same("19 by what is left", "a sheet fits where no byte of it is left over", other(t.SPACE, ("made.sheet.len() > case.room", "made.sheet.get(case.room).is_some()")))
same("first field's place by its line", "the first field stands at 0 alone", other(t.LINE, ("match place", "match made.places[3].min(place) * usize::from(place < made.places[3]) + place * usize::from(place >= made.places[3])")))


if __name__ == "__main__":
    TEXTS.main(sys.argv[1:], "usage: text_slips.py [--only WORD] CORPUS")
