#!/usr/bin/env python3
"""Shows that the corpus of records notices slips: rules of the follower changed one at a time.

    record_slips.py CORPUS

Works as slips.py does, on tools/record_follow.rs and tools/field.rs, and on tools/record_rule.rs with
the slips of record_rule_slips.py. A second table has the changes that only say a rule in other words. Exit
status 0 if every slip is noticed and no change of words is.
"""

import sys
import tempfile

sys.dont_write_bytecode = True

import field_text
import record_rule_slips
from field_text import BODY_SHORT, FITTING, HEADER_SHORT, LENGTH, TAG
from slips import Program

EDITED = ("record_follow", "record_rule", "field")
RECORDS = Program("records", "--edition", "2021", edited=EDITED)

slip, same = RECORDS.slip, RECORDS.same

# what stands in record_follow.rs
ORDER = "    sheet.variables.iter().chain(registers).copied().collect()\n"
RANGES = "    for (low, high) in ranges(sheet) {\n"
VALUE = "        let value = signed(&record[body(record, place, START_TAG, Some(START_LENGTH))?]);\n"
OUTSIDE = "        if value < low || high < value {\n            return Err(Fault { refusal: OFF_RANGE, place });\n        }\n"
LONG = "    if record.len() > LONGEST {\n        return Err(Fault { refusal: TOO_LONG, place: 0 });\n    }\n"
STARTED = "    let (values, mut place) = starting(sheet, record)?;\n"
BEFORE = "    let mut tick = 0;\n"
EVENTS = "    while place < record.len() {\n"
REFUSE = "        let refuse = |refusal| Fault { refusal, place };\n"
PARTS = "        let (thread, clock) = (usize::from(body[0]), u16::from_be_bytes([body[1], body[2]]));\n"
ABSENT = "        if thread >= sheet.threads.len() {\n            return Err(refuse(NO_SUCH_NAME));\n        }\n"
FULL = "        tick += u64::from(clock.wrapping_sub(tick as u16));\n"
RUN = "        if !state.may_end(sheet, thread, tick) {\n            return Err(refuse(NOT_A_RUN));\n        }\n"
EFFECT = "        state.end(sheet, thread, tick).map_err(refuse)?;\n"
NEXT = "        place += HEADER + EVENT_LENGTH;\n"
END = "    Ok((state.finished(sheet), tick))\n"
OF_SHEET = "        Err(fault) => answer(fault, SHEET, false, 0),\n"
OF_RECORD = "        Ok(Err(fault)) => answer(fault, RECORD, false, 0),\n"
OF_RUN = "        Ok(Ok((finished, tick))) => answer(Fault { refusal: 0, place: 0 }, SHEET, finished, tick),\n"

# ---- the file that is named, and what is asked first

slip("9 before the sheet's number", "a record that is too long is 9 though the sheet does not read",
     (OF_SHEET, "        Err(_) if record.len() > LONGEST => answer(Fault { refusal: TOO_LONG, place: 0 }, RECORD, false, 0),\n" + OF_SHEET))
slip("record before the sheet", "a record without a field is 1 before the sheet's number",
     (OF_SHEET, "        Err(_) if record.is_empty() => answer(Fault { refusal: crate::field::SHORT, place: 0 }, RECORD, false, 0),\n" + OF_SHEET))
slip("sheet's number in the record", "the sheet's own number names the record", (OF_SHEET, OF_SHEET.replace("SHEET", "RECORD")))
slip("sheet's place 0", "the sheet's own number has place 0", (OF_SHEET, OF_SHEET.replace("fault,", "Fault { place: 0, ..fault },")))
slip("record's number in the sheet", "a record's number names the sheet", (OF_RECORD, OF_RECORD.replace("RECORD", "SHEET")))
slip("a run names the record", "where nothing is refused the file is the record", (OF_RUN, OF_RUN.replace("SHEET", "RECORD")))
slip("a run's place is its end", "where nothing is refused the place is the record's length",
     (OF_RUN, OF_RUN.replace("place: 0", "place: record.len()")))
for length in (65_535, 65_537):
    slip(f"longest is {length}", f"9 for a record over {length} bytes", (LONG, LONG.replace("LONGEST", str(length))))
slip("never 9", "a record of any length is followed", (LONG, ""))
slip("9 at the limit", "9's place is 65,536", (LONG, LONG.replace("place: 0", "place: LONGEST")))
slip("9 after the fields", "9 is given only where a field lies past 65,536 bytes",
     (LONG, ""), (EVENTS, EVENTS + "        if place + HEADER + EVENT_LENGTH > LONGEST {\n            return Err(Fault { refusal: TOO_LONG, place: 0 });\n        }\n"))

# ---- a field

slip("tag before header short", "a tag not due is 2 though its header is cut short",
     (HEADER_SHORT, "    if rest.first().is_some_and(|&first| first != tag) {\n        return refuse(OUT_OF_TURN);\n    }\n" + HEADER_SHORT))
slip("body short before tag", "a body cut short is 1 though the tag is not due", (TAG + LENGTH + BODY_SHORT, LENGTH + BODY_SHORT + TAG))
slip("length before body short", "a length that does not fit is 3 though the body is cut short", (BODY_SHORT + FITTING, FITTING + BODY_SHORT))
slip("length before tag", "a length that does not fit is 3 though the tag is not due", (TAG + LENGTH + BODY_SHORT + FITTING, LENGTH + FITTING + TAG + BODY_SHORT))
slip("header at the end is short", "a header that ends the record is short", (HEADER_SHORT, HEADER_SHORT.replace("<", "<=")))
slip("body at the end is short", "a body that ends the record is short", (BODY_SHORT, BODY_SHORT.replace("<", "<=")))
slip("header short is 2", "a header cut short is 2", (HEADER_SHORT, HEADER_SHORT.replace("SHORT", "OUT_OF_TURN")))
slip("body short is 3", "a body cut short is 3", (BODY_SHORT, BODY_SHORT.replace("SHORT", "BAD_LENGTH")))
slip("short at the end", "the place of a field cut short is the record's length",
     (HEADER_SHORT, HEADER_SHORT.replace("refuse(SHORT)", "Err(Fault { refusal: SHORT, place: file.len() })")),
     (BODY_SHORT, BODY_SHORT.replace("refuse(SHORT)", "Err(Fault { refusal: SHORT, place: file.len() })")))
slip("fault at the body", "a malformed field's place is that of its body",
     (field_text.REFUSE, field_text.REFUSE.replace("place }", "place: place + HEADER }")))
slip("longer fields", "a field may have more bytes than it needs", (FITTING, FITTING.replace("!=", "<")),
     ("place += HEADER + START_LENGTH;", "place += HEADER + usize::from(u16::from_be_bytes([record[place + 1], record[place + 2]]));"),
     (NEXT, "        place += HEADER + body.len();\n"))
slip("low byte of a length first", "a length has the low byte first", (LENGTH, LENGTH.replace("from_be", "from_le")))
slip("length in 8 bits", "a length is cut to its low byte", (LENGTH, LENGTH.replace("rest[1]", "0")))
slip("tags in 7 bits", "tags are compared without the high bit", (TAG, TAG.replace("rest[0]", "rest[0] & 127")))
slip("either tag", "32 and 33 are both due everywhere", (TAG, TAG.replace("rest[0] != tag", "![32, 33].contains(&rest[0])")))
slip("trailing bytes pass", "fewer bytes than a header behind the last field pass", (EVENTS, "    while record.len() - place >= HEADER {\n"))
slip("trailing start passes", "a starting value behind the last that is due ends the record",
     (EVENTS, "    while place < record.len() && record[place] != START_TAG {\n"))
slip("cut event passes", "an event cut short ends the record", (EVENTS, "    while record.len() - place >= HEADER + EVENT_LENGTH {\n"))

# ---- starting values

slip("register range not asked", "a register may start outside its range",
     (OUTSIDE, OUTSIDE.replace("if value", "if values.len() < sheet.variables.len() && (value").replace("< value {", "< value) {")))
slip("variable range not asked", "a variable may start outside its range",
     (OUTSIDE, OUTSIDE.replace("if value", "if values.len() >= sheet.variables.len() && (value").replace("< value {", "< value) {")))
slip("low not asked", "a starting value may lie below its range", (OUTSIDE, OUTSIDE.replace("value < low || ", "")))
slip("high not asked", "a starting value may lie above its range", (OUTSIDE, OUTSIDE.replace(" || high < value", "")))
slip("high exclusive", "a starting value lies below the high end", (OUTSIDE, OUTSIDE.replace("high < value", "high <= value")))
slip("low exclusive", "a starting value lies above the low end", (OUTSIDE, OUTSIDE.replace("value < low", "value <= low")))
slip("starting value unsigned", "starting values and ranges are compared without a sign",
     (OUTSIDE, OUTSIDE.replace("value < low || high < value", "(value as u32) < low as u32 || (high as u32) < value as u32")))
slip("starting value in 16 bits", "a starting value is cut to its low half", (VALUE, VALUE.replace(";\n", " as i16 as i32;\n")))
slip("starting value low byte first", "a starting value has the low byte first", (VALUE, VALUE.replace(";\n", ".swap_bytes();\n")))
slip("registers before variables", "the registers' starting values stand before the variables'",
     (ORDER, "    registers.chain(&sheet.variables).copied().collect()\n"))
slip("last thread's registers first", "registers stand by thread from the last to the first",
     (ORDER, ORDER.replace("chain(registers)", "chain(registers.rev())")))
slip("all values read, then asked", "ranges are asked behind the last starting value",
     (RANGES, "    for at in 0..ranges(sheet).len() {\n        body(record, at * (HEADER + START_LENGTH), START_TAG, Some(START_LENGTH))?;\n    }\n" + RANGES))
slip("missing start at the last", "a missing starting value has the place of the field before it",
     (VALUE, "        if place == record.len() && place > 0 {\n            return Err(Fault { refusal: crate::field::SHORT, place: place - HEADER - START_LENGTH });\n        }\n" + VALUE))
slip("missing start is 0", "a missing starting value has place 0",
     (VALUE, "        if place == record.len() {\n            return Err(Fault { refusal: crate::field::SHORT, place: 0 });\n        }\n" + VALUE))
slip("missing start is 2", "a missing starting value is 2",
     (VALUE, "        if place == record.len() {\n            return Err(Fault { refusal: crate::field::OUT_OF_TURN, place });\n        }\n" + VALUE))
slip("empty record is a run", "a record of no bytes is a run of any sheet", (STARTED, "    if record.is_empty() {\n        return Ok((false, 0));\n    }\n" + STARTED))
slip("off range is 21", "a starting value outside its range is 21", (OUTSIDE, OUTSIDE.replace("OFF_RANGE", "NOT_A_RUN")))

# ---- the clock

slip("clock does not wrap", "the recorded clock is the tick", (FULL, "        tick = u64::from(clock);\n"))
slip("clock wraps at 65,535", "the recorder's clock starts over after 65,534",
     (FULL, "        tick += (u64::from(clock) + 65_535 - tick % 65_535) % 65_535;\n"))
slip("clock has 15 bits", "of the gap the low 15 bits count", (FULL, FULL.replace("(tick as u16)", "(tick as u16) & 0x7FFF")))
slip("no gap is a turn", "two events with one clock are 65,536 ticks apart",
     (FULL, "        let gap = u64::from(clock.wrapping_sub(tick as u16));\n        tick += if gap == 0 { 65_536 } else { gap };\n"))
slip("one turn only", "the clock starts over at most once", (FULL, "        tick = if u64::from(clock) < tick { 65_536 + u64::from(clock) } else { u64::from(clock) };\n"))
slip("tick in 16 bits", "the last tick is cut to sixteen bits", (END, END.replace("tick)", "tick & 0xFFFF)")))
slip("tick in 24 bits", "the last tick is cut to 24 bits", (END, END.replace("tick)", "tick & 0xFF_FFFF)")))
slip("tick from 1", "the tick before the first event is 1", (BEFORE, "    let mut tick = 1;\n"))
slip("low byte of a clock first", "an event's clock has the low byte first", (PARTS, PARTS.replace("[body[1], body[2]]", "[body[2], body[1]]")))
slip("clock before thread", "an event's clock stands before its thread",
     (PARTS, PARTS.replace("usize::from(body[0])", "usize::from(body[2])").replace("[body[1], body[2]]", "[body[0], body[1]]")))
slip("tick of the earliest thread", "the last tick is the least clock",
     (END, "    let tick = state.threads.iter().map(|own| own.clock).min().unwrap_or(0);\n" + END))
slip("tick of the live threads", "the last tick is the greatest clock of a live thread",
     (END, "    let live = (0..state.threads.len()).filter(|&thread| !state.finished(sheet) && state.live(sheet, thread));\n"
      "    let tick = live.map(|thread| state.threads[thread].clock).max().unwrap_or(tick);\n" + END))

# ---- an event

slip("21 before 5", "an event that no thread has is 21 though its thread is absent",
     (ABSENT + "        // \"the recorder's clock has sixteen bits and starts over at zero\"\n" + FULL,
      FULL + "        if !(0..sheet.threads.len()).any(|thread| state.may_end(sheet, thread, tick)) {\n            return Err(refuse(NOT_A_RUN));\n        }\n" + ABSENT))
slip("5 is 21", "an event of no such thread is 21", (ABSENT, ABSENT.replace("NO_SUCH_NAME", "NOT_A_RUN")))
slip("5 above the threads", "the thread with the number of threads is not 5",
     (ABSENT, ABSENT.replace(">=", ">") + "        let thread = thread.min(sheet.threads.len() - 1);\n"))
slip("5 above four", "5 is given for thread numbers above 3 only, 21 for the others",
     (ABSENT, ABSENT.replace(">= sheet.threads.len()", "> 3") + "        if thread >= sheet.threads.len() {\n            return Err(refuse(NOT_A_RUN));\n        }\n"))
slip("thread in 2 bits", "a thread's number is cut to two bits", (PARTS, PARTS.replace("body[0])", "body[0] & 3)")))
slip("10 and 16 before 21", "arithmetic without a result is told though the tick is none",
     (RUN, "        let fault = if state.live(sheet, thread) { state.result(sheet, thread).err() } else { None };\n"
      "        if let Some(fault) = fault {\n            return Err(refuse(fault));\n        }\n" + RUN),
     ("    /// \"The statement takes effect then",
      "    pub fn result(&self, sheet: &Sheet, thread: usize) -> Result<(), u8> {\n        let statement = self.statement(sheet, thread);\n"
      "        let registers = &self.threads[thread].registers;\n        match statement.code {\n"
      "            2 => value(&mut &statement.operands[1..], registers).map(|_| ()),\n"
      "            3 => holds(&mut &statement.operands[1..], registers).map(|_| ()),\n            _ => Ok(()),\n        }\n    }\n\n"
      "    /// \"The statement takes effect then"))
slip("fault ends the run", "an event without a result ends the run, and the record is one",
     (EFFECT, "        if state.end(sheet, thread, tick).is_err() {\n            return Ok((false, tick));\n        }\n"))
slip("fault passed over", "an event without a result changes nothing", (EFFECT, "        let _ = state.end(sheet, thread, tick);\n"))
slip("fault is 21", "arithmetic without a result is 21", (EFFECT, EFFECT.replace("map_err(refuse)", "map_err(|_| refuse(NOT_A_RUN))")))
slip("event's fault at the record's end", "the place of 5, 21, 10 and 16 is the record's length",
     (REFUSE, REFUSE.replace("refusal, place", "refusal, place: record.len()")))
slip("event's fault at the event before", "the place of 5, 21, 10 and 16 is that of the event before",
     (REFUSE, REFUSE.replace("refusal, place", "refusal, place: place.saturating_sub(HEADER + EVENT_LENGTH)")))
slip("event's fault counts events", "the place of 5, 21, 10 and 16 is the number of events before",
     (REFUSE, REFUSE.replace("refusal, place", "refusal, place: (place - 7 * values.len()) / 6")))
slip("last event not asked", "whether the last field is an event of the run is not asked",
     (RUN, RUN.replace("if !state", "if place + 6 < record.len() && !state")))
slip("finish ends the record", "what stands behind the finish is not looked at", (EVENTS, EVENTS.replace(" {", " && (place == 0 || !state.finished(sheet)) {")))
slip("event after the finish allowed", "events behind the finish are passed over",
     (RUN, "        if state.finished(sheet) {\n            place += HEADER + EVENT_LENGTH;\n            continue;\n        }\n" + RUN))
slip("halted threads have events", "an event of a halted thread is passed over",
     (RUN, "        if !state.live(sheet, thread) {\n            place += HEADER + EVENT_LENGTH;\n            continue;\n        }\n" + RUN))
slip("failed tries are no events", "a try at a lock that another owns is 21",
     (RUN, RUN.replace("!state", "state.waits(sheet, thread) || !state")),
     ("    /// \"A thread is live unless",
      "    pub fn waits(&self, sheet: &Sheet, thread: usize) -> bool {\n        let statement = self.statement(sheet, thread);\n"
      "        statement.code == LOCK && self.owners[usize::from(statement.operands[0])].is_some_and(|owner| owner != thread)\n    }\n\n"
      "    /// \"A thread is live unless"))

# ---- the end

# a number of the sheet's first field
LIMIT, LABEL_LOW, LABEL_HIGH = (f"u64::from(signed(&sheet[{at}..]) as u32)" for at in (3, 11, 15))
slip("past the limit", "a run past the sheet's time limit is 12",
     (OF_RUN, f"        Ok(Ok((_, tick))) if tick > {LIMIT} => answer(Fault {{ refusal: 12, place: 0 }}, SHEET, false, 0),\n" + OF_RUN))
slip("label broken", "a finished run that ends outside the label is 15",
     (OF_RUN, f"        Ok(Ok((true, tick))) if tick < {LABEL_LOW} || tick > {LABEL_HIGH} => answer(Fault {{ refusal: 15, place: 0 }}, SHEET, false, 0),\n" + OF_RUN))
slip("finished by the last event", "a run is finished where the last event's thread stands at halt",
     (BEFORE, BEFORE + "    let mut halted = state.finished(sheet);\n"), (EFFECT, EFFECT + "        halted = !state.live(sheet, thread);\n"),
     (END, END.replace("state.finished(sheet)", "halted")))
slip("finished needs an event", "a run without an event is not finished", (END, END.replace("state.finished(sheet)", "state.finished(sheet) && tick > 0")))
slip("never finished", "no run is finished", (END, END.replace("state.finished(sheet)", "false")))
BEFORE_FAULT = ("        Ok(Err(fault)) => match read(sheet).map(|sheet| replay(&sheet, &record[..fault.place])) {\n"
                "            Ok(Ok((finished, tick))) => answer(fault, RECORD, FINISHED, TICK),\n            _ => answer(fault, RECORD, false, 0),\n        },\n")
slip("tick where refused", "a refusal gives the last tick before it", (OF_RECORD, BEFORE_FAULT.replace("FINISHED", "false").replace("TICK", "tick")))
slip("finished where refused", "a refusal behind the finish is finished", (OF_RECORD, BEFORE_FAULT.replace("FINISHED", "finished").replace("TICK", "0")))

for name, what, edits in record_rule_slips.SLIPS:
    slip(name, what, *edits)

# ---- the same rules in other words

same("tick from the thread's own clock", "its gap is at most 65,535 too, and a tick before another clock is refused",
     (FULL, "        let own = state.threads[thread].clock;\n        tick = own + u64::from(clock.wrapping_sub(own as u16));\n"))
same("finish told apart", "where all stand at halt, no thread is live",
     (RUN, "        if state.finished(sheet) {\n            return Err(refuse(NOT_A_RUN));\n        }\n" + RUN))
same("tick is the greatest clock", "the last event's tick is the greatest clock",
     (END, "    let tick = state.threads.iter().map(|own| own.clock).max().unwrap_or(0);\n" + END))
same("missing start told apart", "an absent field is a header short of all its bytes, at the record's length",
     (VALUE, "        if place == record.len() {\n            return Err(Fault { refusal: crate::field::SHORT, place: record.len() });\n        }\n" + VALUE))
for name, why, edits in record_rule_slips.SAME:
    same(name, why, *edits)


def main(arguments):
    if len(arguments) != 1:
        sys.exit("usage: record_slips.py CORPUS")
    with tempfile.TemporaryDirectory() as folder:
        told, well = RECORDS.try_all(arguments[0], folder)
    print(told)
    sys.exit(not well)


if __name__ == "__main__":
    main(sys.argv[1:])
