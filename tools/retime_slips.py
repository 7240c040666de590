#!/usr/bin/env python3
"""Shows that the corpus of new times notices slips: rules of the change and the preview changed one at a time.

    retime_slips.py CORPUS

Works as slips.py does, on tools/retime_change.rs. A second table has the changes that only say a rule in
other words. Exit status 0 if every slip is noticed and no change of words is.
"""

import sys
import tempfile

sys.dont_write_bytecode = True

from retime_text import (CHANGE, CHECK, COPY, FOUND, GREATEST, LEAST, NAMED, NUMBERS, OF_HALT, OF_OTHERS, PLACE, PREVIEW,
                         READS, REFUSE, REFUSED, STATEMENT, THREAD, THREADS, TIMES)
from slips import Program

RETIMES = Program("retimes", "--edition", "2021", edited=("retime_change",))

slip, same = RETIMES.slip, RETIMES.same

# times that no statement may have, whichever is named
NO_TIMES = "    if !may_have(HALT, asked) && !may_have(1, asked) {\n        return refuse(OFF_RANGE);\n    }\n"


def before_all(test):
    """The search of the sheet as it is refuses before anything else does, where a test holds."""
    return PREVIEW, PREVIEW + f"    let before = check(sheet, work);\n    if before.refusal > 9 && {test} {{\n        return before;\n    }}\n"


def answer(text):
    """What the search of the changed sheet gives, with a change."""
    return CHECK, f"            let found = check(&changed, work);\n            {text}\n"


# ---- the order

slip("19 before the sheet's number", "a short copy buffer is 19 though the sheet does not read", (READS + COPY, COPY + READS))
slip("5 before the sheet's number", "an absent statement is 5 though the sheet does not read", (READS + COPY + NAMED, NAMED + READS + COPY))
slip("4 before the sheet's number", "times that no statement may have are 4 though the sheet does not read", (READS, NO_TIMES + READS))
slip("5 before 19", "an absent statement is 5 though the copy buffer is short", (COPY + NAMED, NAMED + COPY))
slip("4 before 19", "times that no statement may have are 4 though the copy buffer is short", (COPY, NO_TIMES + COPY))
slip("19 after the times", "19 is told last", (COPY + NAMED + TIMES, NAMED + TIMES + COPY))
slip("4 before 5", "times that no statement may have are 4 though the statement is absent", (NAMED, NO_TIMES + NAMED))
slip("search before 19", "the sheet's search refuses though the copy buffer is short", before_all("copy < sheet.len()"))
slip("search before 5", "the sheet's search refuses though the statement is absent", before_all("place_of(sheet, asked).is_none()"))
slip("search before 4", "the sheet's search refuses though the statement may not have the times",
     before_all("place_of(sheet, asked).is_some_and(|place| !may_have(sheet[place + CODE], asked))"))
slip("changed search before 19", "the changed sheet's search refuses though the copy buffer is short",
     (PREVIEW, PREVIEW + "    if copy < sheet.len() && times_at(sheet, None, asked).is_ok() {\n        let without = preview(sheet, sheet.len(), work, asked);\n"
      "        if without.refusal != 0 {\n            return without;\n        }\n    }\n"))
slip("sheet not read", "a sheet that does not read is changed", (READS, ""))
slip("too long is changed", "a sheet of more than 16,384 bytes is changed",
     (READS, "    reads(&sheet[..sheet.len().min(16_384)]).or(reads(sheet)).or_else(|fault| if fault.refusal == 9 { Ok(()) } else { Err(fault) })?;\n"))

# ---- numbers and places

for name, old in (("19", "COPY_SHORT"), ("5", "NO_SUCH_NAME"), ("4", "OFF_RANGE")):
    text = {"19": COPY, "5": NAMED, "4": TIMES}[name]
    for other in {"19": (9, 14, 18), "5": (4, 2, 1), "4": (5, 3)}[name]:
        slip(f"{name} is {other}", f"{other} is given in the place of {name}", (text, text.replace(old, str(other))))
    slip(f"{name} at the sheet's end", f"{name}'s place is the sheet's length",
         (text, text.replace(f"refuse({old})", f"Err(Fault {{ refusal: {old}, place: sheet.len() }})")))
slip("19 at the copy's end", "19's place is the copy buffer's length",
     (COPY, COPY.replace("refuse(COPY_SHORT)", "Err(Fault { refusal: COPY_SHORT, place: copy.unwrap_or(0) })")))
slip("4 at the statement", "4's place is the statement's", (TIMES, TIMES.replace("refuse(OFF_RANGE)", "Err(Fault { refusal: OFF_RANGE, place })")))
slip("place one off", "19, 5 and 4 have place 1", (REFUSE, REFUSE.replace("place: 0", "place: 1")))
slip("sheet's number at 0", "the sheet's own number has place 0", (READS, "    reads(sheet).map_err(|fault| Fault { place: 0, ..fault })?;\n"))
slip("sheet's number as 1", "a sheet that does not read is 1", (READS, "    reads(sheet).map_err(|fault| Fault { refusal: 1, ..fault })?;\n"))
for name, refusal in (("19", "COPY_SHORT"), ("5", "NO_SUCH_NAME"), ("4", "OFF_RANGE")):
    slip(f"steps kept on {name}", f"{name} has the steps of the sheet as it is",
         (REFUSED, f"        Err(Fault {{ refusal: {refusal}, .. }}) if reads(sheet).is_ok() => Answer {{ refusal: {refusal}, place: 0, steps: check(sheet, work).steps, low: 0, high: 0 }},\n" + REFUSED))
    slip(f"place kept on {name}", f"{name} has the place of the search of the sheet as it is",
         (REFUSED, f"        Err(Fault {{ refusal: {refusal}, .. }}) if reads(sheet).is_ok() => Answer {{ refusal: {refusal}, place: check(sheet, work).place, steps: 0, low: 0, high: 0 }},\n" + REFUSED))
    slip(f"window kept on {name}", f"{name} has the window of the sheet as it is",
         (REFUSED, f"        Err(Fault {{ refusal: {refusal}, .. }}) if reads(sheet).is_ok() => Answer {{ refusal: {refusal}, place: 0, steps: 0, ..check(sheet, work) }},\n" + REFUSED))
slip("one step where refused", "what is refused before the search has one step", (REFUSED, REFUSED.replace("steps: 0", "steps: 1")))

# ---- the copy buffer

slip("copy must be longer", "a copy buffer of the sheet's length is short", (COPY, COPY.replace("copy < sheet.len()", "copy <= sheet.len()")))
slip("copy may be one short", "a copy buffer may be one byte short", (COPY, COPY.replace("copy < sheet.len()", "copy + 1 < sheet.len()")))
slip("never 19", "a copy buffer of any length will do", (COPY, ""))
slip("only 0 is short", "a copy buffer is short where it has no bytes", (COPY, COPY.replace("copy < sheet.len()", "copy == 0")))
slip("0 is not short", "a copy buffer of no bytes will do", (COPY, COPY.replace("copy < sheet.len()", "0 < copy && copy < sheet.len()")))
slip("copy of the longest sheet", "a copy buffer has 16,384 bytes", (COPY, COPY.replace("copy < sheet.len()", "copy < 16_384")))
slip("copy in 8 bits", "lengths are compared by their low byte", (COPY, COPY.replace("copy < sheet.len()", "copy & 255 < sheet.len() & 255")))
slip("copy to the statement", "a copy buffer must reach as far as the new times", (COPY + NAMED, NAMED + COPY.replace("sheet.len()", "place + CODE")))
slip("copy of the work's length", "the copy buffer's length counts for the work buffer", (CHECK, CHECK.replace("work", "copy")))
slip("whole copy buffer read", "the copy is read to the copy buffer's end", (CHECK, "            changed.resize(copy, 0);\n" + CHECK))

# ---- the statement

for name, what, new in (
        ("threads from 1", "threads are counted from 1", THREAD.replace("asked.thread)", "asked.thread.wrapping_sub(1))")),
        ("last thread first", "threads are counted from the last", "    let thread = threads.iter().rev().nth(usize::try_from(asked.thread).ok()?)?;\n"),
        ("thread in 2 bits", "a thread's number is cut to two bits", THREAD.replace("asked.thread)", "asked.thread & 3)")),
        ("thread beyond the last", "a thread beyond the last is the last", "    let thread = threads.get(usize::try_from(asked.thread).ok()?).or(threads.last())?;\n")):
    slip(name, what, (THREAD, new))
for name, what, new in (
        ("statements from 1", "statements are counted from 1", PLACE.replace("asked.statement)", "asked.statement.wrapping_sub(1))")),
        ("last statement first", "statements are counted from the last", "    thread.iter().rev().nth(usize::try_from(asked.statement).ok()?).copied()\n"),
        ("one statement off", "the statement behind the one named is changed", PLACE.replace("asked.statement)", "asked.statement + 1)")),
        ("statement beyond the last", "a statement beyond the last is the last", PLACE.replace(".copied()", ".or(thread.last()).copied()")),
        ("statement in 6 bits", "a statement's number is cut to six bits", PLACE.replace("asked.statement)", "asked.statement & 63)")),
        ("statement 63 absent", "a thread has 63 statements at most", PLACE.replace(".copied()", ".filter(|_| asked.statement < 63).copied()"))):
    slip(name, what, (PLACE, new))
for bits in (8, 16, 32, 63):
    slip(f"thread in {bits} bits", f"a thread's number is cut to {bits} bits", (THREAD, THREAD.replace("asked.thread)", f"asked.thread & (1 << {bits}) - 1)")))
    slip(f"statement in {bits} bits", f"a statement's number is cut to {bits} bits", (PLACE, PLACE.replace("asked.statement)", f"asked.statement & (1 << {bits}) - 1)")))
slip("thread and statement exchanged", "the statement's number comes first",
     (THREAD + PLACE, (THREAD + PLACE).replace("asked.thread", "asked.first").replace("asked.statement", "asked.thread").replace("asked.first", "asked.statement")))
slip("statements through the threads", "statements are counted through all threads, whichever is named", (PLACE, "    threads.iter().flatten().nth(usize::try_from(asked.statement).ok()?).copied().filter(|_| !thread.is_empty())\n"))
slip("on into the next thread", "a statement beyond the last of its thread is one of the next",
     (PLACE, "    let first = threads.iter().take(asked.thread as usize).map(Vec::len).sum::<usize>();\n"
      "    threads.iter().flatten().nth(first.checked_add(usize::try_from(asked.statement).ok()?)?).copied().filter(|_| !thread.is_empty())\n"))
slip("registers are statements", "the fields of registers are counted as statements", (STATEMENT, STATEMENT.replace("STATEMENT_TAG", "5 | STATEMENT_TAG")))
slip("halts not counted", "a halt is not counted as a statement", (STATEMENT, STATEMENT.replace("Some(thread)) =>", "Some(thread)) if code_at(sheet, place) != Some(HALT) =>")))
slip("the last halt not counted", "the last statement of a thread is not counted", (THREADS, "    let mut threads = statements(sheet);\n    threads.iter_mut().for_each(|thread| drop(thread.pop()));\n"))
slip("first thread only", "only the first thread is looked at", (THREAD, THREAD.replace(".ok()?)?", ".ok().filter(|&thread| thread == 0)?)?")))
slip("5 for four threads only", "a thread beyond the last but below 4 is the first", (THREAD, "    let thread = threads.get(usize::try_from(asked.thread).ok()?).or(threads.first().filter(|_| asked.thread < 4))?;\n"))

# ---- the times

for name, what, new in (
        ("halt may have times", "halt may have times as the others", OF_HALT.replace("least == 0 && greatest == 0", "least == 0 && greatest == 0 || 1 <= least && least <= greatest && greatest <= MOST")),
        ("halt may have any times", "the times of a halt are not asked", OF_HALT.replace("least == 0 && greatest == 0", "true")),
        ("halt may have no times", "a halt cannot be named", OF_HALT.replace("least == 0 && greatest == 0", "false")),
        ("halt's greatest not asked", "a halt's greatest time is not asked", OF_HALT.replace(" && greatest == 0", "")),
        ("halt's least not asked", "a halt's least time is not asked", OF_HALT.replace("least == 0 && ", "")),
        ("halt's times in 16 bits", "a halt's times are cut to two bytes", OF_HALT.replace("least == 0 && greatest == 0", "least as u16 == 0 && greatest as u16 == 0")),
        ("halt as the others", "a halt has times as the others", "")):
    slip(name, what, (OF_HALT, new))
for name, what, new in (
        ("0 allowed", "a least time may be 0", OF_OTHERS.replace("1 <= least && ", "")),
        ("0 and 0 allowed", "any statement may have times 0 and 0", OF_OTHERS.replace("1 <= least &&", "(1 <= least || greatest == 0) &&")),
        ("1 not allowed", "a least time is at least 2", OF_OTHERS.replace("1 <= least", "2 <= least")),
        ("least above greatest allowed", "the least time may be above the greatest", OF_OTHERS.replace("least <= greatest", "least <= MOST")),
        ("one above allowed", "the least time may be one above the greatest", OF_OTHERS.replace("least <= greatest", "least - 1 <= greatest")),
        ("same not allowed", "the least time is below the greatest", OF_OTHERS.replace("least <= greatest", "least < greatest")),
        ("65,536 allowed", "a greatest time may be 65,536", OF_OTHERS.replace("<= MOST", "<= MOST + 1")),
        ("65,535 not allowed", "a greatest time is below 65,535", OF_OTHERS.replace("<= MOST", "< MOST")),
        ("greatest not asked", "a greatest time may be any number", OF_OTHERS.replace(" && greatest <= MOST", "")),
        ("least asked for 65,535", "65,535 is asked of the least time", OF_OTHERS.replace("greatest <= MOST", "least <= MOST")),
        ("below 256", "times are below 256", OF_OTHERS.replace("MOST", "255")),
        ("below 32,768", "times are below 32,768", OF_OTHERS.replace("MOST", "32_767")),
        ("greatest signed", "the greatest time is compared as a signed number", OF_OTHERS.replace("greatest <= MOST", "(greatest as i64) <= MOST as i64")),
        ("never 4", "any times will do", "    true\n")):
    slip(name, what, (OF_OTHERS, new))
for bits in (16, 32, 48, 63):
    cut = f"    let (least, greatest) = (asked.least & (1 << {bits}) - 1, asked.greatest & (1 << {bits}) - 1);\n"
    slip(f"times in {bits} bits", f"times are cut to {bits} bits", (NUMBERS, cut))
slip("least in 16 bits", "the least time is cut to two bytes", (NUMBERS, NUMBERS + "    let least = least & MOST;\n"))
slip("greatest in 16 bits", "the greatest time is cut to two bytes", (NUMBERS, NUMBERS + "    let greatest = greatest & MOST;\n"))
slip("times within the limit", "times above the sheet's limit are 4",
     (TIMES, TIMES + "    if asked.greatest > u64::from(u32::from_be_bytes([sheet[3], sheet[4], sheet[5], sheet[6]])) {\n        return refuse(OFF_RANGE);\n    }\n"))
slip("times within the label", "times above the label's high are 4",
     (TIMES, TIMES + "    if asked.greatest > u64::from(u32::from_be_bytes([sheet[15], sheet[16], sheet[17], sheet[18]])) {\n        return refuse(OFF_RANGE);\n    }\n"))
slip("its own times are 4", "times that the statement has already are 4",
     (TIMES, TIMES + "    if sheet[place + 3..place + 7] == [asked.least, asked.greatest].map(|time| (time as u16).to_be_bytes()).concat() {\n        return refuse(OFF_RANGE);\n    }\n"))
slip("slower only", "a greatest time below the statement's is 4",
     (TIMES, TIMES + "    if asked.greatest < u64::from(u16::from_be_bytes([sheet[place + 5], sheet[place + 6]])) {\n        return refuse(OFF_RANGE);\n    }\n"))
slip("locks keep their times", "a lock's times may not be changed", (TIMES, TIMES.replace("may_have(code, asked)", "code != 7 && may_have(code, asked)")))
slip("ifs keep their times", "an if's times may not be changed", (TIMES, TIMES.replace("may_have(code, asked)", "code != 3 && may_have(code, asked)")))

# ---- the bytes written

slip("low byte first", "times have the low byte first", (LEAST, LEAST.replace("to_be", "to_le")), (GREATEST, GREATEST.replace("to_be", "to_le")))
slip("least's low byte first", "the least time has the low byte first", (LEAST, LEAST.replace("to_be", "to_le")))
slip("greatest's low byte first", "the greatest time has the low byte first", (GREATEST, GREATEST.replace("to_be", "to_le")))
slip("least not written", "the least time stays", (LEAST, ""))
slip("greatest not written", "the greatest time stays", (GREATEST, ""))
slip("nothing written", "both times stay", (LEAST, ""), (GREATEST, ""))
slip("least and greatest exchanged", "the greatest time stands before the least",
     (LEAST + GREATEST, (LEAST + GREATEST).replace("asked.least", "asked.first").replace("asked.greatest", "asked.least").replace("asked.first", "asked.greatest")))
slip("least twice", "the least time is written as the greatest too", (GREATEST, GREATEST.replace("asked.greatest", "asked.least")))
slip("high bytes stay", "only the low bytes of the times are written",
     (LEAST + GREATEST, "    sheet[at + 1] = asked.least as u8;\n    sheet[at + 3] = asked.greatest as u8;\n"))
slip("a byte more", "the byte behind the times is written too", (GREATEST, GREATEST + "    sheet[at + 4] = 1;\n"))
slip("a byte before", "the byte before the times is written too", (LEAST, "    sheet[at - 1] = 5;\n" + LEAST))
slip("written one off", "the times are written a byte later", (FOUND, "    Ok(place + HEADER + 1)\n"))
slip("written one before", "the times are written a byte earlier", (FOUND, "    Ok(place + HEADER - 1)\n"))
slip("written over the header", "the times are written over the statement's header", (FOUND, "    Ok(place)\n"))
slip("all of the thread", "every statement of the thread but halts gets the times",
     (CHANGE, CHANGE + "    for place in statements(sheet).swap_remove(asked.thread as usize) {\n        if may_have(sheet[place + CODE], asked) {\n"
      "            write_times(sheet, place + HEADER, asked);\n        }\n    }\n"))
slip("written where refused with 4", "times that the statement may not have are written all the same",
     (CHANGE, CHANGE.replace("    let at", "    if let (Ok(()), Some(place)) = (reads(sheet), place_of(sheet, asked)) {\n        write_times(sheet, place + HEADER, asked);\n    }\n    let at")))
slip("written where it does not read", "a sheet that does not read is refused and written",
     (CHANGE, CHANGE.replace("    let at", "    if let (Err(_), Some(place)) = (reads(sheet), place_of(sheet, asked)) {\n        if place + CODE <= sheet.len() {\n"
      "            write_times(sheet, place + HEADER, asked);\n        }\n    }\n    let at")))
slip("change needs the search", "a change that makes the search refuse is not made",
     (CHANGE, CHANGE + "    let found = check(sheet, 12_000);\n    if found.refusal != 0 {\n        return Err(Fault { refusal: found.refusal, place: found.place });\n    }\n"))
slip("change made in the preview only", "the change leaves the sheet", (CHANGE, CHANGE.replace("    write_times(sheet, at, asked);\n", "    let _ = at;\n")))
slip("label moved", "a made change clears the label's low", (CHANGE, CHANGE + "    sheet[11..15].fill(0);\n"))

# ---- the search of the preview

slip("unchanged sheet searched", "the search is that of the sheet as it is", (CHECK, CHECK.replace("&changed", "sheet")))
slip("greatest not previewed", "the search is that of the sheet with the new least time only",
     (CHECK, "            changed[at + 2..at + 4].copy_from_slice(&sheet[at + 2..at + 4]);\n" + CHECK))
slip("one number shorter", "the work buffer is one number shorter", (CHECK, CHECK.replace("work", "work.saturating_sub(1)")))
slip("one number longer", "the work buffer is one number longer", (CHECK, CHECK.replace("work", "work + 1")))
slip("one state shorter", "the work buffer has one state less", (CHECK, CHECK.replace("work", "work.saturating_sub(100)")))
slip("12,000 numbers", "the work buffer has 12,000 numbers", (CHECK, CHECK.replace("work", "12_000")))
slip("14 without a state", "a work buffer of no state is 14 before all else", (PREVIEW, PREVIEW + "    if work < 100 {\n        return Answer { refusal: 14, place: 0, steps: 0, low: 0, high: 0 };\n    }\n"))
slip("label not asked", "15 is not given", answer("Answer { refusal: if found.refusal == 15 { 0 } else { found.refusal }, ..found }"))
slip("15 without the window", "15 gives no window", answer("if found.refusal == 15 { Answer { low: 0, high: 0, ..found } } else { found }"))
slip("search's place 0", "10 and 16 have place 0", answer("Answer { place: 0, ..found }"))
slip("search's steps 0", "what the search refuses has steps 0", answer("if found.refusal != 0 { Answer { steps: 0, ..found } } else { found }"))
slip("steps of the sheet", "the steps are those of the sheet as it is", answer("Answer { steps: check(sheet, work).steps, ..found }"))
slip("one step more", "the copying counts as a step", answer("Answer { steps: found.steps + 1, ..found }"))
slip("window of the sheet", "the window is that of the sheet as it is", answer("let before = check(sheet, work);\n            Answer { low: before.low, high: before.high, ..found }"))
slip("low and high exchanged", "high is given before low", answer("Answer { low: found.high, high: found.low, ..found }"))
slip("window of both", "the window holds that of the sheet as it is",
     answer("let before = check(sheet, work);\n            if found.refusal == 0 && before.refusal == 0 { Answer { low: found.low.min(before.low), high: found.high.max(before.high), ..found } } else { found }"))
slip("no search where accepted before", "a sheet that is accepted as it is, is so with new times", answer("let before = check(sheet, work);\n            if before.refusal == 0 { before } else { found }"))

# ---- the same rules in other words

same("least asked for 65,535 too", "it is at most the greatest", (OF_OTHERS, OF_OTHERS.replace("1 <= least &&", "1 <= least && least <= MOST &&")))
same("1 asked of the greatest too", "it is at least the least", (OF_OTHERS, OF_OTHERS.replace("1 <= least &&", "1 <= least && 1 <= greatest &&")))
same("times signed", "a number of 2^63 or more is then below 1",
     (OF_OTHERS, "    let (least, greatest) = (least as i64, greatest as i64);\n" + OF_OTHERS.replace("MOST", "MOST as i64")))
same("changed sheet read again", "new times that the statement may have leave a sheet that reads",
     (CHECK, "            if let Err(Fault { refusal, place }) = reads(&changed) {\n                return Answer { refusal, place, steps: 9, low: 9, high: 9 };\n            }\n" + CHECK))
same("own times told apart", "with its own times the sheet is as it was", (CHECK, "            if changed == sheet {\n                return check(sheet, work);\n            }\n" + CHECK))
same("work in whole states", "a part of a state holds none", (CHECK, CHECK.replace("work", "work / 100 * 100")))
same("code not asked for", "a statement of a sheet that reads has a code", (TIMES, TIMES.replace("!code_at(sheet, place).is_some_and(|code| may_have(code, asked))", "!may_have(sheet[place + CODE], asked)")))


def main(arguments):
    if len(arguments) != 1:
        sys.exit("usage: retime_slips.py CORPUS")
    with tempfile.TemporaryDirectory() as folder:
        told, well = RETIMES.try_all(arguments[0], folder)
    print(told)
    sys.exit(not well)


if __name__ == "__main__":
    main(sys.argv[1:])
