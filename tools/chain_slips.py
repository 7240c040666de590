#!/usr/bin/env python3
"""Shows that the corpus of chains notices slips: rules of the taking back, and of what a change tells, changed one at a time.

    chain_slips.py CORPUS

Works as slips.py does, on tools/retime_back.rs and tools/retime_change.rs. A second table has the changes that only say a
rule in other words. Exit status 0 if every slip is noticed and no change of words is.
"""

import sys
import tempfile

sys.dont_write_bytecode = True

from chain_text import (BACK, COMPARED, DID, GREATEST, LEAST, MADE, NAMED, OLD, OLD_ASKED, OLD_NUMBERS, OLD_SHOWN, PLACE, READS, REFUSED,
                        SHOWN, SHOWN_HIGH_FIRST, SINCE, THREAD, TIMES, WRITE, ZEROS)
from slips import Program

CHAINS = Program("chains", "--edition", "2021", edited=("retime_change", "retime_back"))

slip, same = CHAINS.slip, CHAINS.same

# the statement, as far as its fields go, of a sheet that may not read
FIELDS = "place_of(sheet, old).filter(|place| place + 7 < sheet.len())"
# old times that no statement may have, whichever is named
NO_TIMES = "    if !may_have(HALT, old) && !may_have(1, old) {\n        return refused(OFF_RANGE);\n    }\n"
# the statement and its new times
NEW = "Asked { thread: change.thread, statement: change.statement, least: change.new_least, greatest: change.new_greatest }"


def told(number, place):
    """The number's refusal with another place."""
    text, name = {"5": (NAMED, "NO_SUCH_NAME"), "4": (TIMES, "OFF_RANGE"), "18": (SINCE, "CHANGED_SINCE")}[number]
    return text, text.replace(f"refused({name})", f"Err(Fault {{ refusal: {name}, place: {place} }})")


def written_where(test, times="old"):
    """Before anything is refused, times are written where a test holds."""
    return READS, OLD + f"    if let Some(place) = {FIELDS} {{\n        if {test} {{\n            write_times(sheet, place + HEADER, {times});\n        }}\n    }}\n    reads(sheet)?;\n"


# ---- the order

slip("5 before the sheet's number", "an absent statement is 5 though the sheet does not read", (READS + NAMED, OLD + NAMED + "    reads(sheet)?;\n"))
slip("4 before the sheet's number", "old times that no statement may have are 4 though the sheet does not read", (READS, OLD + NO_TIMES + "    reads(sheet)?;\n"))
slip("18 before the sheet's number", "new times not shown are 18 though the sheet does not read",
     (READS, OLD + f"    if {FIELDS}.is_some_and(|place| !shows_new(sheet, place, change)) {{\n        return refused(CHANGED_SINCE);\n    }}\n    reads(sheet)?;\n"))
slip("4 before 5", "old times that no statement may have are 4 though the statement is absent", (NAMED, NO_TIMES + NAMED))
slip("18 before 5", "an absent statement is 18", (NAMED, NAMED.replace("NO_SUCH_NAME", "CHANGED_SINCE")))
slip("18 before 5, times of the first", "an absent statement is 18 where the first does not show the new times",
     (NAMED, "    if place_of(sheet, old).is_none() && !statements(sheet).concat().first().is_some_and(|&place| shows_new(sheet, place, change)) {\n"
      "        return refused(CHANGED_SINCE);\n    }\n" + NAMED))
slip("18 before 4", "new times not shown are 18 though the old ones are 4", (TIMES + SINCE, SINCE + TIMES))
slip("the sheet's number forgotten", "a sheet that does not read is taken back on", (READS, OLD))
slip("the sheet's number last", "the sheet is read last", (READS, OLD), (SINCE, SINCE + "    reads(sheet)?;\n"))
slip("read after the writing", "the sheet is read behind the writing", (READS, OLD), (BACK, BACK + "    reads(sheet)?;\n"))
slip("too long is taken back on", "a sheet of more than 16,384 bytes is taken back on",
     (READS, OLD + "    reads(sheet).or_else(|fault| if fault.refusal == 9 { Ok(()) } else { Err(fault) })?;\n"))
slip("only times asked of the sheet", "a sheet that is refused with another number than 4 is taken back on",
     (READS, OLD + "    reads(sheet).or_else(|fault| if fault.refusal == 4 { Err(fault) } else { Ok(()) })?;\n"))

# ---- numbers and places

for name, old, text in (("5", "NO_SUCH_NAME", NAMED), ("4", "OFF_RANGE", TIMES), ("18", "CHANGED_SINCE", SINCE)):
    for other in {"5": (2, 4), "4": (5, 18), "18": (4, 5, 15, 19)}[name]:
        slip(f"{name} is {other}", f"{other} is given in the place of {name}", (text, text.replace(old, str(other))))
    slip(f"{name} at the sheet's end", f"{name}'s place is the sheet's length", told(name, "sheet.len()"))
slip("4 at the statement", "4's place is the statement's", told("4", "place"))
slip("18 at the statement", "18's place is the statement's", told("18", "place"))
slip("18 at the times", "18's place is that of the times", told("18", "place + HEADER"))
slip("5 at the first statement", "5's place is the first statement's", told("5", "statements(sheet).concat()[0]"))
slip("place one off", "5, 4 and 18 have place 1", (REFUSED, REFUSED.replace("place: 0", "place: 1")))
slip("sheet's number at 0", "the sheet's own number has place 0", (READS, OLD + "    reads(sheet).map_err(|fault| Fault { place: 0, ..fault })?;\n"))
slip("sheet's number is 18", "a sheet that no longer reads is 18", (READS, OLD + "    reads(sheet).map_err(|_| Fault { refusal: CHANGED_SINCE, place: 0 })?;\n"))

# ---- the statement

for bits in (2, 8, 16, 32, 63):
    slip(f"thread in {bits} bits", f"a thread's number is cut to {bits} bits", (OLD_ASKED, f"    let thread = thread & (1 << {bits}) - 1;\n" + OLD_ASKED))
for bits in (6, 8, 16, 32, 63):
    slip(f"statement in {bits} bits", f"a statement's number is cut to {bits} bits", (OLD_ASKED, f"    let statement = statement & (1 << {bits}) - 1;\n" + OLD_ASKED))
slip("thread and statement exchanged", "the statement's number comes first", (OLD_ASKED, OLD_ASKED.replace("thread, statement,", "thread: statement, statement: thread,")))
slip("first thread only", "the thread is the first, whichever is named", (OLD_ASKED, OLD_ASKED.replace("thread,", "thread: 0,")))
slip("first statement only", "the statement is the first, whichever is named", (OLD_ASKED, OLD_ASKED.replace("statement,", "statement: 0,")))
slip("one statement off", "the statement behind the one named is taken back", (OLD_ASKED, OLD_ASKED.replace("statement,", "statement: statement.wrapping_add(1),")))
slip("thread beyond the last", "a thread beyond the last is the last", (THREAD, "    let thread = threads.get(usize::try_from(asked.thread).ok()?).or(threads.last())?;\n"))
slip("statement beyond the last", "a statement beyond the last is the last", (PLACE, PLACE.replace(".copied()", ".or(thread.last()).copied()")))
slip("another that shows the times", "where the statement does not show the new times, one of its thread that does is taken back",
     (TIMES, "    let shows = |place: &usize| shows_new(sheet, *place, change);\n"
      "    let place = if shows(&place) { place } else { statements(sheet)[old.thread as usize].iter().copied().find(shows).unwrap_or(place) };\n" + TIMES))

# ---- the old times

slip("4 asked of the new times", "the new times are asked whether the statement may have them", (TIMES, TIMES.replace("may_have(code, old)", f"may_have(code, {NEW})")))
slip("4 asked of both times", "new times that the statement may not have are 4 too", (TIMES, TIMES.replace("may_have(code, old)", f"(may_have(code, old) && may_have(code, {NEW}))")))
slip("never 4", "any old times will do", (TIMES, ""))
slip("4 where not shown only", "old times are asked only where the new ones are not shown", (TIMES, TIMES.replace("if !code_at", "if !shows_new(sheet, place, change) && !code_at")))
slip("4 where shown only", "old times are asked only where the new ones are shown", (TIMES, TIMES.replace("if !code_at", "if shows_new(sheet, place, change) && !code_at")))
slip("halt may have old times", "a halt may have old times as the others", (TIMES, TIMES.replace("may_have(code, old)", "(may_have(code, old) || may_have(1, old))")))
slip("old 0 and 0 allowed", "any statement may have old times 0 and 0", (TIMES, TIMES.replace("may_have(code, old)", "(may_have(code, old) || may_have(HALT, old))")))
slip("halts never taken back", "a halt's times cannot be taken back", (TIMES, TIMES.replace("may_have(code, old)", "(code != HALT && may_have(code, old))")))
slip("old least not asked", "an old least time may be any number", (TIMES, TIMES.replace("may_have(code, old)", "may_have(code, Asked { least: if code == HALT { 0 } else { old.greatest }, ..old })")))
slip("old greatest not asked", "an old greatest time may be any number", (TIMES, TIMES.replace("may_have(code, old)", "may_have(code, Asked { greatest: old.least, ..old })")))
for bits in (16, 32, 48, 63):
    cut = f"    let (old_least, old_greatest) = (old_least & (1 << {bits}) - 1, old_greatest & (1 << {bits}) - 1);\n"
    slip(f"old times in {bits} bits", f"old times are cut to {bits} bits", (OLD_NUMBERS, OLD_NUMBERS + cut))
slip("same old and new is 18", "a change that changed nothing is not taken back",
     (SINCE, SINCE + "    if (old.least, old.greatest) == (change.new_least, change.new_greatest) {\n        return refused(CHANGED_SINCE);\n    }\n"))
slip("same old and new is 4", "old times that are the new ones are 4",
     (TIMES, TIMES + "    if (old.least, old.greatest) == (change.new_least, change.new_greatest) {\n        return refused(OFF_RANGE);\n    }\n"))

# ---- the new times

for name, what, new in (
        ("only least compared", "the new greatest time is not looked at", "    least == change.new_least\n"),
        ("only greatest compared", "the new least time is not looked at", "    greatest == change.new_greatest\n"),
        ("one of them suffices", "one new time that is shown suffices", COMPARED.replace("&&", "||")),
        ("least twice", "the least time is compared with both", COMPARED.replace("greatest ==", "least ==")),
        ("new exchanged", "least and greatest are compared exchanged", "    least == change.new_greatest && greatest == change.new_least\n"),
        ("either way round", "new times that are exchanged are shown too", "    [(least, greatest), (greatest, least)].contains(&(change.new_least, change.new_greatest))\n"),
        ("old compared", "the statement is asked for the old times", "    least == change.old_least && greatest == change.old_greatest\n"),
        ("old will do", "a statement that shows the old times again is taken back", "    [(change.new_least, change.new_greatest), (change.old_least, change.old_greatest)].contains(&(least, greatest))\n"),
        ("within the new times", "times within the new ones are shown", "    change.new_least <= least && greatest <= change.new_greatest\n"),
        ("other times than the old", "whatever differs from the old times is shown", "    (least, greatest) != (change.old_least, change.old_greatest)\n"),
        ("low bytes compared", "the low bytes of the times are compared", "    least as u8 == change.new_least as u8 && greatest as u8 == change.new_greatest as u8\n"),
        ("high bytes compared", "the high bytes of the times are compared", "    least >> 8 == change.new_least >> 8 && greatest >> 8 == change.new_greatest >> 8\n"),
        ("never shown", "no statement shows the new times", "    false\n"),
        ("18 never given", "the new times are not looked at", "    true\n")):
    slip(name, what, (COMPARED, new))
for bits in (8, 16, 32, 48, 63):
    for which, what in (("new_least", "new least time"), ("new_greatest", "new greatest time")):
        if bits != 48:
            slip(f"{what} in {bits} bits", f"the {what} is cut to {bits} bits when compared", (COMPARED, COMPARED.replace(f"change.{which}", f"(change.{which} & (1 << {bits}) - 1)")))
    cut = f"    let (new_least, new_greatest) = (change.new_least & (1 << {bits}) - 1, change.new_greatest & (1 << {bits}) - 1);\n"
    if bits in (16, 32):
        slip(f"new times in {bits} bits", f"both new times are cut to {bits} bits when compared", (COMPARED, cut + COMPARED.replace("change.", "")))
slip("halts not compared", "a halt's times are not looked at", (SINCE, SINCE.replace("if !", "if sheet[place + 7] != HALT && !")))

# ---- the bytes written

slip("the new times written", "the new times are written again", (BACK, BACK.replace("old)", f"{NEW})")))
slip("old and new exchanged", "old and new times change places",
     (OLD, OLD + "    let [thread, statement, a, b, c, d] = change.numbers();\n    let change = Change::of([thread, statement, c, d, a, b]);\n    let old = old_of(change);\n"))
slip("nothing written", "what is taken back stays", (BACK, ""))
slip("old least stays", "the old least time is not written", (BACK, BACK.replace("old)", "Asked { least: change.new_least, ..old })")))
slip("old greatest stays", "the old greatest time is not written", (BACK, BACK.replace("old)", "Asked { greatest: change.new_greatest, ..old })")))
slip("old times exchanged", "the old greatest time stands before the least", (BACK, BACK.replace("old)", "Asked { least: old.greatest, greatest: old.least, ..old })")))
slip("old least twice", "the old least time is written as the greatest too", (BACK, BACK.replace("old)", "Asked { greatest: old.least, ..old })")))
slip("low bytes only", "only the low bytes of the old times are written", (BACK, "    sheet[place + 4] = old.least as u8;\n    sheet[place + 6] = old.greatest as u8;\n"))
slip("low byte first", "old times have the low byte first",
     (BACK, "    sheet[place + 3..place + 5].copy_from_slice(&(old.least as u16).to_le_bytes());\n    sheet[place + 5..place + 7].copy_from_slice(&(old.greatest as u16).to_le_bytes());\n"))
slip("a byte more", "the byte behind the times is written too", (BACK, BACK + "    sheet[place + 7] = 1;\n"))
slip("a byte before", "the byte before the times is written too", (BACK, BACK + "    sheet[place + 2] = 5;\n"))
slip("written one off", "the old times are written a byte later", (BACK, BACK.replace("+ HEADER", "+ HEADER + 1")))
slip("written one before", "the old times are written a byte earlier", (BACK, BACK.replace("+ HEADER", "+ HEADER - 1")))
slip("all of the thread", "every statement of the thread that shows the new times gets the old ones",
     (BACK, "    for place in statements(sheet).swap_remove(old.thread as usize) {\n        if shows_new(sheet, place, change) {\n            write_times(sheet, place + HEADER, old);\n        }\n    }\n"))
slip("label moved", "what is taken back clears the label's low", (BACK, BACK + "    sheet[11..15].fill(0);\n"))
slip("written where 18", "old times are written though the new ones are not shown",
     written_where("reads(sheet).is_ok() && code_at(sheet, place).is_some_and(|code| may_have(code, old)) && !shows_new(sheet, place, change)"))
slip("written where 4", "old times are written though the statement may not have them",
     (TIMES, TIMES.replace("{\n        return", "{\n        if shows_new(sheet, place, change) {\n            write_times(sheet, place + HEADER, old);\n        }\n        return")))
slip("written where it does not read", "old times are written in a sheet that does not read", written_where("reads(sheet).is_err()"))
slip("written where it does not read and they are shown", "the same, only where the new times are shown", written_where("reads(sheet).is_err() && shows_new(sheet, place, change)"))
slip("first statement written where 5", "the first statement gets the old times where the named one is absent",
     (NAMED, NAMED.replace("{\n        return", "{\n        let place = statements(sheet).concat()[0];\n        write_times(sheet, place + HEADER, old);\n        return")))
slip("times of any write", "low bytes first, in changes and in what is taken back", (LEAST, LEAST.replace("to_be", "to_le")), (GREATEST, GREATEST.replace("to_be", "to_le")))

# ---- what a change tells

for name, what, new in (
        ("new for old", "the new times are told as the old ones too", "old_least: new_least, old_greatest: new_greatest, new_least, new_greatest"),
        ("old for new", "the old times are told as the new ones too", "old_least, old_greatest, new_least: old_least, new_greatest: old_greatest"),
        ("old and new told exchanged", "the new times come first", "old_least: new_least, old_greatest: new_greatest, new_least: old_least, new_greatest: old_greatest"),
        ("old least told twice", "the old least time is told as the greatest", "old_least, old_greatest: old_least, new_least, new_greatest"),
        ("old times told exchanged", "the old greatest time comes first", "old_least: old_greatest, old_greatest: old_least, new_least, new_greatest"),
        ("new times told exchanged", "the new greatest time comes first", "old_least, old_greatest, new_least: new_greatest, new_greatest: new_least"),
        ("old times not told", "the old times are zeros", "old_least: 0, old_greatest: 0, new_least, new_greatest"),
        ("new times not told", "the new times are zeros", "old_least, old_greatest, new_least: 0, new_greatest: 0")):
    slip(name, what, (DID, DID.replace("old_least, old_greatest, new_least, new_greatest", new)))
for name, what, new in (
        ("told thread and statement exchanged", "the statement is told before the thread", "thread: statement, statement: thread,"),
        ("statement told from 1", "the statement is told counted from 1", "thread, statement: statement + 1,"),
        ("thread told from 1", "the thread is told counted from 1", "thread: thread + 1, statement,"),
        ("thread not told", "the thread is 0", "thread: 0, statement,"),
        ("statement not told", "the statement is 0", "thread, statement: 0,")):
    slip(name, what, (DID, DID.replace("thread, statement,", new)))
slip("old read after the writing", "the old times are read behind the writing", (OLD_SHOWN, ""), (WRITE, WRITE + OLD_SHOWN))
slip("old in one byte", "the old times are told by their low bytes", (SHOWN, "    (time(at) & 255, time(at + 2) & 255)\n"))
slip("shown low byte first", "the times that a statement shows have the low byte first", (SHOWN_HIGH_FIRST, SHOWN_HIGH_FIRST.replace("from_be", "from_le")))
slip("shown one off", "the times that a statement shows stand a byte later", (SHOWN, "    (time(at + 1), time(at + 3))\n"))
slip("same times told as zeros", "a change that changes nothing tells zeros",
     (MADE, "        Ok(made) if (made.old_least, made.old_greatest) == (made.new_least, made.new_greatest) => (Fault { refusal: 0, place: 0 }, Change::default()),\n" + MADE))
slip("same times not a change", "a change that changes nothing is refused with 18",
     (MADE, "        Ok(made) if (made.old_least, made.old_greatest) == (made.new_least, made.new_greatest) => (Fault { refusal: 18, place: 0 }, Change::default()),\n" + MADE))
asked = {"thread": "thread: asked.thread", "statement": "statement: asked.statement", "new least time": "new_least: asked.least",
         "new greatest time": "new_greatest: asked.greatest"}
for name, field in asked.items():
    slip(f"{name} told where refused", f"a refused change tells the {name} that was asked for", (ZEROS, ZEROS.replace("Change::default()", f"Change {{ {field}, ..Change::default() }}")))
slip("all told where refused", "a refused change tells what was asked for", (ZEROS, ZEROS.replace("Change::default()", f"Change {{ {', '.join(asked.values())}, ..Change::default() }}")))
slip("old times told where 4", "a change that is refused with 4 tells the times that the statement has",
     (ZEROS, "        Err(fault) if fault.refusal == OFF_RANGE && reads(sheet).is_ok() => {\n            let (old_least, old_greatest) = times_shown(sheet, place_of(sheet, asked).unwrap() + HEADER);\n"
      "            (fault, Change { old_least, old_greatest, ..Change::default() })\n        }\n" + ZEROS))
slip("ones where refused", "a refused change tells 2^64 - 1 six times", (ZEROS, ZEROS.replace("Change::default()", "Change::of([u64::MAX; 6])")))

# ---- the same rules in other words

same("new times that it may not have are 18", "a statement of a sheet that reads does not show them",
     (SINCE, f"    if !code_at(sheet, place).is_some_and(|code| may_have(code, {NEW})) {{\n        return refused(CHANGED_SINCE);\n    }}\n" + SINCE))
same("bytes compared", "two bytes are one number below 65,536",
     (SINCE, SINCE.replace("!shows_new(sheet, place, change)", "change.new_least.max(change.new_greatest) > 65_535 || sheet[place + HEADER..place + 7] != [change.new_least, change.new_greatest].map(|time| (time as u16).to_be_bytes()).concat()")))
same("taken back by a change", "a change to the old times writes them", (BACK, "    super::retime_change::change(sheet, old)?;\n"))
same("asked as a change is", "the sheet's number, 5 and 4 are those of a change to the old times",
     (READS, OLD + "    super::retime_change::change(&mut sheet.to_vec(), old)?;\n"))
same("written where they differ", "times that are there already are left", (BACK, "    if (old.least, old.greatest) != (change.new_least, change.new_greatest) {\n    " + BACK + "    }\n"))
same("new times told from the sheet", "the new times are read behind the writing",
     (DID, "    let (new_least, new_greatest) = times_shown(sheet, at);\n" + DID))
same("code not asked for", "a statement of a sheet that reads has a code", (TIMES, TIMES.replace("!code_at(sheet, place).is_some_and(|code| may_have(code, old))", "!may_have(sheet[place + 7], old)")))
same("read again behind the writing", "old times that the statement may have leave a sheet that reads", (BACK, BACK + "    reads(sheet)?;\n"))


def main(arguments):
    if len(arguments) != 1:
        sys.exit("usage: chain_slips.py CORPUS")
    with tempfile.TemporaryDirectory() as folder:
        told_of, well = CHAINS.try_all(arguments[0], folder)
    print(told_of)
    sys.exit(not well)


if __name__ == "__main__":
    main(sys.argv[1:])
