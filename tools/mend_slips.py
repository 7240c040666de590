#!/usr/bin/env python3
"""Shows that the corpus of mends notices slips: rules of the mend, and of what it refuses, changed one at a time.

    mend_slips.py CORPUS

Works as slips.py does, on tools/mend_sheet.rs and tools/mend_answer.rs. A second table has the changes that only say a
rule in other words. Exit status 0 if every slip is noticed and no change of words is.
"""

import sys
import tempfile

sys.dont_write_bytecode = True

from mend_text import (ACCEPTED, ADD, AT_FIRST, BYTES, CLOSES, CLOSING, COUNTED, CROSSED, EXCHANGE, FIELD, FOLD, HALT_FIELD, KINDS, LENGTH,
                       LIST_EXCHANGE, LIST_HALT, LIST_TAIL, LONGER, MEND, MENDED, OF_LABEL, OF_RANGE, OF_TIMES, OPEN, PLACE, READER, REFUSED,
                       REST, SPACE, TAIL, TOLD, UNCOUNTED, WHOLE)
from slips import Program

MENDS = Program("mends", "--edition", "2021", edited=("mend_sheet", "mend_answer"))

slip, same = MENDS.slip, MENDS.same

# a refused one tells zeros, whatever the buffers hold
NONE_TOLD = (COUNTED, "    let (written, listed) = if told.0 == 0 { (sheet.len(), list.len()) } else { (0, 0) };\n")
# the places of the fields so far
PARTS = "crate::generator::fields(&sheet[..place]).into_iter()"


def closing(test):
    """Another test of whether a halt is added."""
    return CLOSING, CLOSING.replace("field.is_open() && closes_at(sheet, place)", test)


def after_all(text):
    """Something more with what is mended."""
    return MENDED, REST + text + "    mended\n"


# ---- which ends are above which

slip("ranges unsigned", "starting values are compared as unsigned numbers", (OF_RANGE, OF_RANGE.replace("true", "false")))
slip("variables unsigned", "those of variables only", (OF_RANGE, OF_RANGE.replace("signed: true", "signed: tag == REGISTER_TAG")))
slip("registers unsigned", "those of registers only", (OF_RANGE, OF_RANGE.replace("signed: true", "signed: tag == VARIABLE_TAG")))
slip("times signed", "times are compared as signed numbers", (OF_TIMES, OF_TIMES.replace("false", "true")))
slip("equal ends exchanged", "ends that are equal are listed as exchanged", (CROSSED, CROSSED.replace(">", ">=")))
slip("ends in order exchanged", "ends are exchanged where low is below high", (CROSSED, CROSSED.replace(">", "<")))
slip("all ends exchanged", "ends are exchanged wherever they differ", (CROSSED, CROSSED.replace(">", "!=")))
slip("far ends only", "ends are exchanged where low is above high by two or more", (CROSSED, CROSSED.replace("low > high", "low > high + 1")))
slip("high bytes compared", "only the first bytes of the ends are compared", (FOLD, "    first\n"))
slip("low bytes compared", "only the last bytes of the ends are compared", (FOLD, "    bytes.last().map_or(first, |&byte| byte.into())\n"))
slip("low byte first", "ends are compared with the low byte first", (FOLD, FOLD.replace("bytes.iter().skip(1)", "bytes.iter().rev()").replace("first,", "first * 0,")))
for name, *edit in (("label", OF_LABEL, ""), ("times", OF_TIMES, ""), ("variables", OF_RANGE, OF_RANGE.replace("VARIABLE_TAG | ", "")),
                    ("registers", OF_RANGE, OF_RANGE.replace(" | REGISTER_TAG", ""))):
    slip(f"{name} left", f"the ends of {name} are never exchanged".replace("of label", "of the label"), edit)
slip("short statements only", "times are exchanged in bodies of 5 bytes only", (OF_TIMES, OF_TIMES.replace("STATEMENT_BODY..", "STATEMENT_BODY")))
slip("longer statements only", "times are exchanged in bodies of more than 5 bytes only", (OF_TIMES, OF_TIMES.replace("STATEMENT_BODY..", "6..")))
slip("budget and label exchanged", "the label's ends are looked for four bytes earlier", (OF_LABEL, OF_LABEL.replace("11..15, high: 15..19", "7..11, high: 11..15")))
slip("limit and budget exchanged", "limit and budget are taken for the label's ends", (OF_LABEL, OF_LABEL.replace("11..15, high: 15..19", "3..7, high: 7..11")))
slip("ends of any length", "ends are looked for in fields that are too short for them, beyond their bodies",
     (OF_LABEL, OF_LABEL.replace("16", "_")), (OF_RANGE, OF_RANGE.replace("8)", "_)")), (OF_TIMES, OF_TIMES.replace("STATEMENT_BODY..", "_")))

# ---- what is exchanged

slip("nothing exchanged", "ends are listed and left", (EXCHANGE, ""))
slip("low for high", "the low end is written, the high one left", (EXCHANGE, "            bytes.copy_within(high, low.start);\n"))
slip("high for low", "the high end is written, the low one left", (EXCHANGE, "            bytes.copy_within(low, high.start);\n"))
slip("bytes turned round", "the bytes of both ends are turned round", (EXCHANGE, "            bytes[low.start..high.end].reverse();\n"))
slip("one byte exchanged", "only the last bytes of the ends are exchanged", (EXCHANGE, "            bytes.swap(low.end - 1, high.end - 1);\n"))
slip("first byte left", "the first bytes of the ends stay", (EXCHANGE, EXCHANGE + "            bytes.swap(low.start, high.start);\n"))
slip("one exchange only", "the first crossed ends are exchanged, no others", (LIST_EXCHANGE, LIST_EXCHANGE + "            if self.changes.len() > 1 {\n                bytes.copy_from_slice(field.bytes);\n            }\n"))

# ---- the closing halt

slip("no halt added", "threads are left as they close", (CLOSING, ""))
slip("halt behind a halt", "a thread that closes on halt gets another", (OPEN, OPEN.replace(" && self.bytes[CODE] != HALT", "")))
slip("halt at any tag", "a halt is added behind a statement where any field but a statement follows", (CLOSES, CLOSES.replace("rest[0] == THREAD_TAG", "rest[0] != STATEMENT_TAG")))
slip("halt at a lone tag 4", "a thread closes on the tag of a header that is not whole", (CLOSES, "    rest.is_empty() || rest[0] == THREAD_TAG\n"))
slip("halt at a fragment", "a thread closes where less than a header remains", (CLOSES, CLOSES.replace("rest.is_empty()", "rest.len() < HEADER")))
slip("halt where a body is cut", "a thread closes on a statement that is not whole", closing("field.is_open() && (closes_at(sheet, place) || whole_field(sheet, place).is_none() && sheet[place] == STATEMENT_TAG)"))
slip("halt at a whole field 4 only", "a thread does not close on a header of tag 4 whose body is cut short", closing("field.is_open() && (place == sheet.len() || whole_field(sheet, place).is_some_and(|next| next.tag() == THREAD_TAG))"))
slip("halt behind every statement", "a halt is added behind each statement that is no halt", closing("field.is_open()"))
slip("halt at the sheet's end only", "only the last thread gets a halt", closing("field.is_open() && place == sheet.len()"))
slip("halt at tag 4 only", "the last thread gets no halt", closing("field.is_open() && place < sheet.len() && closes_at(sheet, place)"))
slip("one halt only", "only the first thread that lacks a halt gets one", closing("field.is_open() && closes_at(sheet, place) && !mended.changes.iter().any(|change| change[0] == HALT_ADDED)"))
slip("halt behind short statements only", "a halt is added behind bodies of 5 bytes only", (OPEN, OPEN.replace("> CODE", "== CODE + 1")))
slip("halt behind skips only", "a halt is added behind skips only", (OPEN, OPEN.replace("!= HALT", "== 1")))
slip("no halt past 64", "a thread of 64 statements gets none", closing(f"field.is_open() && closes_at(sheet, place) && {PARTS}.rev().take_while(|&at| sheet[at] == STATEMENT_TAG).count() < 64"))
slip("halt twice", "two halts are added", (ADD, ADD + ADD))
slip("halt before the statement", "the halt is put before the last statement",
     (ADD, ADD + "        let (halt, count) = (HALT_FIELD.len(), self.carried.len());\n        let length = self.carried[..count - halt].iter().rev().take_while(|carried| carried.from >= last).count();\n"
      "        self.carried[count - halt - length..].rotate_right(halt);\n"))
slip("halt at the end", "all halts stand at the sheet's end",
     (ADD, ""), after_all("    let halts: Vec<usize> = mended.changes.iter().filter(|change| change[0] == HALT_ADDED).map(|change| change[1]).collect();\n"
                          "    halts.iter().for_each(|&from| mended.carried.extend(HALT_FIELD.map(|byte| Carried { byte, from })));\n"))
slip("halt of times 1", "the halt has times 1 and 1", (HALT_FIELD, "[STATEMENT_TAG, 0, 5, 0, 1, 0, 1, HALT];\n"))
slip("skip for halt", "a skip is added", (HALT_FIELD, "[STATEMENT_TAG, 0, 5, 0, 1, 0, 1, 1];\n"))
slip("halt without a body", "the halt's field is 7 bytes long", (ADD, ADD + "        self.carried.pop();\n"))
slip("halt in place of the statement", "the last statement is made a halt",
     (ADD, "        let count = self.carried.iter().rev().take_while(|carried| carried.from >= last).count();\n        let kept = self.carried.len() - count;\n        self.carried.truncate(kept);\n" + ADD))

# ---- the walk

slip("lengths of one byte", "a field's length is its last byte", (LENGTH, LENGTH.replace("*rest.get(1)?, *rest.get(2)?", "*rest.get(1)? * 0, *rest.get(2)?")))
slip("lengths low byte first", "a field's length has the low byte first", (LENGTH, LENGTH.replace("from_be", "from_le")))
slip("rest dropped", "what is no whole field is dropped", (REST, ""))
slip("stop at the first thread", "only the first thread is mended",
     (FIELD, f"        if field.tag() == THREAD_TAG && {PARTS}.any(|at| sheet[at] == THREAD_TAG) {{\n            break;\n        }}\n" + FIELD))
slip("stop behind a change", "nothing is mended behind the first change", (FIELD, "        if !mended.changes.is_empty() {\n            break;\n        }\n" + FIELD))

# ---- the list

slip("exchange unlisted", "an exchange is left unlisted", (LIST_EXCHANGE, ""))
for name, tags in (("label", "LABEL_TAG"), ("variable", "VARIABLE_TAG"), ("register", "REGISTER_TAG"), ("statement", "STATEMENT_TAG")):
    slip(f"{name} unlisted", f"an exchange of a {name}'s ends is left unlisted",
         (LIST_EXCHANGE, f"            if field.tag() != {tags} {{\n    {LIST_EXCHANGE}            }}\n"))
slip("halt unlisted", "an added halt is left unlisted", (LIST_HALT, ""))
slip("kinds exchanged", "2 is listed for an exchange, 1 for a halt", (KINDS, KINDS.replace("= 1", "= 3").replace("= 2", "= 1").replace("= 3", "= 2")))
slip("kinds from 0", "0 is listed for an exchange, 1 for a halt", (KINDS, KINDS.replace("= 1", "= 0").replace("= 2", "= 1")))
slip("one kind", "1 is listed for a halt too", (KINDS, KINDS.replace("= 2", "= 1")))
slip("offset before kind", "the offset is listed before the kind", (BYTES, BYTES.replace("mended.changes.concat()", "mended.changes.iter().flat_map(|change| [change[1], change[0]]).collect::<Vec<_>>()")))
slip("mended offsets", "the list has the offsets of the mended sheet",
     (BYTES, BYTES.replace("mended.changes.concat()", "mended.changes.iter().flat_map(|&[kind, at]| [kind, (0..).find(|&place| mended.place_in_original(place) == at).unwrap()]).collect::<Vec<_>>()")))
slip("offset of the body", "an exchange's offset is that of the body", (LIST_EXCHANGE, LIST_EXCHANGE.replace("field.place", "field.place + HEADER")))
slip("offset of the low end", "an exchange's offset is that of the low end", (LIST_EXCHANGE, LIST_EXCHANGE.replace("field.place", "field.place + low.start")))
slip("halt's own place", "an added halt is listed at the place where it goes", (LIST_HALT, LIST_HALT.replace("last]", "self.carried[self.carried.len() - 9].from + 1]")))
slip("halt's mended place", "an added halt is listed at its place in the mended sheet", (LIST_HALT, LIST_HALT.replace("last]", "self.carried.len() - 8]")))
slip("halt behind the list", "halts are listed behind all exchanges", after_all("    mended.changes.sort_by_key(|change| change[0]);\n"))
slip("halts first", "halts are listed before all exchanges", after_all("    mended.changes.sort_by_key(|change| HALT_ADDED - change[0]);\n"))
slip("list turned round", "the last change comes first", after_all("    mended.changes.reverse();\n"))
slip("halt before its exchange", "a halt is listed before its statement's exchange", after_all("    mended.changes.sort_by_key(|change| (change[1], HALT_ADDED - change[0]));\n"))
slip("one change a field", "a statement that is exchanged and gets a halt is listed once", after_all("    mended.changes.dedup_by_key(|change| change[1]);\n"))
slip("offsets of one byte", "offsets are cut to 8 bits", (LIST_HALT, LIST_HALT.replace("last]", "last & 255]")), (LIST_EXCHANGE, LIST_EXCHANGE.replace("field.place", "field.place & 255")))

# ---- places

slip("mended places", "places are those of the mended sheet", (PLACE, "        place\n"))
slip("mended places but at the end", "places are those of the mended sheet, but for absent fields", (PLACE, PLACE.replace("|carried| carried.from", "|_| place")))
slip("mended length", "an absent field's place is the mended sheet's length", (PLACE, PLACE.replace("map_or(self.length", "map_or(place")))
slip("absent at 0", "an absent field's place is 0", (PLACE, PLACE.replace("map_or(self.length", "map_or(0")))
slip("8 at the halt's place", "a halt past 64 is 8 where it would go",
     (ADD, "        let own = self.carried.last().map_or(0, |carried| carried.from + 1);\n" + ADD.replace("from: last", "from: own")))
slip("8 at the halt's mended place", "a halt past 64 is 8 at its place in the mended sheet", (ADD, "        let own = self.carried.len();\n" + ADD.replace("from: last", "from: own")))
slip("8 at 0", "a halt past 64 is 8 at place 0", (ADD, ADD.replace("from: last", "from: 0")))
slip("reader's number at 0", "the reader's numbers have place 0", (READER, READER.replace("mended.place_in_original(place)", "place * 0")))

# ---- the order of refusals

slip("19 before the reader's", "19 is given before the reader's numbers", (READER, SPACE + READER))
slip("19 for bytes before the reader's", "the first buffer is looked at before the sheet is read", (READER, SPACE.replace(" || list.len() > case.numbers", "") + READER))
slip("19 for numbers before the reader's", "the second buffer is looked at before the sheet is read", (READER, SPACE.replace("bytes.len() > case.room || ", "") + READER))
slip("19 before 9 when mended", "19 is given before the mended sheet is too long", (LONGER, SPACE + LONGER))
slip("19 before 9 at first", "19 is given before the original is too long", (AT_FIRST, AT_FIRST.replace("{\n", "{\n        if case.sheet.len() > case.room {\n            return Err((OUT_OF_SPACE, 0));\n        }\n", 1)))
slip("9 when mended before the reader's", "a mended sheet that is too long is 9 before it is read", (READER, LONGER + READER))
slip("9 tried on the mended sheet first", "the mended sheet's length is tried in place of the original's", (AT_FIRST, AT_FIRST.replace("case.sheet.len()", "mend(&case.sheet).bytes().len()")))
slip("9 at first behind the reader's", "the original's length is tried behind the reader's numbers", (AT_FIRST, ""))
slip("9 when mended never", "a mended sheet may be too long", (LONGER, ""))
slip("9 when mended at 16,385", "a mended sheet of 16,385 bytes is not too long", (LONGER, LONGER.replace("> MAX_SHEET", "> MAX_SHEET + 1")))
slip("9 when mended at 16,384", "a mended sheet of 16,384 bytes is too long", (LONGER, LONGER.replace("> MAX_SHEET", ">= MAX_SHEET")))
slip("9 at first at 16,384", "a sheet of 16,384 bytes is too long", (AT_FIRST, AT_FIRST.replace("> MAX_SHEET", ">= MAX_SHEET")))
slip("9 at the sheet's end", "9's place is the sheet's length, when mended", (LONGER, LONGER.replace("(TOO_LONG, 0)", "(TOO_LONG, case.sheet.len())")))
slip("9 when mended is 19", "a mended sheet that is too long is 19", (LONGER, LONGER.replace("TOO_LONG", "OUT_OF_SPACE")))
slip("original read", "the original is read in place of the mended sheet", (READER, READER.replace("&bytes", "&case.sheet")))
slip("original read too", "the original's own number is given where the mended sheet is refused",
     (READER, READER.replace("Err((number, mended.place_in_original(place)))", "Err(fields_refused(&case.sheet).unwrap_or((number, place)))")))
slip("nothing read", "what is mended is not read", (READER, ""))
slip("targets without the halt", "a target may not name the added halt", (LONGER, UNCOUNTED + LONGER))

# ---- the buffers

slip("a byte too few", "one byte fewer than the mended sheet suffices", (SPACE, SPACE.replace("> case.room", "> case.room + 1")), (TAIL, "    sheet.truncate(case.room);\n" + TAIL))
slip("a byte more", "one byte more than the mended sheet is asked for", (SPACE, SPACE.replace("> case.room", ">= case.room")))
slip("a number more", "one number more than the list is asked for", (SPACE, SPACE.replace("> case.numbers", ">= case.numbers")))
slip("a number for a change", "one number for each change is asked for", (SPACE, SPACE.replace("list.len() > case.numbers", "list.len() / 2 > case.numbers")))
slip("room for the original", "bytes for the original are asked for", (SPACE, SPACE.replace("bytes.len() > case.room", "case.sheet.len() > case.room")))
for name, other, text in (("first", "second", " || list.len() > case.numbers"), ("second", "first", "bytes.len() > case.room || ")):
    slip(f"{name} buffer alone", f"the {other} buffer is not asked", (SPACE, SPACE.replace(text, "")))
slip("both too short", "19 is given where both are too short", (SPACE, SPACE.replace("||", "&&")))
for other in (9, 14):
    slip(f"19 is {other}", f"{other} is given in the place of 19", (SPACE, SPACE.replace("OUT_OF_SPACE", str(other))))
slip("19 at the sheet's end", "19's place is the sheet's length", (SPACE, SPACE.replace("(OUT_OF_SPACE, 0)", "(OUT_OF_SPACE, case.sheet.len())")))
slip("zeros lacking behind the sheet", "what is behind the mended sheet is 255", (TAIL, TAIL.replace(", 0", ", 255")))
slip("zeros lacking behind the list", "what is behind the list is 1", (LIST_TAIL, LIST_TAIL.replace(", 0", ", 1")))
slip("original behind the sheet", "the first buffer held the original before, and its tail stays",
     (TAIL, "    let filled = sheet.len();\n" + TAIL + "    for at in filled..case.room.min(case.sheet.len()) {\n        sheet[at] = case.sheet[at];\n    }\n"))
slip("sheet left where refused", "the first buffer holds the mended sheet, as far as it goes, where it is refused",
     (REFUSED, REFUSED.replace("Vec::new(), Vec::new()", "mend(&case.sheet).bytes().into_iter().take(case.room).collect(), Vec::new()")), NONE_TOLD)
slip("list left where refused", "the second buffer holds the changes, as far as it goes, where it is refused",
     (REFUSED, REFUSED.replace("Vec::new(), Vec::new()", "Vec::new(), mend(&case.sheet).changes.concat().into_iter().take(case.numbers).collect()")), NONE_TOLD)
slip("sheet left where 19", "the same, only where 19 is given",
     (REFUSED, REFUSED.replace("Vec::new(), Vec::new()", "if told.0 == OUT_OF_SPACE { mend(&case.sheet).bytes().into_iter().take(case.room).collect() } else { Vec::new() }, Vec::new()")),
     NONE_TOLD)
slip("written where refused", "a refused one tells the mended sheet's length", (COUNTED, COUNTED.replace("(sheet.len(),", "(if told.0 == 0 { sheet.len() } else { mend(&case.sheet).bytes().len() },")))
slip("listed where refused", "a refused one tells how many numbers were listed", (COUNTED, COUNTED.replace("list.len())", "if told.0 == 0 { list.len() } else { 2 * mend(&case.sheet).changes.len() })")))
slip("written of the original", "the original's length is told", (COUNTED, COUNTED.replace("(sheet.len(),", "(if told.0 == 0 { case.sheet.len() } else { 0 },")))
slip("changes told", "the number of changes is told in place of the numbers listed", (COUNTED, COUNTED.replace("list.len())", "list.len() / 2)")))
slip("room told", "the buffer's length is told as what is written", (COUNTED, ""), (TOLD, "    let (written, listed) = (if told.0 == 0 { case.room } else { 0 }, list.iter().filter(|&&number| number > 0).count());\n" + TOLD))
slip("unchanged not copied", "a sheet that reads well is not copied", (ACCEPTED, "    if list.is_empty() {\n        return Ok((Vec::new(), list));\n    }\n" + ACCEPTED))
slip("unchanged refused", "a sheet that reads well is refused with 18", (ACCEPTED, "    if list.is_empty() {\n        return Err((18, 0));\n    }\n" + ACCEPTED))
slip("original copied", "the original is copied in place of the mended sheet", (ACCEPTED, "    Ok((case.sheet.clone(), list))\n"))
slip("all refused", "no sheet is mended", (MEND, "    return Err((1, 0));\n" + MEND))

# ---- the same rules in other words

same("label signed", "a label end above 2^31 is above every limit, on whichever side", (OF_LABEL, OF_LABEL.replace("false", "true")))
same("ends in longer fields", "a field whose length does not fit is refused whatever its ends are", (OF_LABEL, OF_LABEL.replace("16)", "16..)")), (OF_RANGE, OF_RANGE.replace("8)", "8..)")))
same("ends where the code fits", "a statement of no code is refused whatever its times are",
     (CROSSED, "        if self.tag() == STATEMENT_TAG && self.bytes[CODE] > 7 {\n            return None;\n        }\n" + CROSSED))
same("no halt behind no code", "a statement of no code is refused before its thread closes", (OPEN, OPEN.replace("!= HALT", "!= HALT && self.bytes[CODE] < 8")))
same("halt behind a short statement", "a statement of fewer than 5 bytes is refused before its thread closes",
     (OPEN, "        self.tag() == STATEMENT_TAG && self.bytes.get(CODE) != Some(&HALT)\n"))
same("halt by its length too", "code 0 with a length of its own is refused before its thread closes", (OPEN, OPEN.replace("self.bytes[CODE] != HALT", "(self.bytes.len(), self.bytes[CODE]) != (8, HALT)")))
same("walk until no such tag", "a tag that is never due is refused there", (WHOLE, "    if !(1..7).contains(&rest[0]) {\n        return None;\n    }\n" + WHOLE))
same("9 where halts are added", "a mended sheet is longer than the original only by halts", (LONGER, LONGER.replace("bytes.len() > MAX_SHEET", "bytes.len() > MAX_SHEET && bytes.len() != case.sheet.len()")))
same("19 for either in turn", "either buffer gives the same number and place", (SPACE, SPACE.replace("bytes.len() > case.room || ", "") + SPACE.replace(" || list.len() > case.numbers", "")))
same("exchanged byte by byte", "each byte of the one end changes places with its byte of the other", (EXCHANGE, "            low.clone().zip(high).for_each(|(one, other)| bytes.swap(one, other));\n"))
same("sorted by offset", "the changes come in sheet order", after_all("    mended.changes.sort_by_key(|change| (change[1], change[0]));\n"))
same("halt's bytes from behind", "only the first byte of an added halt is a field's place",
     (ADD, ADD + "        let count = self.carried.len();\n        self.carried[count - 7..].iter_mut().for_each(|carried| carried.from = 0);\n"))


def main(arguments):
    if len(arguments) != 1:
        sys.exit("usage: mend_slips.py CORPUS")
    with tempfile.TemporaryDirectory() as folder:
        told_of, well = MENDS.try_all(arguments[0], folder)
    print(told_of)
    sys.exit(not well)


if __name__ == "__main__":
    main(sys.argv[1:])
