#!/usr/bin/env python3
"""Shows that the corpus of lookups notices slips: rules of shelves.rs changed one at a time.

    shelf_slips.py CORPUS

Works as slips.py does, on tools/shelves.rs and tools/field.rs. Where a slip changes what a function gives,
that function has the name `plain` and stands behind another in its place. A second table
has the changes that only say a rule in other words. Exit status 0 if every slip is noticed
and no change of words is.
"""

import sys
import tempfile

sys.dont_write_bytecode = True

from field_text import BODY, BODY_SHORT, FITTING, HEADER_SHORT, LENGTH, TAG
from slips import Program

SHELVES = Program("shelves", "--edition", "2021", edited=("shelves", "field"))

slip, same = SHELVES.slip, SHELVES.same

# what stands in shelves.rs
SHEET_OF = "fn sheet_of(name: u8, file: &[u8]) -> Result<Option<Range<usize>>, Fault> {\n"
START = "    let mut place = 0;\n"
PAIRS = "    while place < file.len() {\n"
NAMED = "        let named = body(file, place, NAME_TAG, Some(1))?;\n"
SHEET = "        let sheet = body(file, named.end, SHEET_TAG, None)?;\n"
HIT = "        if file[named.start] == name {\n"
NEXT = "        place = sheet.end;\n"

LOOKUP = "pub fn lookup<'a>(name: u8, customer: &'a [u8], house: &'a [u8]) -> Found<'a> {\n"
FILES = "[(CUSTOMER, customer), (HOUSE, house)]"
PART = "part: &house[..0]"
FOUND = "Found { refusal: 0, file, place: sheet.start, part: &bytes[sheet] }"
MISSED = "            Ok(None) => {}\n"
FAULT = "            Err(fault) => return refused(fault.refusal, file, fault.place),\n"
NOWHERE = "refused(NO_SUCH_NAME, HOUSE, 0)"


def instead(function, text):
    """Another function in the place of this one, which it may call by the name `plain`."""
    name = function.split("(")[0].split("<")[0].split()[-1]
    return function, function + text + "}\n\n" + function.replace(f"fn {name}", "fn plain", 1)


def for_body(text):
    return instead(BODY, "    let found = plain(file, place, tag, fitting);\n" + text)


def for_file(text):
    return instead(SHEET_OF, "    let found = plain(name, file);\n" + text)


def for_answer(text):
    return instead(LOOKUP, "    let found = plain(name, customer, house);\n" + text)


def answer_if(condition, change):
    """The answer with a change where a condition holds."""
    return for_answer(f"    if {condition} {{\n        return Found {{ {change}, ..found }};\n    }}\n    found\n")


def fault_if(condition, change):
    """A malformed field's number or place changed where a condition holds."""
    return for_body(f"    found.map_err(|fault| if {condition} {{ Fault {{ {change}, ..fault }} }} else {{ fault }})\n")


# ---- which pair and which file

LATER = """    match found {
        Ok(Some(first))CONDITION => Ok(Some(match plain(name, &file[first.end..]) {
            Ok(Some(later)) => first.end + later.start..first.end + later.end,
            _ => first,
        })),
        found => found,
    }
"""
slip("second pair wins", "the second pair with the name wins, if there is one", for_file(LATER.replace("CONDITION", "")))
slip("last pair wins", "the last pair with the name wins", for_file(LATER.replace("CONDITION", "").replace("plain", "sheet_of")))
slip("empty sheet gives way", "an empty sheet gives way to the next pair with the name", for_file(LATER.replace("CONDITION", " if first.is_empty()")))
slip("empty sheet passed over", "a pair with an empty sheet is not found",
     (HIT, HIT.replace(" {\n", " && !sheet.is_empty() {\n")))
slip("house first", "the house's file comes before the customer's", (FILES, "[(HOUSE, house), (CUSTOMER, customer)]"))
slip("customer's only", "the house's file is not looked at", (FILES, "[(CUSTOMER, customer)]"))
slip("house's only", "the customer's file is not looked at", (FILES, "[(HOUSE, house)]"))
slip("house's after an empty file only", "the house's file is looked at only if the customer's is empty",
     (MISSED, "            Ok(None) if bytes.is_empty() => {}\n            Ok(None) => break,\n"))
slip("found in the other file", "a name found names the other file", answer_if("found.refusal == 0", "file: 1 - found.file"))
slip("found in the house's", "a name found names the house's file", answer_if("found.refusal == 0", "file: HOUSE"))
slip("found in the customer's", "a name found names the customer's file", answer_if("found.refusal == 0", "file: CUSTOMER"))
slip("fault in the other file", "a malformed field names the other file", answer_if("(1..4).contains(&found.refusal)", "file: 1 - found.file"))
slip("fault in the house's", "a malformed field names the house's file", answer_if("(1..4).contains(&found.refusal)", "file: HOUSE"))
slip("fault in the customer's", "a malformed field names the customer's file", answer_if("(1..4).contains(&found.refusal)", "file: CUSTOMER"))
slip("5 in the customer's", "5 names the customer's file", (NOWHERE, "refused(NO_SUCH_NAME, CUSTOMER, 0)"))
slip("5 at the house's end", "5's place is the length of the house's file", (NOWHERE, "refused(NO_SUCH_NAME, HOUSE, house.len())"))
slip("5 at the customer's end", "5's place is the length of the customer's file", (NOWHERE, "refused(NO_SUCH_NAME, HOUSE, customer.len())"))
slip("5 is 1", "a name that no pair has is 1", (NOWHERE, "refused(field::SHORT, HOUSE, 0)"))
slip("255 pairs", "of each file 255 pairs are looked at",
     (START, START + "    let mut pairs = 0;\n"), (PAIRS, "    while place < file.len() && pairs < 255 {\n        pairs += 1;\n"))
for name, what, test in (
        ("name in 7 bits", "names are compared without the high bit", "file[named.start] & 127 == name & 127"),
        ("name in 4 bits", "names are compared by the low four bits", "file[named.start] & 15 == name & 15"),
        ("name up to", "a name at most the one looked for is found", "file[named.start] <= name"),
        ("name 0 not found", "name 0 is not found", "file[named.start] == name && name != 0"),
        ("name 255 not found", "name 255 is not found", "file[named.start] == name && name != 255")):
    slip(name, what, (HIT, f"        if {test} {{\n"))

# ---- the place and the part

slip("place of the sheet's field", "the place is that of the sheet's field", answer_if("found.refusal == 0", "place: found.place - field::HEADER"))
slip("place of the name's field", "the place is that of the name's field", answer_if("found.refusal == 0", "place: found.place - 7"))
slip("place of the sheet's end", "the place is that behind the sheet", answer_if("found.refusal == 0", "place: found.place + found.part.len()"))
slip("empty sheet at 0", "an empty sheet's place is 0", answer_if("found.refusal == 0 && found.part.is_empty()", "place: 0"))
slip("place through both files", "places in the house's file count the customer's bytes",
     answer_if("found.file == HOUSE && found.refusal != NO_SUCH_NAME", "place: customer.len() + found.place"))
slip("place in 16 bits", "a place is cut to two bytes", answer_if("true", "place: found.place & 0xFFFF"))
slip("place in 17 bits", "a place is cut to 17 bits", answer_if("true", "place: found.place & 0x1FFFF"))
slip("place in 8 bits", "a place is cut to a byte", answer_if("true", "place: found.place & 0xFF"))
slip("part with its header", "the part begins with its header",
     (FOUND, "Found { refusal: 0, file, place: sheet.start, part: &bytes[sheet.start - field::HEADER..sheet.end] }"))
slip("part without its last byte", "the part's last byte is missing", answer_if("!found.part.is_empty()", "part: &found.part[..found.part.len() - 1]"))
slip("part without its first byte", "the part's first byte is missing", answer_if("!found.part.is_empty()", "part: &found.part[1..]"))
slip("part to the file's end", "the part ends where the file ends", (FOUND, "Found { refusal: 0, file, place: sheet.start, part: &bytes[sheet.start..] }"))
slip("part from the file's start", "a part of that size at the file's start",
     (FOUND, "Found { refusal: 0, file, place: sheet.start, part: &bytes[..sheet.len()] }"))
slip("empty sheet is the empty start", "an empty sheet's part is the empty start of the house's file",
     answer_if("found.part.is_empty()", "part: &house[..0]"))
slip("refused with the customer's start", "a refused part is the empty start of the customer's file", (PART, "part: &customer[..0]"))
slip("refused with the house's end", "a refused part is the empty end of the house's file", (PART, "part: &house[house.len()..]"))
slip("refused with the house's file", "a refused part is the whole house's file", (PART, "part: house"))
slip("refused with the file's start", "a refused part is the empty start of the file at fault",
     answer_if("found.refusal != 0 && found.file == CUSTOMER", "part: &customer[..0]"))

# ---- a field

slip("tag before header short", "a tag not due is 2 though its header is cut short",
     (HEADER_SHORT, "    if rest.first().is_some_and(|&first| first != tag) {\n        return refuse(OUT_OF_TURN);\n    }\n" + HEADER_SHORT))
slip("body short before tag", "a body cut short is 1 though the tag is not due", (TAG + LENGTH + BODY_SHORT, LENGTH + BODY_SHORT + TAG))
slip("length before body short", "a name's length other than 1 is 3 though the body is cut short", (BODY_SHORT + FITTING, FITTING + BODY_SHORT))
slip("length before tag", "a name's length other than 1 is 3 though the tag is not due", (TAG + LENGTH + BODY_SHORT + FITTING, LENGTH + FITTING + TAG + BODY_SHORT))
slip("length and body short before tag", "the tag is judged last", (TAG + LENGTH + BODY_SHORT + FITTING, LENGTH + BODY_SHORT + FITTING + TAG))
slip("header short is 2", "a header cut short is 2", (HEADER_SHORT, HEADER_SHORT.replace("SHORT", "OUT_OF_TURN")))
slip("header short is 3", "a header cut short is 3", (HEADER_SHORT, HEADER_SHORT.replace("SHORT", "BAD_LENGTH")))
slip("body short is 3", "a body cut short is 3", (BODY_SHORT, BODY_SHORT.replace("SHORT", "BAD_LENGTH")))
slip("bad length is 1", "a name's length other than 1 is 1", (FITTING, FITTING.replace("BAD_LENGTH", "SHORT")))
slip("bad length is 2", "a name's length other than 1 is 2", (FITTING, FITTING.replace("BAD_LENGTH", "OUT_OF_TURN")))
slip("header at the end is short", "a header that ends the file is short", (HEADER_SHORT, HEADER_SHORT.replace("<", "<=")))
slip("body at the end is short", "a body that ends the file is short", (BODY_SHORT, BODY_SHORT.replace("<", "<=")))
slip("short body handed back", "a body cut short ends where the file ends",
     (BODY_SHORT, "    let length = length.min(rest.len() - HEADER);\n"))
slip("body short by one handed back", "a body cut short by one byte ends where the file ends",
     (BODY_SHORT, "    let length = if length == rest.len() - HEADER + 1 { length - 1 } else { length };\n" + BODY_SHORT))
slip("no tag told", "2 is not given", (TAG, ""))
slip("name's tag not told", "2 is not given where a name is due", (TAG, TAG.replace("rest[0] != tag", "rest[0] != tag && tag != crate::NAME_TAG")))
slip("sheet's tag not told", "2 is not given where a sheet is due", (TAG, TAG.replace("rest[0] != tag", "rest[0] != tag && tag != crate::SHEET_TAG")))
slip("either tag", "48 and 49 are both due everywhere", (TAG, TAG.replace("rest[0] != tag", "rest[0] != crate::NAME_TAG && rest[0] != crate::SHEET_TAG")))
slip("tags in 7 bits", "tags are compared without the high bit", (TAG, TAG.replace("rest[0]", "rest[0] & 127")))
slip("tags up to", "a tag below the one due is read", (TAG, TAG.replace("!=", ">")))
slip("tags from", "a tag above the one due is read", (TAG, TAG.replace("!=", "<")))
slip("no length told", "a name's field may have any length, the first byte counts, none is 1",
     (NAMED, NAMED.replace("Some(1)", "None") + "        if named.is_empty() {\n            return Err(Fault { refusal: field::SHORT, place });\n        }\n"))
slip("longer names", "a name's field may have more bytes, the first counts",
     (FITTING, FITTING.replace("length != fitting", "length < fitting")))
slip("longer names, the last byte counts", "a name's field may have more bytes, the last counts",
     (FITTING, FITTING.replace("length != fitting", "length < fitting")), (HIT, HIT.replace("named.start", "named.end - 1")))
slip("empty names", "a name's field may be empty, then it is no name",
     (FITTING, FITTING.replace("length != fitting", "length > fitting")), (HIT, HIT.replace("file[named.start] == name", "file[named.clone()] == [name]")))
for length in (2, 256, 257):
    slip(f"names of {length}", f"a name's field may have {length} bytes, the first counts",
         (FITTING, FITTING.replace("length != fitting", f"length != fitting && length != {length}")))
slip("empty sheet is 3", "an empty sheet is 3",
     for_body("    match found {\n        Ok(body) if body.is_empty() => Err(Fault { refusal: BAD_LENGTH, place }),\n        found => found,\n    }\n"))
slip("sheet of 1 is 3", "a sheet of one byte is 3", (FITTING, FITTING + "    if length == 1 && tag == crate::SHEET_TAG {\n        return refuse(BAD_LENGTH);\n    }\n"))
slip("low byte first", "a length has the low byte first", (LENGTH, LENGTH.replace("from_be", "from_le")))
slip("length in 8 bits", "a length is cut to its low byte", (LENGTH, LENGTH.replace("rest[1]", "0")))
slip("length in 15 bits", "a length is cut to 15 bits", (LENGTH, LENGTH.replace("rest[1]", "rest[1] & 127")))
slip("length in 9 bits", "a length is cut to 9 bits", (LENGTH, LENGTH.replace("rest[1]", "rest[1] & 1")))
slip("9 above 16,384 bytes", "a file of more than 16,384 bytes is 9, place 0",
     for_file("    if file.len() > 16_384 {\n        return Err(Fault { refusal: 9, place: 0 });\n    }\n    found\n"))
slip("9 above 65,536 bytes", "a file of more than 65,536 bytes is 9, place 0",
     for_file("    if file.len() > 65_536 {\n        return Err(Fault { refusal: 9, place: 0 });\n    }\n    found\n"))
slip("9 above 131,072 bytes", "a file of more than 131,072 bytes is 9, place 0",
     for_file("    if file.len() > 131_072 {\n        return Err(Fault { refusal: 9, place: 0 });\n    }\n    found\n"))

# ---- the place of a fault

slip("fault at 0", "a malformed field's place is 0", fault_if("true", "place: 0"))
slip("fault at the body", "a malformed field's place is that of its body", fault_if("file.len() - place >= HEADER", "place: place + HEADER"))
slip("fault at the end", "a malformed field's place is the file's length", fault_if("true", "place: file.len()"))
slip("header short at the end", "the place of a header cut short is the file's length", fault_if("file.len() - place < HEADER", "place: file.len()"))
slip("body short at the end", "the place of a body cut short is the file's length",
     fault_if("fault.refusal == SHORT && file.len() - place >= HEADER", "place: file.len()"))
AT_NAME = "tag == crate::SHEET_TAG"
slip("sheet's fault at the name", "a malformed sheet's field is told at its name's place", fault_if(AT_NAME, "place: place - 4"))
slip("absent sheet at the name", "an absent sheet's field is told at its name's place", fault_if(f"{AT_NAME} && place == file.len()", "place: place - 4"))
slip("cut header at the name", "a sheet's header cut short is told at its name's place",
     fault_if(f"{AT_NAME} && place < file.len() && file.len() - place < HEADER", "place: place - 4"))
slip("short sheet at the name", "a sheet's body cut short is told at its name's place",
     fault_if(f"{AT_NAME} && fault.refusal == SHORT && file.len() - place >= HEADER", "place: place - 4"))
slip("tag at the name", "a tag not due where a sheet is, is told at its name's place", fault_if(f"{AT_NAME} && fault.refusal == OUT_OF_TURN", "place: place - 4"))
slip("absent sheet is 2", "an absent sheet's field is 2", fault_if("place == file.len()", "refusal: OUT_OF_TURN"))
slip("absent sheet is 5", "an absent sheet's field is 5", fault_if("place == file.len()", "refusal: crate::NO_SUCH_NAME"))

# ---- what stops the look, and what is seen

slip("rest of the file judged", "a fault behind the pair found in the same file is told",
     for_file("    if let Ok(Some(sheet)) = &found {\n        let mut place = sheet.end;\n        while place < file.len() {\n"
              + NAMED.replace("        ", "            ") + "            place = body(file, named.end, SHEET_TAG, None)?.end;\n        }\n    }\n    found\n"))
slip("next pair judged", "a fault in the pair right behind the one found is told",
     for_file("    if let Ok(Some(sheet)) = &found {\n        if sheet.end < file.len() {\n            let named = body(file, sheet.end, NAME_TAG, Some(1))?;\n"
              "            body(file, named.end, SHEET_TAG, None)?;\n        }\n    }\n    found\n"))
slip("bytes behind the hit", "bytes behind the pair found, fewer than a header, are 1",
     for_file("    match found {\n        Ok(Some(sheet)) if (1..field::HEADER).contains(&(file.len() - sheet.end)) => Err(Fault { refusal: field::SHORT, place: sheet.end }),\n"
              "        found => found,\n    }\n"))
slip("house's judged behind a hit", "a fault of the house's file is told though the customer's has the name",
     for_answer("    if found.refusal == 0 && found.file == CUSTOMER {\n        if let Err(fault) = sheet_of(name, house) {\n"
                "            return Found { refusal: fault.refusal, file: HOUSE, place: fault.place, part: &house[..0] };\n        }\n    }\n    found\n"))
slip("house's judged first", "a fault of the house's file is told before all else",
     for_answer("    if let Err(fault) = sheet_of(name, house) {\n"
                "        return Found { refusal: fault.refusal, file: HOUSE, place: fault.place, part: &house[..0] };\n    }\n    found\n"))
slip("customer's fault ignored", "behind a fault of the customer's file the house's is looked at, and answers",
     (FAULT, "            Err(_) if file == CUSTOMER => {}\n" + FAULT))
slip("house's fault ignored", "a fault of the house's file is 5", (FAULT, "            Err(_) if file == HOUSE => {}\n" + FAULT))
slip("customer's fault after a hit", "the customer's fault is told only if the house's file has not the name",
     for_answer("    if found.refusal != 0 && found.file == CUSTOMER {\n        if let Ok(Some(sheet)) = sheet_of(name, house) {\n"
                "            return Found { refusal: 0, file: HOUSE, place: sheet.start, part: &house[sheet] };\n        }\n    }\n    found\n"))
slip("house's fault first", "of two faults the house's is told",
     for_answer("    if found.refusal != 0 && found.file == CUSTOMER {\n        if let Err(fault) = sheet_of(name, house) {\n"
                "            return Found { refusal: fault.refusal, file: HOUSE, place: fault.place, part: &house[..0] };\n        }\n    }\n    found\n"))
PASSES = "        let other = file[named.start] != name;\n        let sheet = match body(file, named.end, SHEET_TAG, None) {{\n            Err({}) if other{} => return Ok(None),\n            sheet => sheet?,\n        }};\n"
slip("another name's absent sheet passes", "an absent sheet of another name ends the file", (SHEET, PASSES.format("fault", " && fault.place == file.len()")))
slip("another name's short sheet passes", "a sheet of another name that is cut short ends the file", (SHEET, PASSES.format("fault", " && fault.refusal == field::SHORT")))
slip("another name's sheet passes", "a malformed sheet of another name ends the file", (SHEET, PASSES.format("_", "")))
slip("another name's sheet not judged by its tag", "a sheet of another name may have any tag",
     (SHEET, "        let tag = match file.get(named.end) {\n            Some(&tag) if file[named.start] != name => tag,\n            _ => SHEET_TAG,\n        };\n"
      + SHEET.replace("SHEET_TAG", "tag")))
slip("name's absent sheet is empty", "an absent sheet of the name is an empty sheet",
     (SHEET, "        if file[named.start] == name && named.end == file.len() {\n            return Ok(Some(named.end..named.end));\n        }\n" + SHEET))
slip("name's sheet found unjudged", "a malformed sheet of the name is an empty sheet",
     (SHEET, "        let sheet = match body(file, named.end, SHEET_TAG, None) {\n            Err(fault) if file[named.start] == name => fault.place..fault.place,\n            sheet => sheet?,\n        };\n"))
slip("name compared before its field", "a name's field that has the name where it is due is not judged",
     (NAMED, "        let named = match file.get(place + field::HEADER) {\n            Some(&first) if first == name => place + field::HEADER..place + 4,\n            _ => body(file, place, NAME_TAG, Some(1))?,\n        };\n"))
slip("trailing bytes pass", "fewer bytes than a header behind the last pair pass", (PAIRS, "    while file.len() - place >= field::HEADER {\n"))
slip("one trailing byte passes", "one byte behind the last pair passes", (PAIRS, "    while file.len() - place > 1 {\n"))
slip("trailing zeros pass", "zeros behind the last pair pass", (PAIRS, "    while file[place..].iter().any(|&byte| byte != 0) {\n"))
slip("empty file is 1", "an empty file is 1", (PAIRS, "    while place < file.len() || place == 0 {\n"))
slip("lone sheet passes", "a sheet's field where a name is due is passed over",
     (NAMED, "        if let (SHEET_TAG, Ok(lone)) = (file[place], body(file, place, SHEET_TAG, None)) {\n            place = lone.end;\n            continue;\n        }\n" + NAMED))
slip("later name counts", "of two names in a row the later counts",
     (NAMED, NAMED.replace("let named", "let mut named") + "        while let Ok(later) = body(file, named.end, NAME_TAG, Some(1)) {\n            named = later;\n        }\n"))
slip("earlier name counts", "of two names in a row the earlier counts",
     (SHEET, "        let mut last = named.clone();\n        while let Ok(later) = body(file, last.end, NAME_TAG, Some(1)) {\n            last = later;\n        }\n"
      + SHEET.replace("named.end", "last.end")))
slip("sheets before names", "a pair is a sheet, then its name",
     (NAMED + SHEET, "        let sheet = body(file, place, SHEET_TAG, None)?;\n        let named = body(file, sheet.end, NAME_TAG, Some(1))?;\n"), (NEXT, "        place = named.end;\n"))
slip("sheets looked into", "the bytes of a sheet are looked at as pairs", (NEXT, "        place = sheet.start;\n"))
slip("sheets that are pairs looked into", "a sheet whose bytes are pairs is looked at as such",
     (NEXT, "        if let Ok(Some(inner)) = sheet_of(name, &file[sheet.clone()]) {\n            return Ok(Some(sheet.start + inner.start..sheet.start + inner.end));\n        }\n" + NEXT))

# ---- the same rules in other words

same("empty name before body short", "a body of no bytes is never short",
     (BODY_SHORT, "    if length == 0 && fitting.is_some() {\n        return refuse(BAD_LENGTH);\n    }\n" + BODY_SHORT))
same("name compared before the sheet", "a sheet is judged whether its name is the one looked for or not",
     (SHEET, "        let is_name = file[named.start] == name;\n" + SHEET), (HIT, "        if is_name {\n"))
same("absent sheet told apart", "an absent field is a header short of all its bytes, at the file's length",
     (SHEET, "        if named.end == file.len() {\n            return Err(Fault { refusal: field::SHORT, place: file.len() });\n        }\n" + SHEET))
same("house's file read first", "what it gives is looked at only behind the customer's miss",
     for_answer("    let house_first = sheet_of(name, house);\n    match (sheet_of(name, customer), house_first) {\n"
                "        (Ok(None), Ok(Some(sheet))) => Found { refusal: 0, file: HOUSE, place: sheet.start, part: &house[sheet] },\n        _ => found,\n    }\n"))
same("length by its bytes", "1 has the high byte 0",
     (FITTING, FITTING.replace("fitting.is_some_and(|fitting| length != fitting)", "fitting.is_some() && (rest[1] != 0 || rest[2] != 1)")))


def main(arguments):
    if len(arguments) != 1:
        sys.exit("usage: shelf_slips.py CORPUS")
    with tempfile.TemporaryDirectory() as folder:
        told, well = SHELVES.try_all(arguments[0], folder)
    print(told)
    sys.exit(not well)


if __name__ == "__main__":
    main(sys.argv[1:])
