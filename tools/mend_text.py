"""What stands in mend_sheet.rs and mend_answer.rs, for the slips of mend_slips.py."""

# ---- mend_sheet.rs

KINDS = "pub const EXCHANGED: usize = 1;\npub const HALT_ADDED: usize = 2;\n"
HALT_FIELD = "[STATEMENT_TAG, 0, 5, 0, 0, 0, 0, HALT];\n"
PLACE = "        self.carried.get(place).map_or(self.length, |carried| carried.from)\n"
OF_LABEL = "        (LABEL_TAG, 16) => Some(Ends { low: 11..15, high: 15..19, signed: false }),\n"
OF_RANGE = "        (VARIABLE_TAG | REGISTER_TAG, 8) => Some(Ends { low: 3..7, high: 7..11, signed: true }),\n"
OF_TIMES = "        (STATEMENT_TAG, STATEMENT_BODY..) => Some(Ends { low: 3..5, high: 5..7, signed: false }),\n"
FOLD = "    bytes.iter().skip(1).fold(first, |number, &byte| number << 8 | i64::from(byte))\n"
CROSSED = "        (low > high).then_some(ends)\n"
OPEN = "        self.tag() == STATEMENT_TAG && self.bytes.len() > CODE && self.bytes[CODE] != HALT\n"
LENGTH = "    let length = usize::from(u16::from_be_bytes([*rest.get(1)?, *rest.get(2)?]));\n"
WHOLE = "    rest.get(..HEADER + length).map(|bytes| Field { place, bytes })\n"
CLOSES = "    rest.is_empty() || (rest.len() >= HEADER && rest[0] == THREAD_TAG)\n"
EXCHANGE = "            bytes[low.start..high.end].rotate_left(low.len());\n"
LIST_EXCHANGE = "            self.changes.push([EXCHANGED, field.place]);\n"
ADD = "        self.carried.extend(HALT_FIELD.map(|byte| Carried { byte, from: last }));\n"
LIST_HALT = "        self.changes.push([HALT_ADDED, last]);\n"
FIELD = "        mended.carry_field(&field);\n        place += field.bytes.len();\n"
CLOSING = "        if field.is_open() && closes_at(sheet, place) {\n            mended.add_halt(field.place);\n        }\n"
REST = "    mended.carry(place, &sheet[place..]);\n"
MENDED = REST + "    mended\n"

# ---- mend_answer.rs

AT_FIRST = "    if case.sheet.len() > MAX_SHEET {\n        return Err((TOO_LONG, 0));\n    }\n"
MEND = "    let mended = mend(&case.sheet);\n"
BYTES = "    let (bytes, list) = (mended.bytes(), mended.changes.concat());\n"
READER = ("    if let Some((number, place)) = fields_refused(&bytes) {\n        return Err((number, mended.place_in_original(place)));\n"
          "    }\n")
LONGER = "    if bytes.len() > MAX_SHEET {\n        return Err((TOO_LONG, 0));\n    }\n"
SPACE = "    if bytes.len() > case.room || list.len() > case.numbers {\n        return Err((OUT_OF_SPACE, 0));\n    }\n"
ACCEPTED = "    Ok((bytes, list))\n"
REFUSED = "        Err(told) => (told, Vec::new(), Vec::new()),\n"
COUNTED = "    let (written, listed) = (sheet.len(), list.len());\n"
TAIL = "    sheet.resize(case.room, 0);\n"
LIST_TAIL = "    list.resize(case.numbers, 0);\n"
TOLD = "    Answered { refusal: told.0, place: told.1, written, listed, sheet, list }\n"

# ---- what does not stand there: 5 for a target that names no statement of the original

UNCOUNTED = """    let sheet = &case.sheet;
    let (mut jumps, mut count, mut at) = (Vec::new(), 0, 0);
    while at < sheet.len() {
        if sheet[at] == 4 {
            (jumps, count) = (Vec::new(), 0);
        }
        if sheet[at] == 6 {
            count += 1;
            if sheet[at + 7] == 3 {
                jumps.push((usize::from(sheet[at + 8]), at));
            }
        }
        at += 3 + usize::from(u16::from_be_bytes([sheet[at + 1], sheet[at + 2]]));
        if at == sheet.len() || sheet[at] == 4 {
            if let Some(&(_, place)) = jumps.iter().find(|jump| jump.0 >= count) {
                return Err((5, place));
            }
        }
    }
"""
