"""What stands in retime_change.rs and retime_back.rs, for the slips of chain_slips.py."""

# ---- retime_change.rs

OLD_SHOWN = "    let (old_least, old_greatest) = times_shown(sheet, at);\n"
WRITE = "    write_times(sheet, at, asked);\n    let Asked { thread, statement, least: new_least, greatest: new_greatest } = asked;\n"
DID = "    Ok(Change { thread, statement, old_least, old_greatest, new_least, new_greatest })\n"
MADE = "        Ok(made) => (Fault { refusal: 0, place: 0 }, made),\n"
ZEROS = "        Err(fault) => (fault, Change::default()),\n"
THREAD = "    let thread = threads.get(usize::try_from(asked.thread).ok()?)?;\n"
PLACE = "    thread.get(usize::try_from(asked.statement).ok()?).copied()\n"
SHOWN_HIGH_FIRST = "u64::from(u16::from_be_bytes([sheet[at], sheet[at + 1]]))"
SHOWN = "    (time(at), time(at + 2))\n"
LEAST = "    sheet[at..at + 2].copy_from_slice(&(asked.least as u16).to_be_bytes());\n"
GREATEST = "    sheet[at + 2..at + 4].copy_from_slice(&(asked.greatest as u16).to_be_bytes());\n"

# ---- retime_back.rs

OLD_NUMBERS = "    let Change { thread, statement, old_least, old_greatest, .. } = change;\n"
OLD_ASKED = "    Asked { thread, statement, least: old_least, greatest: old_greatest }\n"
COMPARED = "    least == change.new_least && greatest == change.new_greatest\n"
REFUSED = "    let refused = |refusal| Err(Fault { refusal, place: 0 });\n"
OLD = "    let old = old_of(change);\n"
READS = OLD + "    reads(sheet)?;\n"
NAMED = "    let Some(place) = place_of(sheet, old) else {\n        return refused(NO_SUCH_NAME);\n    };\n"
TIMES = "    if !code_at(sheet, place).is_some_and(|code| may_have(code, old)) {\n        return refused(OFF_RANGE);\n    }\n"
SINCE = "    if !shows_new(sheet, place, change) {\n        return refused(CHANGED_SINCE);\n    }\n"
BACK = "    write_times(sheet, place + HEADER, old);\n"
