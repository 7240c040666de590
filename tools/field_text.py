"""What stands in field.rs, for the slips of shelf_slips.py and record_slips.py."""

BODY = "fn body(file: &[u8], place: usize, tag: u8, fitting: Option<usize>) -> Result<Range<usize>, Fault> {\n"
REFUSE = "    let refuse = |refusal| Err(Fault { refusal, place });\n"
HEADER_SHORT = "    if rest.len() < HEADER {\n        return refuse(SHORT);\n    }\n"
TAG = "    if rest[0] != tag {\n        return refuse(OUT_OF_TURN);\n    }\n"
LENGTH = "    let length = usize::from(u16::from_be_bytes([rest[1], rest[2]]));\n"
BODY_SHORT = "    if rest.len() - HEADER < length {\n        return refuse(SHORT);\n    }\n"
FITTING = "    if fitting.is_some_and(|fitting| length != fitting) {\n        return refuse(BAD_LENGTH);\n    }\n"
