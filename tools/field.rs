//! Fields of a tag, a length and a body: how one is made, and where the body of one that is due
//! stands. A module of shelves.rs, records.rs, retimes.rs, chains.rs, mends.rs, texts.rs and
//! prints.rs.

use std::ops::Range;

pub const SHORT: u8 = 1;
pub const OUT_OF_TURN: u8 = 2;
pub const BAD_LENGTH: u8 = 3;

/// "Fields are a one-byte tag, a two-byte length, then the body."
pub const HEADER: usize = 3;

/// A refusal's number, and the place of the field at fault.
#[derive(Clone, Copy, PartialEq, Eq, Debug)]
pub struct Fault {
    pub refusal: u8,
    pub place: usize,
}

pub fn field(tag: u8, body: &[u8]) -> Vec<u8> {
    [&[tag], &(body.len() as u16).to_be_bytes()[..], body].concat()
}

/// Where the body of the field at this place stands. A field of this tag is due there; if
/// `fitting` is given, no other length fits it. "within one: header short, tag, too many, body
/// short, length, then contents"
pub fn body(file: &[u8], place: usize, tag: u8, fitting: Option<usize>) -> Result<Range<usize>, Fault> {
    let refuse = |refusal| Err(Fault { refusal, place });
    let rest = &file[place..];
    if rest.len() < HEADER {
        return refuse(SHORT);
    }
    if rest[0] != tag {
        return refuse(OUT_OF_TURN);
    }
    let length = usize::from(u16::from_be_bytes([rest[1], rest[2]]));
    if rest.len() - HEADER < length {
        return refuse(SHORT);
    }
    if fitting.is_some_and(|fitting| length != fitting) {
        return refuse(BAD_LENGTH);
    }
    let start = place + HEADER;
    Ok(start..start + length)
}
