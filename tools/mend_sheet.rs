//! The mend itself (02, ticket 13): a sheet with its ends in order and its threads closed. With each byte of
//! the mended sheet goes the offset in the original that it came from, so that a place in the one is looked up
//! for the other. Written from the papers; sentences in quotation marks are those of the papers.

use crate::field::HEADER;
use std::ops::Range;

/// "kind (1 exchanged, 2 halt added)"
pub const EXCHANGED: usize = 1;
pub const HALT_ADDED: usize = 2;

const LABEL_TAG: u8 = 1;
const VARIABLE_TAG: u8 = 2;
const THREAD_TAG: u8 = 4;
const REGISTER_TAG: u8 = 5;
const STATEMENT_TAG: u8 = 6;
/// Least and greatest time and code: a statement's body has no fewer bytes.
const STATEMENT_BODY: usize = 5;
/// Where in a statement's field its code stands.
const CODE: usize = HEADER + 4;
const HALT: u8 = 0;
/// "append halt (times 0, 0)": its field.
const HALT_FIELD: [u8; 8] = [STATEMENT_TAG, 0, 5, 0, 0, 0, 0, HALT];

/// A byte of the mended sheet, and where in the original it came from: of an added halt, the place of "the
/// thread's last statement", of an exchanged end, the place where it stands.
#[derive(Clone, Copy)]
struct Carried {
    byte: u8,
    from: usize,
}

/// A sheet with the changes made.
pub struct Mended {
    carried: Vec<Carried>,
    /// Kind and "the original offset of the field, in sheet order"
    pub changes: Vec<[usize; 2]>,
    /// The original's length.
    length: usize,
}

impl Mended {
    pub fn bytes(&self) -> Vec<u8> {
        self.carried.iter().map(|carried| carried.byte).collect()
    }

    /// "the place counted in the original sheet"; of an absent field, its length.
    pub fn place_in_original(&self, place: usize) -> usize {
        self.carried.get(place).map_or(self.length, |carried| carried.from)
    }
}

/// Where the two ends of a field stand, counted from its tag, and whether they are signed.
struct Ends {
    low: Range<usize>,
    high: Range<usize>,
    signed: bool,
}

/// The ends of a field of this tag and length, if it has both in their form.
fn ends_of(tag: u8, length: usize) -> Option<Ends> {
    match (tag, length) {
        // "time limit, step budget, label low, label high, 4 bytes each"
        (LABEL_TAG, 16) => Some(Ends { low: 11..15, high: 15..19, signed: false }),
        // "Numbers ... are unsigned, but starting values and constants are signed, two's complement."
        (VARIABLE_TAG | REGISTER_TAG, 8) => Some(Ends { low: 3..7, high: 7..11, signed: true }),
        // "least and greatest time (2 bytes each), code"
        (STATEMENT_TAG, STATEMENT_BODY..) => Some(Ends { low: 3..5, high: 5..7, signed: false }),
        _ => None,
    }
}

/// A number with the high byte first.
fn value(bytes: &[u8], signed: bool) -> i64 {
    let first = match bytes.first() {
        Some(&byte) if signed => i64::from(byte as i8),
        Some(&byte) => i64::from(byte),
        None => 0,
    };
    bytes.iter().skip(1).fold(first, |number, &byte| number << 8 | i64::from(byte))
}

/// A field whose header and body are whole.
struct Field<'a> {
    place: usize,
    bytes: &'a [u8],
}

impl Field<'_> {
    fn tag(&self) -> u8 {
        self.bytes[0]
    }

    /// Its ends, if its "low is above high".
    fn crossed(&self) -> Option<Ends> {
        let ends = ends_of(self.tag(), self.bytes.len() - HEADER)?;
        let [low, high] = [&ends.low, &ends.high].map(|end| value(&self.bytes[end.clone()], ends.signed));
        (low > high).then_some(ends)
    }

    /// Whether it is a statement other than halt; the place behind it may close a thread then.
    fn is_open(&self) -> bool {
        self.tag() == STATEMENT_TAG && self.bytes.len() > CODE && self.bytes[CODE] != HALT
    }
}

/// The field at this place, if a whole one stands there.
fn whole_field(sheet: &[u8], place: usize) -> Option<Field<'_>> {
    let rest = &sheet[place..];
    let length = usize::from(u16::from_be_bytes([*rest.get(1)?, *rest.get(2)?]));
    rest.get(..HEADER + length).map(|bytes| Field { place, bytes })
}

/// "A thread closes when the tag of a full header is 4 (after its first statement) or no bytes remain"
fn closes_at(sheet: &[u8], place: usize) -> bool {
    let rest = &sheet[place..];
    rest.is_empty() || (rest.len() >= HEADER && rest[0] == THREAD_TAG)
}

impl Mended {
    /// The bytes of a part of the original as they are.
    fn carry(&mut self, start: usize, bytes: &[u8]) {
        self.carried.extend(bytes.iter().enumerate().map(|(at, &byte)| Carried { byte, from: start + at }));
    }

    /// A field, "exchange ends where low is above high".
    fn carry_field(&mut self, field: &Field) {
        let mut bytes = field.bytes.to_vec();
        if let Some(Ends { low, high, .. }) = field.crossed() {
            bytes[low.start..high.end].rotate_left(low.len());
            self.changes.push([EXCHANGED, field.place]);
        }
        self.carry(field.place, &bytes);
    }

    /// "an added halt names the thread's last statement"
    fn add_halt(&mut self, last: usize) {
        self.carried.extend(HALT_FIELD.map(|byte| Carried { byte, from: last }));
        self.changes.push([HALT_ADDED, last]);
    }
}

/// The fields one behind the other, by their lengths, whichever is due; behind the last whole one the rest is
/// carried as it is.
pub fn mend(sheet: &[u8]) -> Mended {
    let mut mended = Mended { carried: Vec::new(), changes: Vec::new(), length: sheet.len() };
    let mut place = 0;
    while let Some(field) = whole_field(sheet, place) {
        mended.carry_field(&field);
        place += field.bytes.len();
        if field.is_open() && closes_at(sheet, place) {
            mended.add_halt(field.place);
        }
    }
    mended.carry(place, &sheet[place..]);
    mended
}
