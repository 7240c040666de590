//! Damage done to a sheet: bytes, tags and lengths changed, fields doubled, removed and moved, all of it in turn or at
//! random. A module of mends.rs and prints.rs.

use crate::generator::{fields, Random};
use crate::mend_garbled::exchange;

const TAGS: [u8; 9] = [0, 1, 2, 3, 4, 5, 6, 7, 48];

/// The parts of a sheet that are fields, the last as long as the sheet goes.
fn parts(sheet: &[u8]) -> Vec<&[u8]> {
    let starts = fields(sheet);
    let ends = starts.iter().skip(1).copied().chain([sheet.len()]);
    starts.iter().zip(ends).map(|(&start, end)| &sheet[start..end]).collect()
}

/// The sheet with another length in the field at this place.
fn with_length(sheet: &[u8], place: usize, length: u16) -> Vec<u8> {
    let mut changed = sheet.to_vec();
    changed[place + 1..place + 3].copy_from_slice(&length.to_be_bytes());
    changed
}

/// The sheet cut behind each byte.
pub fn cut(sheet: &[u8]) -> Vec<Vec<u8>> {
    (0..sheet.len()).map(|end| sheet[..end].to_vec()).collect()
}

/// Each byte with its lowest bit changed, and with its highest.
pub fn bytes_changed(sheet: &[u8]) -> Vec<Vec<u8>> {
    let changed = |at: usize, bits: u8| {
        let mut changed = sheet.to_vec();
        changed[at] ^= bits;
        changed
    };
    (0..sheet.len()).flat_map(|at| [changed(at, 0x01), changed(at, 0x80)]).collect()
}

/// Each field with other tags and lengths.
pub fn headers_changed(sheet: &[u8]) -> Vec<Vec<u8>> {
    let mut all = Vec::new();
    for place in fields(sheet) {
        for tag in TAGS {
            let mut changed = sheet.to_vec();
            changed[place] = tag;
            all.push(changed);
        }
        let length = u16::from_be_bytes([sheet[place + 1], sheet[place + 2]]);
        for length in [0, length - 1, length + 1, length + 8, length + 256, 65_535] {
            all.push(with_length(sheet, place, length));
        }
    }
    all
}

/// Each field removed, put in each other place, and doubled.
pub fn fields_moved(sheet: &[u8]) -> Vec<Vec<u8>> {
    let parts = parts(sheet);
    let mut all = Vec::new();
    for nth in 0..parts.len() {
        let mut removed = parts.clone();
        let part = removed.remove(nth);
        all.push(removed.concat());
        for to in 0..=removed.len() {
            let mut moved = removed.clone();
            moved.insert(to, part);
            all.push(moved.concat());
        }
        let mut doubled = parts.clone();
        doubled.insert(nth, part);
        all.push(doubled.concat());
    }
    all
}

impl Random {
    /// A byte, a header, a field or the end of the sheet otherwise.
    pub fn damage(&mut self, mut sheet: Vec<u8>) -> Vec<u8> {
        let places = fields(&sheet);
        let (Some(&last), false) = (places.last(), places.len() < 2) else { return sheet };
        let nth = self.below(places.len() - 1);
        let (place, next) = (places[nth], places[nth + 1]);
        match self.below(9) {
            0 => sheet.truncate(last + self.below(9)),
            1 => sheet.truncate(place + self.below(next - place)),
            2 => sheet[place] = self.below(8) as u8,
            3 => sheet[place + 2] = sheet[place + 2].wrapping_add(self.pick(&[1, 255])),
            4 => drop(sheet.drain(place..next)),
            5 => drop(sheet.splice(place..place, sheet[place..next].to_vec())),
            6 => sheet.extend((0..1 + self.below(4)).map(|_| self.below(7) as u8).collect::<Vec<_>>()),
            7 => exchange(&mut sheet, place),
            _ => {
                let at = self.below(sheet.len());
                sheet[at] ^= 1 << self.below(8);
            }
        }
        sheet
    }
}
