//! What may be asked of a sheet: times at the ends of their ranges, and statements that are there and
//! that are not.

use crate::retime_change::{statements, Asked};

/// Least and greatest.
pub type Times = (u64, u64);

pub const TOP: u64 = u64::MAX;
/// Times that most statements may have.
pub const GOOD: [Times; 11] = [
    (1, 1),
    (1, 2),
    (2, 2),
    (3, 7),
    (10, 11),
    (1, 255),
    (256, 256),
    (255, 257),
    (0x0102, 0x0304),
    (1, 65_535),
    (65_535, 65_535),
];
/// Times that no statement may have, or only the halt: the ends of one, two, four and eight bytes.
pub const EDGES: [Times; 30] = [
    (0, 0),
    (0, 1),
    (1, 0),
    (0, 65_535),
    (2, 1),
    (256, 255),
    (0x0201, 0x0102),
    (65_535, 65_534),
    (65_535, 1),
    (1, 65_536),
    (0, 65_536),
    (65_535, 65_536),
    (65_536, 65_535),
    (65_536, 65_536),
    (65_537, 65_537),
    (65_537, 65_538),
    (65_537, 2),
    (1, 65_538),
    (1, 1 << 32),
    (1, (1 << 32) + 1),
    (1 << 32, 1 << 32),
    ((1 << 32) + 1, (1 << 32) + 2),
    ((1 << 48) + 1, (1 << 48) + 1),
    (1 << 63, 1 << 63),
    (1, 1 << 63),
    ((1 << 63) + 1, (1 << 63) + 2),
    (1 << 63, 1),
    (TOP, TOP),
    (1, TOP),
    (TOP, 1),
];
/// How many times are near those of a statement.
pub const NEAR: usize = 9;
/// A few of both, and one above the other.
pub const SOME: [Times; 6] = [(1, 1), (2, 3), (0, 0), (0, 2), (3, 2), (1, 65_536)];

pub fn asked(thread: u64, statement: u64, (least, greatest): Times) -> Asked {
    Asked { thread, statement, least, greatest }
}

/// Each statement of a sheet by its numbers, with its place.
pub fn named(sheet: &[u8]) -> Vec<(u64, u64, usize)> {
    let mut all = Vec::new();
    for (thread, places) in statements(sheet).iter().enumerate() {
        all.extend(places.iter().enumerate().map(|(statement, &place)| (thread as u64, statement as u64, place)));
    }
    all
}

/// The times that the statement at this place has.
pub fn own_times(sheet: &[u8], place: usize) -> Times {
    let time = |at: usize| u64::from(u16::from_be_bytes([sheet[at], sheet[at + 1]]));
    (time(place + 3), time(place + 5))
}

/// Its own times, and `NEAR` others that differ from them by little or in one byte.
pub fn near(sheet: &[u8], place: usize) -> Vec<Times> {
    let (least, greatest) = own_times(sheet, place);
    let mut all = vec![(least, greatest), (least, greatest + 1), (least + 1, greatest), (least + 1, greatest + 1)];
    all.extend([(least.saturating_sub(1), greatest), (least, greatest.saturating_sub(1)), (greatest, least)]);
    all.extend([(least, greatest + 65_536), (least + 65_536, greatest + 65_536), (least << 8, greatest << 8)]);
    all
}

/// Numbers of threads and statements that a sheet does not have.
pub fn absent(sheet: &[u8]) -> Vec<(u64, u64)> {
    let counts: Vec<u64> = statements(sheet).iter().map(|places| places.len() as u64).collect();
    let threads = counts.len() as u64;
    let mut all = vec![(threads, 0), (threads + 1, 0), (TOP, 0), (TOP, TOP), (1 << 63, 0)];
    all.extend([(threads, counts.iter().sum()), (threads, counts.first().copied().unwrap_or(1))]);
    all.extend([(4, 0), (255, 0), (1 << 16, 1 << 16)]);
    for (thread, &count) in counts.iter().enumerate() {
        let thread = thread as u64;
        all.extend([count, count + 1, 64, 255, TOP, 1 << 63].map(|statement| (thread, statement)));
        // cut to fewer bytes these would be a thread and a statement that are there
        for bits in [8, 16, 32, 63] {
            all.extend([(thread + (1 << bits), 0), (thread, (1 << bits) + count - 1)]);
        }
    }
    all
}
