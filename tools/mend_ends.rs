//! Cases of exchanged ends: which are above which, ends that do not heal, and ends in fields that are out of
//! turn or of a length that does not fit.

use crate::entries::Cases;
use crate::field::field;
use crate::mend_answer::Case;
use crate::mend_garbled::*;
use crate::sheet_parts::*;

const VALUES: [i32; 10] = [i32::MIN, i32::MIN + 1, -256, -2, -1, 0, 1, 256, i32::MAX - 1, i32::MAX];
const SOME_VALUES: [Range; 8] =
    [(5, -6), (-1, -2), (-2, -1), (0, -1), (i32::MAX, i32::MIN), (i32::MIN, i32::MAX), (65_536, -65_536), (255, -255)];
/// With limit 10.
const LABELS: [u32; 8] = [0, 9, 10, 11, 0x100, 0x7FFF_FFFF, 0x8000_0000, 0xFFFF_FFFF];
/// With limit 1,000,000.
const WIDE_LABELS: [u32; 8] = [0, 255, 256, 65_535, 65_536, 999_999, 1_000_000, 1_000_001];
const TIMES: [u16; 9] = [0, 1, 2, 0xFF, 0x100, 0x7FFF, 0x8000, 0x8001, 0xFFFF];
const HALT_TIMES: [Times; 6] = [(5, 3), (3, 5), (1, 0), (0, 1), (0xFFFF, 0), (0x8000, 0x7FFF)];

/// A halt with these times.
fn halt_with(times: Times) -> Vec<u8> {
    let mut field = skip(times);
    field[7] = 0;
    field
}

/// A field of this tag with ends that are crossed, and so many bytes of body.
pub fn crossed_field(tag: u8, length: usize) -> Vec<u8> {
    let mut body = match tag {
        1 => [10, 100, 9, 1].map(u32::to_be_bytes).concat(),
        6 => vec![0, 9, 0, 1, 1],
        _ => [7_i32, -7].map(i32::to_be_bytes).concat(),
    };
    body.resize(length, 0);
    field(tag, &body)
}

/// The statement of each code with these times.
pub fn of_each_code(times: Times) -> Vec<Vec<u8>> {
    vec![
        skip(times),
        assign(times, 0, &both(18, register(0), constant(-1))),
        jump(times, 0, &not(below(0, 3))),
        store(times, 0, 0),
        load(times, 0, 0),
        unlock(times, 0),
        lock(times, 0),
    ]
}

impl Cases<Case> {
    pub fn ends(&mut self) {
        self.ranges();
        self.labels();
        self.times();
        self.out_of_turn();
    }

    fn ranges(&mut self) {
        let of = |variables: &[Range], registers: &[Range]| {
            sheet_of(TEN, 1, variables, &[thread(registers, &[skip((1, 2))])])
        };
        for low in VALUES {
            for high in VALUES {
                self.fit(&of(&[(low, high)], &[(high, low)]));
            }
        }
        for range in SOME_VALUES {
            self.fit(&of(&[range], &[]));
            self.fit(&of(&[], &[range]));
            self.fit(&of(&[(1, 2), range, (3, 3)], &[(0, 0), range, range]));
        }
        self.fit(&of(&[(8, 1); 8], &[(1, -8); 8]));
        // a ninth of each
        self.fit(&of(&[(8, 1); 9], &[(1, -8); 8]));
        self.fit(&of(&[(8, 1); 8], &[(1, -8); 9]));
    }

    fn labels(&mut self) {
        let threads = [open(&[], &[skip((1, 2))])];
        for (limit, labels) in [(10, LABELS), (1_000_000, WIDE_LABELS)] {
            for low in labels {
                for high in labels {
                    self.fit(&sheet_of([limit, 100, low, high], 0, &[], &threads));
                }
            }
        }
        for (limit, budget) in [(0, 1), (1, 0), (1_000_001, 1), (1, 10_000_001), (1_000_000, 10_000_000), (5, 5)] {
            for (low, high) in [(6, 2), (5, 0), (1, 0)] {
                self.fit(&sheet_of([limit, budget, low, high], 0, &[], &threads));
            }
        }
        for locks in [8, 9, 255] {
            self.fit(&sheet_of([10, 100, 9, 2], locks, &[], &threads));
        }
    }

    fn times(&mut self) {
        for least in TIMES {
            for greatest in TIMES {
                self.fit(&headed(&[thread(&[], &[skip((least, greatest))])]));
            }
        }
        for times in HALT_TIMES {
            // a halt with times, last or earlier, behind a thread that is mended
            let before = open(&[], &[skip((3, 2))]);
            for statements in [vec![halt_with(times)], vec![skip((1, 1)), halt_with(times)]] {
                self.fit(&headed(&[before.clone(), open(&[], &statements)]));
                self.fit(&headed(&[thread(&[], &statements)]));
            }
        }
        for times in [(3, 2), (2, 3), (0x0201, 0x0102), (7, 0), (0x8000, 1), (1, 0xFFFF)] {
            for statement in of_each_code(times) {
                let with = |thread: Vec<u8>| sheet_of(TEN, 1, &[(2, 1)], &[thread]);
                self.fit(&with(thread(&[(4, 3)], &[statement.clone()])));
                self.fit(&with(open(&[(4, 3)], &[statement])));
            }
        }
    }

    /// In each place of a sheet a field that is not due there, or is and has another length.
    fn out_of_turn(&mut self) {
        let sheet = garbled_whole(&two());
        for place in crate::generator::fields(&sheet).into_iter().chain([sheet.len()]) {
            for (tag, length) in [(1, 16), (2, 8), (5, 8), (6, 5), (4, 1)] {
                let field = if tag == 4 { field(4, &[0]) } else { crossed_field(tag, length) };
                self.fit(&[&sheet[..place], &field, &sheet[place..]].concat());
            }
        }
        for (tag, lengths) in [(1, &[0, 8, 12, 15, 17][..]), (2, &[0, 4, 7, 9]), (5, &[0, 4, 7, 9]), (6, &[0, 2, 4])] {
            for &length in lengths {
                let field = crossed_field(tag, length);
                let before = match tag {
                    1 => vec![],
                    2 => front(),
                    5 => [headed(&[open(&[], &[skip((3, 2))])]), vec![4, 0, 1, 1]].concat(),
                    _ => headed(&[open(&[], &[skip((3, 2))]), vec![4, 0, 1, 0]]),
                };
                self.fit(&[before.clone(), field.clone()].concat());
                self.fit(&[before.clone(), field.clone(), halt()].concat());
                self.fit(&[before, field, skip((9, 8)), halt()].concat());
            }
        }
    }
}
