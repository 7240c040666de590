//! The cases of a corpus of printed sheets: sheets chosen by hand, then random ones, with the bytes that are lent for
//! their texts.

use crate::entries::Cases;
use crate::generator::Random;
use crate::mend_garbled::{mixed, two};
use crate::print_answer::{needed, Case};
use crate::retime_sheets::{b, every_code, full, long_times, of_the_paper, turning, wide};
use crate::sheet_damage::{bytes_changed, cut, fields_moved, headers_changed};
use crate::sheet_parts::*;

/// Statements in one thread with two registers, beside a variable and a lock.
pub fn of_statements(statements: &[Vec<u8>]) -> Vec<u8> {
    sheet(1, &[(0, 0)], &[thread(&[(0, 0), (0, 0)], statements)])
}

/// Each of the eight statements, in the ticket's own words for them.
pub fn of_the_ticket() -> Vec<u8> {
    let sum = both(18, register(0), both(20, constant(2), constant(3)));
    let statements = [
        assign((2, 3), 0, &sum),
        jump((1, 1), 2, &below(0, 5)),
        store((1, 2), 0, 1),
        load((1, 2), 0, 1),
        lock((1, 1), 0),
        unlock((1, 1), 0),
        skip((1, 4)),
    ];
    sheet_of([10, 100, 0, 10], 1, &[(-1, 1), (0, 0)], &[thread(&[(0, 9)], &statements)])
}

impl Cases<Case> {
    pub fn add(&mut self, sheet: &[u8], room: usize) {
        self.put(Case { sheet: sheet.to_vec(), room });
    }

    /// With a few bytes more than are needed, or with none; a refused one has some too, so that it shows what is left.
    pub fn fit(&mut self, sheet: &[u8]) {
        let nth = self.all.len();
        let room = match needed(sheet) {
            0 => [7, 0, 30, 1, 12][nth % 5],
            bytes => bytes + [1, 0, 4, 0, 17, 2][nth % 6],
        };
        self.add(sheet, room);
    }

    pub fn fit_all(&mut self, sheets: &[Vec<u8>]) {
        sheets.iter().for_each(|sheet| self.fit(sheet));
    }

    fn worked(&mut self, files: &[Vec<u8>]) {
        self.fit(&of_the_ticket());
        self.fit_all(&of_the_paper());
        self.fit_all(&[every_code(), wide(), full(), long_times(), mixed(), two()]);
        self.fit_all(&turning().into_iter().map(|turning| turning.sheet).collect::<Vec<_>>());
        self.fit_all(files);
    }

    /// Sheets that do not read, or read otherwise.
    fn damaged(&mut self, seed: u64) {
        self.fit_all(&unreadable(&b()));
        for sheet in [b(), mixed(), two()] {
            self.fit_all(&cut(&sheet));
        }
        self.fit_all(&bytes_changed(&mixed()));
        self.fit_all(&bytes_changed(&of_the_ticket()));
        self.fit_all(&headers_changed(&two()));
        self.fit_all(&fields_moved(&mixed()));
        let mut random = Random(seed);
        for count in 0..24 {
            let bytes: Vec<u8> = (0..count).map(|_| random.next() as u8).collect();
            self.fit(&bytes);
            self.fit(&[b(), bytes].concat());
        }
    }
}

/// The cases chosen by hand with those of the files, then so many random ones.
pub fn all(seed: u64, count: usize, files: &[Vec<u8>]) -> Vec<Case> {
    let parts: [(&str, &dyn Fn(&mut Cases<Case>)); 7] = [
        ("worked", &|cases| cases.worked(files)),
        ("of arithmetic", &|cases| cases.arithmetic()),
        ("of conditions", &|cases| cases.conditions()),
        ("of numbers", &|cases| cases.numbers()),
        ("damaged", &|cases| cases.damaged(seed)),
        ("of sizes", &|cases| cases.sizes()),
        ("random", &|cases| cases.random(seed, count)),
    ];
    let mut cases = Cases::new();
    let told = parts.map(|(name, add)| {
        let before = cases.all.len();
        add(&mut cases);
        format!("{} {name}", cases.all.len() - before)
    });
    eprintln!("{}", told.join(", "));
    cases.all
}
