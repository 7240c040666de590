//! The cases of a corpus of texts: texts chosen by hand, then random ones, with the bytes that are lent for them.

use crate::entries::Cases;
use crate::text_answer::{answered, Case, MAX_SHEET};

/// Up to the first thread's `thread`, 47 bytes.
pub const HEAD: &str = "limit 10\nbudget 100\nlabel 0..10\nlocks 0\nthread\n";
/// The same with a name of each kind, in few bytes.
pub const NAMES: &str = "limit 1\nbudget 1\nlabel 0..1\nlocks 1\nvar 0..0\nthread\nreg 0..0\n";

/// Lines behind `HEAD`.
pub fn headed(lines: &str) -> String {
    format!("{HEAD}{lines}")
}

/// A line behind `NAMES`, before a halt.
pub fn named(line: &str) -> String {
    format!("{NAMES}{line}\nhalt\n")
}

/// The bytes that the sheet needs, if there is enough room for any; 0 if it is refused.
pub fn needed(text: &[u8]) -> usize {
    answered(&Case { text: text.to_vec(), room: MAX_SHEET }).written
}

impl Cases<Case> {
    pub fn add(&mut self, text: &[u8], room: usize) -> bool {
        self.put(Case { text: text.to_vec(), room })
    }

    /// With a few bytes more than are needed, or with none.
    pub fn fit(&mut self, text: &[u8]) -> bool {
        let nth = self.all.len();
        let more = [3, 0, 1, 8, 2][nth % 5];
        // a refused one has some room too, so that it shows what is left there
        let room = match needed(text) {
            0 => [0, 5, 24, 1, 60, 2, 11][nth % 7],
            bytes => bytes + more,
        };
        self.add(text, room)
    }

    pub fn fit_all<T: AsRef<[u8]>>(&mut self, texts: &[T]) {
        for text in texts {
            self.fit(text.as_ref());
        }
    }
}

/// The cases chosen by hand with those of the files, then so many random ones.
pub fn all(seed: u64, count: usize, files: &[Vec<u8>]) -> Vec<Case> {
    let mut cases = Cases::new();
    let mut parts = Vec::new();
    let mut done = |name: &'static str, cases: &Cases<Case>| parts.push((name, cases.all.len()));
    cases.worked();
    for file in files {
        cases.fit(file);
    }
    done("worked", &cases);
    cases.spelling();
    done("of spelling", &cases);
    cases.order();
    done("of order", &cases);
    cases.phrases(seed);
    done("of expressions", &cases);
    cases.numbers();
    done("of numbers", &cases);
    cases.faults();
    done("of faults", &cases);
    cases.sizes();
    done("of sizes", &cases);
    cases.random(seed, count);
    done("random", &cases);
    let before = [0].into_iter().chain(parts.iter().map(|part| part.1));
    let told = parts.iter().zip(before).map(|((name, end), start)| format!("{} {name}", end - start));
    eprintln!("{}", told.collect::<Vec<_>>().join(", "));
    cases.all
}
