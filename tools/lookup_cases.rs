//! The cases of a corpus of lookups: files chosen by hand, then random ones from a seed. A
//! program that includes this has `lookup` beside it, which serves to choose random cases of
//! each refusal.

#[path = "lookup_files.rs"]
mod lookup_files;
#[path = "lookup_random.rs"]
mod lookup_random;

use crate::entries::Cases;
use crate::field::field;
use crate::lookup;
use lookup_files::{malformed, pair, pairs, sheet, well_formed, with_malformed, with_name_once};
use lookup_random::Random;

/// A name to look up, and two files.
#[derive(Clone, PartialEq, Eq, PartialOrd, Ord)]
pub struct Case {
    pub name: u8,
    pub customer: Vec<u8>,
    pub house: Vec<u8>,
}

/// The name that is mostly looked up, and one that is not.
const NAME: u8 = 7;
const OTHER: u8 = 8;
/// Names at the ends, and those that are tags.
const NAMES: [u8; 5] = [0, NAME, 48, 49, 255];
/// How many random cases of a refusal, 0 to 5, are kept at most, per hundred asked for.
const SHARES: [usize; 6] = [25, 20, 20, 20, 0, 15];

impl Cases<Case> {
    fn add(&mut self, name: u8, customer: &[u8], house: &[u8]) -> bool {
        self.put(Case { name, customer: customer.to_vec(), house: house.to_vec() })
    }

    fn each_with_each(&mut self, name: u8, customers: &[Vec<u8>], houses: &[Vec<u8>]) {
        for customer in customers {
            for house in houses {
                self.add(name, customer, house);
            }
        }
    }

    /// The file as the customer's and as the house's, beside each of the others.
    fn both_ways(&mut self, name: u8, file: &[u8], others: &[&[u8]]) {
        for other in others {
            self.add(name, file, other);
            self.add(name, other, file);
        }
    }

    /// The file beside an empty one, and beside one that has the name.
    fn alone_and_with_name(&mut self, file: &[u8]) {
        self.both_ways(NAME, file, &[&[], &pair(NAME, &[91, 92, 93, 94])]);
    }

    /// A name in one file, in both, in neither, at each place.
    fn present(&mut self) {
        for name in NAMES {
            self.each_with_each(name, &with_name_once(name, &[2, 0, 4]), &with_name_once(name, &[0, 3, 1]));
        }
        // names that differ in one bit
        for name in 0..=255 {
            let near = name ^ (1 << (name % 8));
            self.add(name, &pairs(&[near, name], &[2, 1]), &pair(name, &[9]));
            self.add(name, &pair(near, &[1, 2]), &pair(name, &[9, 8]));
        }
    }

    /// The name in several of up to four pairs.
    fn repeated(&mut self) {
        for lengths in [[3, 0, 5, 1], [0, 6, 2, 4]] {
            for count in 1..=4 {
                for which in 0..1 << count {
                    let name = |at| if which >> at & 1 == 1 { NAME } else { OTHER + at };
                    self.alone_and_with_name(&pairs(&(0..count).map(name).collect::<Vec<u8>>(), &lengths));
                }
            }
        }
    }

    /// Each malformed field in each of the pairs and behind them, the name before it, in its pair,
    /// behind it or nowhere.
    fn faults(&mut self) {
        for at in 0..4 {
            for with_name in 0..5 {
                let mut names = [OTHER, 9, 10, 11];
                names.iter_mut().skip(with_name).take(1).for_each(|name| *name = NAME);
                for malformed in malformed(names[at]) {
                    self.alone_and_with_name(&with_malformed(&names, at, &malformed));
                }
            }
        }
        // two malformed files
        let some = malformed(NAME).into_iter().step_by(4).enumerate();
        let file = |(at, malformed)| with_malformed(&[OTHER, 9, 10, 11], at % 3, &malformed);
        let files: Vec<_> = some.map(file).collect();
        self.each_with_each(NAME, &files, &files);
    }

    /// Every tag where a name is due, and where a sheet is due, in a first and in a second pair.
    fn tags(&mut self) {
        for tag in 0..=255 {
            let at_name = [field(tag, &[NAME]), field(49, &[2, 3])].concat();
            let at_sheet = [field(48, &[NAME]), field(tag, &[4, 5])].concat();
            self.add(NAME, &[pair(OTHER, &[1]), at_name.clone()].concat(), &[]);
            self.add(NAME, &pair(OTHER, &[]), &at_name);
            self.add(NAME, &at_sheet, &[]);
            self.add(NAME, &[], &[pair(OTHER, &[]), at_sheet.clone()].concat());
        }
    }

    /// Lengths whose high byte matters, and those about them.
    fn lengths(&mut self) {
        for length in [127, 128, 255, 256, 257, 511, 512, 513] {
            let long = sheet(length, NAME);
            let file = [pair(OTHER, &long), pair(NAME, &[1, 2, 3])].concat();
            self.both_ways(NAME, &file, &[&[]]);
            self.both_ways(OTHER, &file, &[&[]]);
            self.both_ways(NAME, &pair(OTHER, &long)[..length + 6], &[&pair(NAME, &[4])]);
            // of a name
            let named = [field(48, &long), field(49, &[1, 2])].concat();
            self.both_ways(NAME, &named, &[&[]]);
            self.add(OTHER, &[pair(9, &[5]), named.clone()].concat(), &[]);
            self.add(NAME, &[pair(NAME, &[5]), named.clone()].concat(), &[]);
            self.add(NAME, &[], &[pair(9, &[5, 6]), named[..length + 2].to_vec()].concat());
        }
    }

    fn truncated(&mut self) {
        for file in well_formed() {
            (0..=file.len()).for_each(|length| self.alone_and_with_name(&file[..length]));
        }
    }

    /// One byte changed.
    fn changed(&mut self) {
        for file in &well_formed()[..3] {
            for (at, &byte) in file.iter().enumerate() {
                for other in [byte ^ 1, byte ^ 128, byte.wrapping_add(1), 0, 48, 49, 255] {
                    let mut file = file.clone();
                    file[at] = other;
                    self.both_ways(NAME, &file, &[&pair(9, &[1])]);
                }
            }
        }
    }

    /// One to six bytes behind the last pair.
    fn trailing(&mut self) {
        for tail in [[48, 0, 1, NAME, 49, 0], [0; 6], [48; 6], [49; 6], [255; 6], [49, 0, 0, 49, 0, 0]] {
            for length in 1..=6 {
                for pairs in [vec![], pair(OTHER, &[1, 2]), pair(NAME, &[3, 4, 5])] {
                    self.alone_and_with_name(&[&pairs, &tail[..length]].concat());
                }
            }
        }
    }

    /// Sheets whose bytes look like fields.
    fn nested(&mut self) {
        let mut sheets = vec![vec![48], vec![48, 0, 1, NAME], vec![49, 0, 0], vec![48, 0, 0], vec![47, 0, 1, NAME, 49]];
        sheets.extend([pair(NAME, &[1]), pair(NAME, &pair(NAME, &[])), pairs(&[NAME, OTHER], &[2, 2])]);
        sheets.extend([vec![48; 9], vec![49; 49]]);
        for sheet in &sheets {
            self.both_ways(NAME, &pair(OTHER, sheet), &[&[], sheet]);
            self.both_ways(NAME, &[pair(OTHER, sheet), pair(NAME, &[5, 6])].concat(), &[&[]]);
            self.both_ways(NAME, &[pair(NAME, sheet), pair(NAME, &[])].concat(), &[&[]]);
        }
    }

    /// More pairs than a byte counts, and files longer than two bytes count.
    fn long(&mut self) {
        let names: Vec<u8> = (0..300).map(|at| OTHER + (at % 200) as u8).collect();
        let many = pairs(&names, &[0; 300]);
        self.both_ways(NAME, &[many.clone(), pair(NAME, &[1, 2])].concat(), &[&[]]);
        self.both_ways(NAME, &[many, vec![48, 0, 1, NAME]].concat(), &[&[]]);

        let first = pair(OTHER, &sheet(65_535, 3));
        let second = pair(9, &sheet(65_535, 4));
        let behind = |rest: &[u8]| [&first, rest].concat();
        self.add(NAME, &behind(&pair(NAME, &[1, 2, 3])), &[]);
        self.add(NAME, &pair(9, &[]), &behind(&pair(NAME, &[4, 5])));
        self.add(NAME, &[], &[behind(&second), pair(NAME, &[6, 7, 8])].concat());
        self.add(OTHER, &[], &first);
        self.add(NAME, &first, &pair(9, &[1]));
        self.add(OTHER, &first[..first.len() - 1], &pair(OTHER, &[1]));
        self.add(NAME, &behind(&[48, 0, 1, NAME, 49]), &pair(NAME, &[1]));
        self.add(NAME, &behind(&[47, 0, 1, NAME, 49, 0, 0]), &[]);
        self.add(NAME, &[], &behind(&[48, 0, 0, 49, 0, 0]));
    }

    /// Random cases, not too many of one refusal.
    fn random(&mut self, seed: u64, count: usize) {
        let mut random = Random(seed);
        let mut of = [0; SHARES.len()];
        while of.iter().sum::<usize>() < count {
            let (name, customer, house) = (random.name(), random.file(), random.file());
            let refusal = usize::from(lookup(name, &customer, &house).refusal);
            if of[refusal] * 100 < SHARES[refusal] * count && self.add(name, &customer, &house) {
                of[refusal] += 1;
            }
        }
    }
}

/// The cases chosen by hand, then so many random ones.
pub fn all(seed: u64, count: usize) -> Vec<Case> {
    let mut cases = Cases::new();
    cases.present();
    cases.repeated();
    cases.faults();
    cases.tags();
    cases.lengths();
    cases.truncated();
    cases.changed();
    cases.trailing();
    cases.nested();
    cases.long();
    let by_hand = cases.all.len();
    cases.random(seed, count);
    eprintln!("{by_hand} cases chosen by hand, {} random", cases.all.len() - by_hand);
    cases.all
}
