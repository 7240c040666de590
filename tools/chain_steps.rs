//! Steps made on a sheet one behind the other: changes, changes taken back, and bytes written by someone
//! else between them; and how a chain of them is made up.

use crate::field::Fault;
use crate::retime_asked::{asked, named, own_times, Times};
use crate::retime_back::take_back;
use crate::retime_change::{change_told, Asked, Change};

/// Thread and statement.
pub type Name = (u64, u64);

/// The statements of a sheet that are no halts, with their places.
pub fn movable(sheet: &[u8]) -> Vec<(Name, usize)> {
    let all = named(sheet).into_iter().filter(|&(_, _, place)| own_times(sheet, place) != (0, 0));
    all.map(|(thread, statement, place)| ((thread, statement), place)).collect()
}

#[derive(Clone, PartialEq, Eq, PartialOrd, Ord, Debug)]
pub enum Step {
    Change(Asked),
    Back(Change),
    /// Where someone else writes, and what.
    Written(usize, Vec<u8>),
}

#[derive(Clone, PartialEq, Eq, PartialOrd, Ord)]
pub struct Case {
    pub sheet: Vec<u8>,
    pub steps: Vec<Step>,
}

/// What is told of a step, and what it leaves.
#[derive(Clone, PartialEq, Eq, Debug)]
pub struct Stated {
    pub refusal: usize,
    pub place: usize,
    pub change: [u64; 6],
    /// Where the sheet is otherwise than before the step, and the bytes that stand there.
    pub at: usize,
    pub otherwise: Vec<u8>,
}

/// From the first byte that differs to the last: where it is, and the bytes after; 0 and none if none does.
pub fn otherwise(before: &[u8], after: &[u8]) -> (usize, Vec<u8>) {
    let differs = |&at: &usize| before[at] != after[at];
    let first = (0..after.len()).find(differs);
    let last = (0..after.len()).rfind(differs);
    first.zip(last).map_or((0, Vec::new()), |(first, last)| (first, after[first..=last].to_vec()))
}

/// Makes a step on the sheet.
pub fn made(sheet: &mut [u8], step: &Step) -> Stated {
    const NONE: Fault = Fault { refusal: 0, place: 0 };
    let before = sheet.to_vec();
    let (Fault { refusal, place }, change) = match step {
        Step::Change(asked) => change_told(sheet, *asked),
        Step::Back(change) => (take_back(sheet, *change).err().unwrap_or(NONE), Change::default()),
        Step::Written(at, bytes) => {
            sheet[*at..*at + bytes.len()].copy_from_slice(bytes);
            (NONE, Change::default())
        }
    };
    let (at, otherwise) = otherwise(&before, sheet);
    Stated { refusal: refusal.into(), place, change: change.numbers(), at, otherwise }
}

/// What change and taking back give for each step.
pub fn answered(case: &Case) -> Vec<Stated> {
    let mut sheet = case.sheet.clone();
    case.steps.iter().map(|step| made(&mut sheet, step)).collect()
}

/// A chain that is made up step by step.
#[derive(Clone)]
pub struct Making {
    pub case: Case,
    /// The sheet as the steps left it.
    pub sheet: Vec<u8>,
    /// What each change did, the zeros of refused ones too.
    pub changes: Vec<Change>,
}

impl Making {
    pub fn of(sheet: &[u8]) -> Making {
        Making { case: Case { sheet: sheet.to_vec(), steps: Vec::new() }, sheet: sheet.to_vec(), changes: Vec::new() }
    }

    fn step(mut self, step: Step) -> Making {
        let stated = made(&mut self.sheet, &step);
        if let Step::Change(_) = step {
            self.changes.push(Change::of(stated.change));
        }
        self.case.steps.push(step);
        self
    }

    pub fn change(self, (thread, statement): Name, times: Times) -> Making {
        self.step(Step::Change(asked(thread, statement, times)))
    }

    pub fn changes(self, all: &[(Name, Times)]) -> Making {
        all.iter().fold(self, |chain, &(name, times)| chain.change(name, times))
    }

    /// Takes something back, whether it was a change or not.
    pub fn take(self, change: Change) -> Making {
        self.step(Step::Back(change))
    }

    /// Takes the change of this number back, counted from 0.
    pub fn back(self, nth: usize) -> Making {
        let change = self.changes[nth];
        self.take(change)
    }

    pub fn backs(self, order: &[usize]) -> Making {
        order.iter().fold(self, |chain, &nth| chain.back(nth))
    }

    /// Someone else writes these bytes; those at either end that stand there already are left out.
    pub fn write(self, at: usize, bytes: &[u8]) -> Making {
        let mut after = self.sheet.clone();
        after[at..at + bytes.len()].copy_from_slice(bytes);
        match otherwise(&self.sheet, &after) {
            (_, bytes) if bytes.is_empty() => self,
            (at, bytes) => self.step(Step::Written(at, bytes)),
        }
    }

    /// Someone else turns bits of one byte.
    pub fn turn(self, at: usize, bits: u8) -> Making {
        let byte = self.sheet[at] ^ bits;
        self.write(at, &[byte])
    }
}
