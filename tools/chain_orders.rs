//! Chains of changes that are taken back in order and out of order.

use crate::chain_sheets::{halt_between, halt_first, short, threads, two_bytes};
use crate::chain_steps::{movable, Case, Making, Name};
use crate::entries::Cases;
use crate::retime_asked::{named, own_times, Times};
use crate::retime_sheets::{a, b, c, d, every_code, full, long_times, wide};

/// New times, each other than the next.
const NEW: [Times; 6] = [(4, 9), (1, 1), (0x0102, 0x0304), (5, 5), (1, 65_535), (65_535, 65_535)];

/// Every order of the numbers below this.
pub fn orders(count: usize) -> Vec<Vec<usize>> {
    let Some(last) = count.checked_sub(1) else { return vec![vec![]] };
    let with_last = |order: Vec<usize>| {
        (0..=order.len()).map(move |at| [&order[..at], &[last], &order[at..]].concat()).collect::<Vec<_>>()
    };
    orders(last).into_iter().flat_map(with_last).collect()
}

/// The last first.
pub fn backwards(count: usize) -> Vec<usize> {
    (0..count).rev().collect()
}

/// Statements of a sheet with their times: those that are no halts or, of a sheet of halts alone, all.
fn with_times(sheet: &[u8]) -> Vec<(Name, Times)> {
    let others: Vec<_> = movable(sheet).into_iter().map(|(name, place)| (name, own_times(sheet, place))).collect();
    if !others.is_empty() {
        return others;
    }
    named(sheet).into_iter().map(|(thread, statement, _)| ((thread, statement), (0, 0))).collect()
}

/// Lists of changes of a sheet: of one statement and of several, there and back, and ones that change nothing.
fn lists(sheet: &[u8]) -> Vec<Vec<(Name, Times)>> {
    let movable = with_times(sheet);
    let last = movable.len() - 1;
    let ((a, own), (b, other)) = (movable[0], movable[last]);
    let (halt, middle) =
        (named(sheet).last().map_or(a, |&(thread, statement, _)| (thread, statement)), movable[last / 2].0);
    let [one, two, three, four, ..] = NEW;
    vec![
        vec![(a, one)],
        vec![(a, own)],
        vec![(a, one), (b, two)],
        vec![(a, one), (a, two)],
        vec![(b, one), (b, one)],
        vec![(a, one), (a, two), (a, three)],
        vec![(a, one), (a, own), (a, one)],
        vec![(a, one), (b, two), (a, three)],
        vec![(b, three), (b, other), (a, four)],
        vec![(halt, (0, 0)), (a, one), (halt, (0, 0))],
        vec![(a, one), (a, two), (b, one), (b, two)],
        vec![(a, four), (b, three), (a, own), (middle, one)],
    ]
}

/// Every order of up to three, and some orders of four.
fn some_orders(count: usize) -> Vec<Vec<usize>> {
    let all = orders(count);
    let every = if all.len() > 6 { 5 } else { 1 };
    all.into_iter().step_by(every).collect()
}

impl Cases<Case> {
    /// A list of changes taken back in every order, the last first with one left out or taken back twice.
    fn taken_back(&mut self, sheet: &[u8], list: &[(Name, Times)]) {
        let changed = Making::of(sheet).changes(list);
        let backwards = backwards(list.len());
        for order in some_orders(list.len()) {
            self.put(changed.clone().backs(&order).case);
        }
        for left in 0..list.len() {
            let without: Vec<usize> = backwards.iter().copied().filter(|&nth| nth != left).collect();
            let twice: Vec<usize> = backwards.iter().flat_map(|&nth| vec![nth; 1 + usize::from(nth == left)]).collect();
            self.put(changed.clone().backs(&without).case);
            self.put(changed.clone().backs(&twice).case);
        }
    }

    pub fn in_orders(&mut self) {
        for sheet in [b(), c(), halt_between(), threads(3), threads(4), two_bytes()] {
            for list in lists(&sheet) {
                self.taken_back(&sheet, &list);
            }
        }
        for sheet in [a(), d(), halt_first(), every_code(), long_times()] {
            for list in lists(&sheet) {
                self.put(Making::of(&sheet).changes(&list).backs(&backwards(list.len())).case);
            }
        }
        for sheet in [wide(), full()] {
            for list in &lists(&sheet)[7..9] {
                self.put(Making::of(&sheet).changes(list).backs(&backwards(list.len())).case);
            }
        }
    }

    /// Twelve steps: six changes and as many taken back; a change taken back before the next is made; the
    /// same change made and taken back again and again.
    pub fn long_chains(&mut self) {
        for sheet in short() {
            let movable = with_times(&sheet);
            let at = |nth: usize| (movable[nth % movable.len()].0, NEW[nth]);
            let six: Vec<(Name, Times)> = (0..6).map(at).collect();
            let changed = Making::of(&sheet).changes(&six);
            for order in [[5, 4, 3, 2, 1, 0], [0, 1, 2, 3, 4, 5], [5, 3, 1, 4, 2, 0], [3, 2, 5, 4, 1, 0]] {
                self.put(changed.clone().backs(&order).case);
            }
            let one_by_one = |chain: Making, nth: usize| chain.change(at(nth).0, at(nth).1).back(nth);
            self.put((0..6).fold(Making::of(&sheet), one_by_one).case);
            let again = |chain: Making, nth: usize| chain.change(at(0).0, at(0).1).back(nth / 2);
            self.put((0..6).fold(Making::of(&sheet), again).case);
            // taken back, made again, and taken back by the numbers of the first time
            let one = Making::of(&sheet).changes(&six[..1]).back(0).changes(&six[..1]).back(0).back(1);
            self.put(one.case);
            // the second is left, and the first taken back behind a new change of the same statement
            let name = six[0].0;
            self.put(
                Making::of(&sheet).changes(&[(name, NEW[0]), (name, NEW[1]), (name, NEW[0])]).backs(&[0, 2, 1]).case,
            );
        }
    }
}
