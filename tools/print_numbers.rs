//! Cases of numbers: about each power of ten and the ends of each range, in every place that a line has a number in;
//! every name; as many and as few lines of each kind as there may be.

use crate::entries::Cases;
use crate::print_answer::Case;
use crate::print_cases::of_statements;
use crate::retime_sheets::WIDE;
use crate::sheet_parts::*;

/// About each power of ten and each power of 256, up to the most.
fn about_powers(most: i64) -> Vec<i64> {
    let tens = (0..10).map(|power| 10i64.pow(power));
    let bytes = (1..4).map(|power| 256i64.pow(power));
    let about = |power: i64| [power - 1, power, power + 1, 7 * power];
    let mut all: Vec<i64> = tens.chain(bytes).flat_map(about).chain([most - 1, most]).collect();
    all.retain(|&number| number <= most);
    all
}

/// The same with a minus too, and the lowest value.
fn values() -> Vec<i32> {
    let positive = about_powers(i32::MAX.into());
    positive.iter().flat_map(|&value| [value as i32, -(value as i32)]).chain([i32::MIN, i32::MIN + 1]).collect()
}

impl Cases<Case> {
    pub fn numbers(&mut self) {
        for some in values().chunks(6) {
            let values: Vec<Vec<u8>> = some.iter().map(|&value| assign((1, 1), 0, &constant(value))).collect();
            self.fit(&of_statements(&values));
        }
        for value in values() {
            let ranges = [(value.min(0), value.max(0)), (value, value)];
            self.fit(&sheet(0, &ranges[..1], &[thread(&ranges[1..], &[])]));
        }
        for some in about_powers(65_535)[1..].chunks(3) {
            let times = |&time: &i64| [skip((1, time as u16)), lock((time as u16, time as u16), 0)];
            self.fit(&of_statements(&some.iter().flat_map(times).collect::<Vec<_>>()));
        }
        self.first_lines();
        self.names();
        self.counts();
    }

    fn first_lines(&mut self) {
        let halted = |first: First| sheet_of(first, 0, &[], &[thread(&[], &[])]);
        for number in about_powers(10_000_000).into_iter().map(|number| number as u32) {
            let limit = number.clamp(1, 1_000_000);
            // above the range, or 0, it is 4
            self.fit(&halted([number, 5, 0, number.min(1)]));
            self.fit(&halted([limit, number, 0, limit]));
            self.fit(&halted([1_000_000, 10_000_000, limit.min(number), limit]));
        }
        self.fit(&halted([1_000_000, 10_000_000, 1_000_000, 1_000_000]));
        self.fit(&halted([1_000_001, 1, 0, 0]));
        self.fit(&halted([1, 10_000_001, 0, 0]));
    }

    /// Each register, variable and lock, some targets; one more than there are is 5.
    fn names(&mut self) {
        let all = [(0, 0); 8];
        for name in 0..=8 {
            let statements = [
                store((1, 1), name, 7 - name.min(7)),
                load((1, 1), 7 - name.min(7), name.min(7)),
                lock((1, 1), name.min(7)),
                unlock((1, 1), name),
                assign((1, 1), name, &both(19, register(7 - name.min(7)), register(name))),
            ];
            for nth in 0..statements.len() {
                self.fit(&sheet(8, &all, &[thread(&all, &statements[nth..=nth])]));
            }
            self.fit(&sheet(8, &all, &[thread(&all, &statements)]));
        }
        for target in [0, 1, 9, 10, 11, 62, 63, 64, 99, 100, 255] {
            let skips = vec![skip((1, 1)); 62];
            let jumps = [jump((1, 1), target, &[33])];
            self.fit(&sheet(0, &[], &[thread(&[], &[&jumps[..], &skips].concat())]));
            self.fit(&sheet(0, &[], &[thread(&[], &jumps)]));
        }
    }

    /// Locks, variables, registers, threads and statements, up to one more than there may be; halts among them.
    fn counts(&mut self) {
        let ranges = [(-1, 1); 9];
        for count in 0..=9 {
            self.fit(&sheet(count as u8, &[], &[thread(&[], &[])]));
            self.fit(&sheet(0, &ranges[..count], &[thread(&[], &[])]));
            self.fit(&sheet(0, &[], &[thread(&ranges[..count], &[]), thread(&ranges[count / 2..count], &[])]));
            self.fit(&sheet(0, &[], &[thread(&[], &vec![halt(); count])]));
        }
        for count in 0..=5 {
            self.fit(&sheet_of(WIDE, 2, &[], &vec![thread(&[], &[lock((1, 9), 1), halt()]); count]));
        }
        for count in 0..=8 {
            let (some, few) = (&ranges[..count], vec![skip((1, 1)); count]);
            self.fit(&sheet(0, some, &[thread(&[], &few), thread(some, &vec![halt(); 64])]));
            self.fit(&sheet(0, some, &vec![thread(&ranges[..1], &few); 5]));
        }
        for count in [61, 62, 63, 64] {
            self.fit(&sheet(0, &[], &[thread(&[], &vec![skip((2, 3)); count]), thread(&[], &[])]));
        }
    }
}
