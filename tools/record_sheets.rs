//! The sheets chosen by hand whose runs a corpus of records is made of. Where a statement leads to one
//! of two, their times differ, so that a record shows which was taken.

use crate::sheet_parts::*;

/// Ranges of four starting values, no two of which share a number.
pub fn apart() -> Vec<u8> {
    let first = thread(&[(100, 109)], &[skip((1, 2))]);
    let second = thread(&[(-9, 9), (i32::MIN, i32::MIN + 1)], &[skip((2, 2)), skip((1, 3))]);
    sheet(0, &[(-20, -15), (i32::MAX - 1, i32::MAX)], &[first, second])
}

pub fn plain() -> Vec<Vec<u8>> {
    let alone = |statements: &[Vec<u8>]| sheet(0, &[], &[thread(&[], statements)]);
    vec![
        alone(&[]),
        alone(&[skip((2, 3))]),
        sheet(0, &[], &[thread(&[], &[skip((1, 4))]), thread(&[], &[skip((2, 3))])]),
        sheet(0, &[], &[thread(&[], &[skip((3, 3)), skip((5, 9))]), thread(&[], &[]), thread(&[], &[skip((1, 8))])]),
        alone(&[skip((1, 65_535)), skip((65_535, 65_535)), skip((1, 1)), skip((65_534, 65_535))]),
        sheet(0, &[], &[(1, 3), (2, 2), (1, 9), (3, 4)].map(|times| thread(&[], &[skip(times)]))),
        // the second thread's clock stays behind while the first has its events
        sheet(
            0,
            &[],
            &[
                thread(&[], &[skip((1, 40_000)), skip((1, 40_000)), skip((1, 40_000))]),
                thread(&[], &[skip((60_000, 65_535)), skip((30_000, 65_535))]),
            ],
        ),
        apart(),
    ]
}

pub fn locking() -> Vec<Vec<u8>> {
    let twice = thread(&[], &[lock((1, 2), 0), unlock((1, 2), 0)]);
    let keeps = thread(&[], &[lock((1, 1), 0)]);
    let late = thread(&[], &[skip((2, 2)), lock((2, 3), 0), skip((9, 9))]);
    let relocks = [lock((1, 2), 1), lock((3, 3), 1), skip((1, 1)), unlock((2, 2), 1), skip((1, 9))];
    let frees = [unlock((1, 2), 1), lock((2, 2), 1), unlock((4, 4), 1)];
    let deep = [lock((1, 1), 7), lock((1, 1), 7), unlock((1, 1), 7), skip((5, 6))];
    vec![
        sheet(1, &[], &[twice.clone(), twice]),
        sheet(1, &[], &[keeps, late]),
        // an unlock of another's lock, then tries at it
        sheet(
            1,
            &[],
            &[
                thread(&[], &[lock((1, 1), 0), skip((7, 8)), unlock((1, 1), 0)]),
                thread(&[], &[skip((2, 2)), unlock((1, 1), 0), lock((2, 2), 0), skip((20, 20))]),
            ],
        ),
        sheet(2, &[], &[thread(&[], &relocks), thread(&[], &frees)]),
        sheet(8, &[], &[thread(&[], &deep), thread(&[], &[skip((1, 4)), lock((1, 1), 7), lock((2, 2), 6)])]),
        sheet(
            2,
            &[],
            &[thread(&[], &[lock((1, 1), 0), lock((1, 1), 1)]), thread(&[], &[lock((1, 1), 1), lock((1, 1), 0)])],
        ),
    ]
}

/// Stores and loads between threads; the value loaded decides on the times.
pub fn messages() -> Vec<Vec<u8>> {
    let writes = thread(&[(0, 1), (7, 7)], &[store((1, 2), 0, 1), store((1, 1), 1, 0)]);
    let reads = [
        load((2, 2), 1, 1),
        jump((1, 1), 3, &below(1, 1)),
        skip((10, 10)),
        load((1, 1), 0, 0),
        jump((1, 1), 6, &below(0, 7)),
        skip((20, 20)),
    ];
    let own =
        [store((1, 1), 0, 0), load((1, 1), 1, 0), jump((1, 1), 4, &both(36, register(0), register(1))), skip((50, 50))];
    vec![
        sheet(0, &[(5, 6), (-3, -3)], &[writes, thread(&[(2, 2), (3, 3)], &reads)]),
        sheet(0, &[(0, 0)], &[thread(&[(1, 2), (3, 4)], &own)]),
    ]
}

/// Ifs of each kind; where the condition holds the next time is 20, else 10.
pub fn branches() -> Vec<Vec<u8>> {
    let two = both(36, register(1), constant(2));
    let conditions = [
        vec![32],
        vec![33],
        not(below(0, 3)),
        below(0, 3),
        two.clone(),
        both(35, below(0, 3), two.clone()),
        not(both(35, not(below(0, 3)), not(two))),
        both(37, register(1), register(0)),
    ];
    let on = |condition: &Vec<u8>| {
        let statements = [jump((1, 1), 3, condition), skip((10, 10)), halt(), skip((20, 20))];
        sheet(0, &[], &[thread(&[(2, 3), (2, 4)], &statements)])
    };
    conditions.iter().map(on).collect()
}

/// Quotients of both signs; the comparisons tell one from its neighbours.
pub fn quotients() -> Vec<Vec<u8>> {
    let divide = assign((1, 1), 0, &both(21, register(0), register(1)));
    let told = |quotient| {
        [jump((1, 1), 3, &below(0, quotient)), jump((1, 1), 4, &below(0, quotient + 1)), skip((40, 40)), skip((50, 50))]
    };
    let on = |dividend, divisor, quotient| {
        let statements = [vec![divide.clone()], told(quotient).to_vec()].concat();
        sheet(0, &[], &[thread(&[(dividend, dividend), (divisor, divisor)], &statements)])
    };
    let odd =
        [on(-7, 2, -4), on(7, -2, -4), on(7, 2, 3), on(-7, -2, 3), on(-1, i32::MAX, -1), on(i32::MAX, i32::MIN, -1)];
    [&odd[..], &[on(-8, 2, -4), on(8, -2, -4), on(i32::MIN, 1, i32::MIN), on(1, -3, -1)]].concat()
}

/// Loops: counted ones, and ones without an end.
pub fn loops() -> Vec<Vec<u8>> {
    let more = both(18, register(0), constant(1));
    let counted = [assign((1, 2), 0, &more), jump((1, 1), 0, &below(0, 3))];
    let endless = |times| thread(&[], &[skip(times), jump(times, 0, &[32])]);
    vec![
        sheet(0, &[], &[thread(&[(0, 2)], &counted)]),
        sheet(0, &[], &[endless((65_535, 65_535))]),
        sheet(0, &[], &[endless((65_000, 65_535)), endless((1, 65_535))]),
        sheet(0, &[], &[endless((30_000, 50_000)), endless((20_000, 65_535)), endless((65_535, 65_535))]),
    ]
}
