//! Sheets for a corpus of records: some whose arithmetic has no result, and the counted loops of the
//! longest records.

use crate::sheet_parts::*;

/// The values are 0 or 1 and 46,341. A divisor that is 0, a result off the 32-bit values and both, in an
/// assignment, on either side of a comparison, under not and on either side of an "and"; beside
/// another thread.
pub fn without_result() -> Vec<Vec<u8>> {
    let zero = || both(21, register(1), register(0));
    let size = || both(20, register(1), constant(46_341));
    let lowest = both(21, constant(i32::MIN), both(19, register(0), constant(1)));
    let two = [both(18, zero(), size()), both(18, size(), zero()), both(21, size(), register(0))];
    let mut statements = Vec::new();
    for value in [&[zero(), size(), lowest][..], &two].concat() {
        statements.push(assign((2, 3), 0, &value));
        let test = || both(37, value.clone(), constant(5));
        let fails = || below(1, 0);
        let mut tests = vec![test(), not(test()), both(36, register(0), value.clone())];
        tests.extend([both(35, fails(), test()), both(35, test(), fails())]);
        tests.push(both(35, test(), both(37, zero(), both(21, register(0), constant(2)))));
        tests.push(both(36, value.clone(), zero()));
        statements.extend(tests.iter().map(|test| jump((2, 3), 1, test)));
    }
    let other = thread(&[], &[skip((1, 3)), skip((1, 1))]);
    let beside = |statement| sheet(0, &[], &[thread(&[(0, 1), (46_341, 46_341)], &[statement]), other.clone()]);
    statements.into_iter().map(beside).collect()
}

/// Skips, then so many turns of a loop of two statements.
pub fn counted(variables: usize, skips: usize, turns: i32) -> Vec<u8> {
    let more = both(18, register(0), constant(1));
    let twice = [assign((60_000, 65_535), 0, &more), jump((1, 9), skips as u8, &below(0, turns))];
    let statements = [vec![skip((1, 1)); skips], twice.to_vec()].concat();
    sheet(0, &vec![(0, 0); variables], &[thread(&[(0, 0)], &statements)])
}
