//! The sheets chosen by hand whose statements get new times: the paper's, and some whose search gives
//! another refusal with other times. A module of retimes.rs, chains.rs, mends.rs, texts.rs and prints.rs.

use crate::sheet_parts::*;

/// "Unless said: limit 10, budget 100, label 0..10"
const PAPER: First = [10, 100, 0, 10];
/// Limit, budget and label that most searches stay within.
pub const WIDE: First = [1_000_000, 2000, 0, 1_000_000];

/// A sheet with another first field.
pub fn headed(sheet: &[u8], first: First) -> Vec<u8> {
    [&sheet[..3], &first.map(u32::to_be_bytes).concat(), &sheet[19..]].concat()
}

// ---- "Sheets to try"

pub fn a() -> Vec<u8> {
    sheet_of(PAPER, 0, &[], &[thread(&[], &[])])
}

/// By its bytes: the first field is 19 bytes long, the lock field 4, the thread's 4; the skip stands at
/// 27, the halt at 35.
pub fn b() -> Vec<u8> {
    let first = [1, 0, 16, 0, 0, 0, 10, 0, 0, 0, 100, 0, 0, 0, 2, 0, 0, 0, 3];
    let skip = [6, 0, 5, 0, 2, 0, 3, 1];
    let halt = [6, 0, 5, 0, 0, 0, 0, 0];
    [&first[..], &[3, 0, 1, 0, 4, 0, 1, 0], &skip, &halt].concat()
}

pub fn c() -> Vec<u8> {
    sheet_of(PAPER, 0, &[], &[thread(&[], &[skip((1, 4))]), thread(&[], &[skip((2, 3))])])
}

pub fn d() -> Vec<u8> {
    let one = thread(&[], &[lock((1, 1), 0), unlock((1, 1), 0)]);
    sheet_of(PAPER, 1, &[], &[one.clone(), one])
}

pub fn e() -> Vec<u8> {
    let locks = |first, second| thread(&[], &[lock((1, 1), first), lock((1, 1), second)]);
    sheet_of(PAPER, 2, &[], &[locks(0, 1), locks(1, 0)])
}

pub fn f() -> Vec<u8> {
    let statements = [jump((1, 1), 2, &below(0, 5)), skip((10, 10))];
    sheet_of([11, 100, 0, 11], 0, &[], &[thread(&[(0, 9)], &statements)])
}

/// 10 divided by this range.
pub fn g(range: Range) -> Vec<u8> {
    let quotient = both(21, constant(10), register(0));
    sheet_of(PAPER, 0, &[], &[thread(&[range], &[assign((1, 1), 0, &quotient)])])
}

/// A register 3..4 compared with itself, by the comparison's code.
pub fn h(code: u8) -> Vec<u8> {
    let statements = [jump((1, 1), 2, &both(code, register(0), register(0))), skip((2, 2))];
    sheet_of(PAPER, 0, &[], &[thread(&[(3, 4)], &statements)])
}

/// Of B and C also with the limits, labels and budgets that the paper tries.
pub fn of_the_paper() -> Vec<Vec<u8>> {
    let firsts = [[10, 100, 3, 3], [2, 100, 0, 2], [3, 100, 0, 3], [10, 1, 2, 3]];
    let mut sheets = vec![a(), b(), c(), d(), e(), f(), g((-1, 1)), g((1, 5)), h(36), h(37)];
    sheets.extend(firsts.map(|first| headed(&b(), first)));
    sheets.push(headed(&c(), [10, 4, 0, 10]));
    sheets
}

// ---- sheets whose refusal depends on times

/// A sheet, and the statement whose times decide.
pub struct Turning {
    pub sheet: Vec<u8>,
    pub thread: u64,
    pub statement: u64,
}

/// One thread stores a value, another loads it behind a skip of these times and works something out: 10
/// or 16 where it is loaded after the store.
fn message(value: i32, result: &[u8], times: Times) -> Vec<u8> {
    let stores = thread(&[(value, value)], &[skip((5, 5)), store((1, 1), 0, 0)]);
    let loads = thread(&[(1, 1)], &[skip(times), load((1, 1), 0, 0), assign((1, 1), 0, result)]);
    sheet_of([30, 200, 0, 30], 0, &[(1, 1)], &[stores, loads])
}

/// Two threads that take two locks in both orders, the second behind a skip of these times.
fn crossing(times: Times) -> Vec<u8> {
    let locks = |first, second| {
        [lock((1, 1), first), lock((1, 1), second), unlock((1, 1), second), unlock((1, 1), first)]
    };
    let behind = [&[skip(times)], &locks(1, 0)[..]].concat();
    sheet_of([40, 500, 0, 40], 2, &[], &[thread(&[], &locks(0, 1)), thread(&[], &behind)])
}

/// Skips of as many threads, one behind the other unless their times are changed.
fn steps(first: First, threads: u16) -> Vec<u8> {
    let alone = |at: u16| thread(&[], &[skip((3 * at + 1, 3 * at + 2))]);
    sheet_of(first, 0, &[], &(0..threads).map(alone).collect::<Vec<_>>())
}

/// For each of 10 to 16, some sheet gets it by new times, and some loses it.
pub fn turning() -> Vec<Turning> {
    let turning = |sheet, thread, statement| Turning { sheet, thread, statement };
    let quotient = both(21, constant(10), register(0));
    let product = both(20, register(0), constant(65_536));
    vec![
        turning(message(0, &quotient, (1, 2)), 1, 0),
        turning(message(0, &quotient, (9, 9)), 1, 0),
        turning(message(65_536, &product, (8, 9)), 1, 0),
        turning(message(65_536, &product, (1, 2)), 1, 1),
        turning(crossing((9, 9)), 1, 0),
        turning(crossing((1, 1)), 1, 0),
        turning(steps([20, 100, 0, 20], 3), 2, 0),
        turning(steps([20, 5, 0, 20], 3), 1, 0),
        turning(steps([20, 12, 1, 9], 3), 0, 0),
        turning(steps([8, 100, 5, 8], 3), 2, 0),
        turning(steps([12, 300, 11, 11], 4), 3, 0),
        turning(c(), 1, 0),
        turning(headed(&c(), [10, 4, 0, 10]), 1, 0),
        turning(headed(&b(), [2, 100, 0, 2]), 0, 0),
    ]
}

// ---- sheets of many fields

/// Variables and registers, statements of every code and length in two threads, a halt before the last.
pub fn every_code() -> Vec<u8> {
    let more = both(18, register(0), both(20, constant(2), register(1)));
    let first = [skip((1, 2)), assign((2, 3), 0, &more), jump((1, 1), 4, &not(below(0, 3))), halt(), store((1, 2), 1, 0)];
    let second = [lock((1, 1), 0), load((1, 3), 0, 1), unlock((2, 2), 0), jump((1, 1), 5, &[32]), skip((9, 9))];
    let threads = [thread(&[(1, 2), (3, 3)], &first), thread(&[(0, 0)], &second)];
    sheet_of([60, 400, 0, 60], 1, &[(4, 5), (-6, -6)], &threads)
}

/// Four threads, the first with the most statements, the last with one; places above 255.
pub fn wide() -> Vec<u8> {
    let skips = |count: u16| (0..count).map(|at| skip((at + 1, at + 1))).collect::<Vec<_>>();
    let eight = [(-1, 1); 8];
    let threads = [thread(&eight, &skips(3)), thread(&eight, &skips(2)), thread(&eight, &skips(1)), thread(&[], &[])];
    sheet_of(WIDE, 8, &eight, &threads)
}

/// 64 statements in one thread; the last is the halt.
pub fn full() -> Vec<u8> {
    sheet_of(WIDE, 0, &[], &[thread(&[], &vec![skip((1, 1)); 63])])
}

/// A sum of 2^depth registers 0.
fn tree(depth: u8) -> Vec<u8> {
    match depth {
        0 => register(0),
        _ => both(18, tree(depth - 1), tree(depth - 1)),
    }
}

/// One thread of wide sums, skips and this statement, before the halt.
fn longest_with(statement: Vec<u8>) -> Vec<u8> {
    let sums = [11, 11, 10, 8].map(|depth| assign((1, 1), 0, &tree(depth)));
    let constants = [3, 2, 1].map(|value| assign((1, 1), 0, &constant(value)));
    let statements = [&sums[..], &constants, &vec![skip((1, 1)); 16], &[statement]].concat();
    sheet_of(WIDE, 1, &[], &[thread(&[(0, 0)], &statements)])
}

/// 16,384 bytes: 38 before the statements, 2 of 6152, 3080, 776, 3 of 14, 17 skips and the halt of 8.
pub fn longest() -> Vec<u8> {
    longest_with(skip((1, 1)))
}

/// A byte more: it would read but for its length.
pub fn too_long() -> Vec<u8> {
    longest_with(lock((1, 1), 0))
}

/// Two threads of long times, in two bytes that differ.
pub fn long_times() -> Vec<u8> {
    let far = thread(&[], &[skip((65_535, 65_535)), skip((65_279, 65_280)), skip((1, 65_535))]);
    sheet_of(WIDE, 0, &[], &[far, thread(&[], &[skip((256, 257)), skip((255, 65_280))])])
}
