//! Sheets made of their parts, and sheets that do not read. A module of records.rs, retimes.rs, chains.rs,
//! mends.rs, texts.rs and prints.rs.

use crate::field::field;

/// Lowest and highest starting value.
pub type Range = (i32, i32);
pub type Times = (u16, u16);

pub fn constant(value: i32) -> Vec<u8> {
    [&[16], &value.to_be_bytes()[..]].concat()
}

pub fn register(register: u8) -> Vec<u8> {
    vec![17, register]
}

/// An operator, a comparison or an "and", by its code.
pub fn both(code: u8, left: Vec<u8>, right: Vec<u8>) -> Vec<u8> {
    [vec![code], left, right].concat()
}

pub fn not(condition: Vec<u8>) -> Vec<u8> {
    [vec![34], condition].concat()
}

/// `r < value`
pub fn below(r: u8, value: i32) -> Vec<u8> {
    both(37, register(r), constant(value))
}

fn statement((least, greatest): Times, rest: &[u8]) -> Vec<u8> {
    field(6, &[&least.to_be_bytes()[..], &greatest.to_be_bytes(), rest].concat())
}

pub fn halt() -> Vec<u8> {
    statement((0, 0), &[0])
}

pub fn skip(times: Times) -> Vec<u8> {
    statement(times, &[1])
}

pub fn assign(times: Times, register: u8, value: &[u8]) -> Vec<u8> {
    statement(times, &[&[2, register], value].concat())
}

pub fn jump(times: Times, target: u8, condition: &[u8]) -> Vec<u8> {
    statement(times, &[&[3, target], condition].concat())
}

pub fn store(times: Times, register: u8, variable: u8) -> Vec<u8> {
    statement(times, &[4, register, variable])
}

pub fn load(times: Times, register: u8, variable: u8) -> Vec<u8> {
    statement(times, &[5, register, variable])
}

pub fn unlock(times: Times, lock: u8) -> Vec<u8> {
    statement(times, &[6, lock])
}

pub fn lock(times: Times, lock: u8) -> Vec<u8> {
    statement(times, &[7, lock])
}

fn range_field(tag: u8, (low, high): Range) -> Vec<u8> {
    field(tag, &[low.to_be_bytes(), high.to_be_bytes()].concat())
}

/// A thread; a halt is put behind its statements.
pub fn thread(registers: &[Range], statements: &[Vec<u8>]) -> Vec<u8> {
    let ranges = registers.iter().map(|&range| range_field(5, range)).collect::<Vec<_>>().concat();
    [field(4, &[registers.len() as u8]), ranges, statements.concat(), halt()].concat()
}

/// What the sheet's first field says: time limit, budget, label low and high.
pub type First = [u32; 4];

pub fn sheet_of(first: First, locks: u8, variables: &[Range], threads: &[Vec<u8>]) -> Vec<u8> {
    let first = field(1, &first.map(u32::to_be_bytes).concat());
    let ranges = variables.iter().map(|&range| range_field(2, range)).collect::<Vec<_>>().concat();
    [first, field(3, &[locks]), ranges, threads.concat()].concat()
}

/// Limit 1 and label 0..0: most runs go past both.
pub fn sheet(locks: u8, variables: &[Range], threads: &[Vec<u8>]) -> Vec<u8> {
    sheet_of([1, 1, 0, 0], locks, variables, threads)
}

/// Each of 1 to 9, made of this sheet (43 bytes) or of another; the last is too long.
pub fn unreadable(good: &[u8]) -> Vec<Vec<u8>> {
    let odd = |statement: Vec<u8>| sheet(1, &[(0, 0)], &[thread(&[(0, 0)], &[statement])]);
    let many = sheet(0, &[(0, 0); 9], &[thread(&[], &[])]);
    let mut sheets = vec![vec![], good[..42].to_vec(), good[..27].to_vec(), good[..35].to_vec(), many];
    sheets.push([&good[..19], &[2, 0, 0], &good[22..]].concat());
    sheets.push([&good[..25], &[0, 0], &good[26..]].concat());
    sheets.extend([odd(skip((0, 3))), odd(skip((3, 2))), odd(store((1, 1), 1, 0)), odd(lock((1, 1), 1))]);
    sheets.extend([odd(jump((1, 1), 2, &[32])), odd(jump((1, 1), 1, &[16])), odd(assign((1, 1), 0, &[99]))]);
    sheets.push([sheet(0, &[], &[]), [0; 16_362].to_vec()].concat());
    sheets
}
