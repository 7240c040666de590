//! Events per second of the follower, by the kind of sheet and the length of the record; and for the longest record its microseconds
//! and the events per second of the separately written follower, records.rs. The records are random runs.
//!
//!     bench_follow     the best of twenty runs of each, by turns, in one process; of three for the two widest expressions
//!
//! The time is the processor's, not the clock's, so that other programs on the machine disturb it less. That of reading the sheet is
//! in it. No run finishes: the record ends it.

#[allow(dead_code)]
mod field;
#[allow(dead_code)]
mod generator;
#[allow(dead_code)]
mod oracle;
#[allow(dead_code)]
mod record_follow;
mod record_rule;
#[allow(dead_code)]
mod record_runs;
mod record_sheet;
#[allow(dead_code)]
mod sheet_parts;
mod sheet_reads;
mod timing;
#[allow(dead_code)]
mod zumbeiry_follow;

use generator::Random;
use record_runs::random_run;
use sheet_parts::*;
use std::hint::black_box;
use std::time::Duration;
use timing::timed;

const RUNS: usize = 20;
const WIDE_RUNS: usize = 3;
/// The most bytes of a record.
const LENGTHS: [usize; 3] = [16_384, 32_768, 65_536];

const PLUS: u8 = 18;
const MINUS: u8 = 19;
const TIMES: u8 = 20;
const DIVIDE: u8 = 21;
const TRUE: [u8; 1] = [32];
const AND: u8 = 35;
const EQUAL: u8 = 36;
const LESS: u8 = 37;

/// A thread that goes through its statements again and again.
fn looped(registers: &[(i32, i32)], mut statements: Vec<Vec<u8>>) -> Vec<u8> {
    statements.push(jump((1, 2), 0, &TRUE));
    thread(registers, &statements)
}

fn skips() -> Vec<u8> {
    looped(&[], vec![skip((1, 9)); 62])
}

/// Takes a lock, counts a variable up, behind 9 from 0 again, and gives the lock back.
fn locking() -> Vec<u8> {
    let statements = vec![
        lock((2, 3), 0),
        load((1, 1), 0, 0),
        assign((1, 1), 0, &both(PLUS, register(0), constant(1))),
        jump((1, 1), 5, &below(0, 10)),
        assign((1, 1), 0, &constant(0)),
        store((1, 1), 0, 0),
        unlock((1, 1), 0),
    ];
    looped(&[(0, 0)], statements)
}

/// Expressions and conditions on r0, which counts up to 9, r1, which stays above 0, and r2.
fn arithmetic() -> Vec<u8> {
    let weighed = both(PLUS, both(TIMES, register(1), constant(7)), register(0));
    let quotient = both(DIVIDE, weighed, both(PLUS, register(1), constant(1)));
    let condition = both(
        AND,
        not(both(LESS, register(2), both(PLUS, register(1), constant(2)))),
        both(AND, below(1, 9), not(both(EQUAL, register(2), register(0)))),
    );
    let half = both(DIVIDE, both(PLUS, register(1), register(0)), constant(2));
    let statements = vec![
        assign((1, 2), 2, &both(MINUS, quotient, both(TIMES, register(0), constant(2)))),
        jump((1, 3), 3, &condition),
        assign((1, 1), 1, &both(PLUS, half, constant(1))),
        assign((1, 2), 0, &both(PLUS, register(0), constant(1))),
        jump((1, 2), 0, &below(0, 9)),
        assign((1, 1), 0, &constant(0)),
    ];
    looped(&[(0, 9), (1, 3), (0, 0)], statements)
}

/// An expression twelve deep, of eleven operators.
fn chain() -> Vec<u8> {
    let around = |inner, &code: &u8| both(code, inner, constant(3));
    [PLUS, TIMES, DIVIDE, MINUS].iter().cycle().take(11).fold(register(1), around)
}

fn nested() -> Vec<u8> {
    let condition = (0..10).fold(both(LESS, register(0), constant(7)), |inner, _| not(inner));
    looped(&[(0, 0), (1, 90)], vec![assign((1, 2), 0, &chain()), jump((1, 2), 2, &condition)])
}

/// The operator on the operator and so on, with as many leaves as there may be.
fn widest(code: u8, leaf: &[u8], depth: usize) -> Vec<u8> {
    match depth {
        1 => leaf.to_vec(),
        _ => both(code, widest(code, leaf, depth - 1), widest(code, leaf, depth - 1)),
    }
}

/// What a sheet has, how often it is timed, and the sheet.
fn cases() -> Vec<(&'static str, usize, Vec<u8>)> {
    let plain = |threads: &[Vec<u8>]| sheet(0, &[], threads);
    let guarded = |threads: &[Vec<u8>]| sheet(1, &[(0, 0)], threads);
    let alone = |statement| plain(&[looped(&[(0, 0), (1, 90)], vec![statement])]);
    let sum = widest(PLUS, &register(1), 12);
    let comparisons = |depth| widest(AND, &both(LESS, register(0), register(1)), depth);
    vec![
        ("1 thread, skips", RUNS, plain(&[skips()])),
        ("2 threads, skips", RUNS, plain(&vec![skips(); 2])),
        ("4 threads, skips", RUNS, plain(&vec![skips(); 4])),
        ("2 threads, a lock", RUNS, guarded(&vec![locking(); 2])),
        ("4 threads, a lock", RUNS, guarded(&vec![locking(); 4])),
        ("1 thread, ifs and arithmetic", RUNS, plain(&[arithmetic()])),
        ("4 threads, ifs and arithmetic", RUNS, plain(&vec![arithmetic(); 4])),
        ("1 thread, expressions twelve deep", RUNS, plain(&[nested()])),
        ("1 thread, an if of 4 comparisons", RUNS, alone(jump((1, 2), 0, &comparisons(3)))),
        ("1 thread, every other event a sum of 2,048 registers", WIDE_RUNS, alone(assign((1, 2), 0, &sum))),
        ("1 thread, an if of 1,024 comparisons", WIDE_RUNS, alone(jump((1, 2), 0, &comparisons(11)))),
    ]
}

fn main() {
    println!("\n| sheet | 16,384 bytes, events/s | 32,768 bytes | 65,536 bytes | microseconds | `records.rs`, events/s |");
    println!("|---|---|---|---|---|---|");
    for (name, runs, bytes) in cases() {
        let sheet = record_sheet::read(&bytes).unwrap_or_else(|fault| panic!("{name}: {fault:?}"));
        let starts = 7 * record_follow::ranges(&sheet).len();
        let (mut rates, mut last, mut other) = (Vec::new(), Duration::MAX, 0.0);
        for length in LENGTHS {
            let events = (length - starts) / 6;
            let run = random_run(&sheet, &mut Random(1), events);
            assert_eq!(run.events.len(), events, "{name}: the run ends early");
            let record = run.bytes();
            let (mut library, mut theirs) = (Duration::MAX, Duration::MAX);
            for _ in 0..runs {
                let answer = timed(&mut library, || zumbeiry_follow::follow(black_box(&bytes), black_box(&record)));
                let expected = timed(&mut theirs, || record_follow::follow(black_box(&bytes), black_box(&record)));
                assert_eq!(answer, run.numbers().map(|number| number as u64), "{name}");
                assert_eq!(expected.numbers(), run.numbers(), "{name}");
            }
            let per_second = |time: Duration| events as f64 / time.as_secs_f64();
            rates.push(format!("{:.0}", per_second(library)));
            (last, other) = (library, per_second(theirs));
        }
        println!("| {name} | {} | {:.0} | {other:.0} |", rates.join(" | "), last.as_secs_f64() * 1e6);
    }
}
