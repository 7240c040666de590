//! Records as bytes, random runs of a sheet, and random sheets with long runs. The ticks of an event
//! are found here by their least and greatest, not by `may_end`, so that a random run also tries
//! the follower.

use crate::field::{field, HEADER};
use crate::generator::Random;
use crate::record_follow::{ranges, EVENT_LENGTH, EVENT_TAG, START_LENGTH, START_TAG};
use crate::record_rule::State;
use crate::record_sheet::{signed, Sheet, LOCK};
use crate::sheet_parts::*;

pub fn start(value: i32) -> Vec<u8> {
    field(START_TAG, &value.to_be_bytes())
}

/// Of the tick only the sixteen low bits are recorded.
pub fn event(thread: u8, tick: u64) -> Vec<u8> {
    let [high, low] = (tick as u16).to_be_bytes();
    field(EVENT_TAG, &[thread, high, low])
}

pub fn record(values: &[i32], events: &[(u8, u64)]) -> Vec<u8> {
    let starts = values.iter().map(|&value| start(value));
    starts.chain(events.iter().map(|&(thread, tick)| event(thread, tick))).flatten().collect()
}

/// A run; `fault` is 10 or 16 if the arithmetic of its last event has no result.
pub struct Run {
    pub values: Vec<i32>,
    pub events: Vec<(u8, u64)>,
    pub finished: bool,
    pub fault: u8,
}

impl Run {
    pub fn bytes(&self) -> Vec<u8> {
        record(&self.values, &self.events)
    }

    /// The five numbers of its record.
    pub fn numbers(&self) -> [usize; 5] {
        if self.fault != 0 {
            let starts = self.values.len() * (HEADER + START_LENGTH);
            let place = starts + (self.events.len() - 1) * (HEADER + EVENT_LENGTH);
            return [self.fault.into(), 1, place, 0, 0];
        }
        let tick = self.events.last().map_or(0, |&(_, tick)| tick as usize);
        [0, 0, 0, self.finished.into(), tick]
    }
}

impl Random {
    /// An end of low..high or any number of it, so that ends come often.
    pub fn of_range(&mut self, low: i64, high: i64) -> i64 {
        match self.below(3) {
            0 => low,
            1 => high,
            _ => low + self.below((high - low) as usize + 1) as i64,
        }
    }
}

/// The last tick of the events before.
pub fn latest(state: &State) -> u64 {
    state.threads.iter().map(|own| own.clock).max().unwrap_or(0)
}

/// The least tick by which every live thread must have ended its statement.
pub fn bound(sheet: &Sheet, state: &State) -> Option<u64> {
    let live = (0..state.threads.len()).filter(|&thread| state.live(sheet, thread));
    live.map(|thread| state.threads[thread].clock + state.statement(sheet, thread).greatest).min()
}

/// The least and the greatest tick at which the thread has an event.
pub fn ticks(sheet: &Sheet, state: &State, thread: usize) -> Option<(u64, u64)> {
    if !state.live(sheet, thread) {
        return None;
    }
    let own = state.threads[thread].clock + state.statement(sheet, thread).least;
    let (from, to) = (own.max(latest(state)), bound(sheet, state)?);
    (from <= to).then_some((from, to))
}

/// A random run of at most so many events; it ends sooner where it finishes, or where arithmetic
/// has no result.
pub fn random_run(sheet: &Sheet, random: &mut Random, most: usize) -> Run {
    let value = |(low, high): (i32, i32)| random.of_range(low.into(), high.into()) as i32;
    let values: Vec<i32> = ranges(sheet).into_iter().map(value).collect();
    let mut state = State::new(sheet, &values);
    let (mut events, mut fault) = (Vec::new(), 0);
    while events.len() < most && fault == 0 && !state.finished(sheet) {
        let choice = |thread| ticks(sheet, &state, thread).map(|ticks| (thread, ticks));
        let choices: Vec<_> = (0..state.threads.len()).filter_map(choice).collect();
        let (thread, (from, to)) = random.pick(&choices);
        let tick = random.of_range(from as i64, to as i64) as u64;
        events.push((thread as u8, tick));
        fault = state.end(sheet, thread, tick).err().unwrap_or(0);
    }
    Run { values, events, finished: fault == 0 && state.finished(sheet), fault }
}

// ---- random sheets

impl Random {
    fn long_times(&mut self) -> Times {
        let times =
            [(1, 1), (1, 3), (1, 65_535), (20_000, 40_000), (65_535, 65_535), (65_000, 65_535), (32_768, 32_769)];
        self.pick(&times)
    }

    fn long_statement(&mut self, length: u8) -> Vec<u8> {
        let times = self.long_times();
        let (r, name) = (self.below(2) as u8, self.below(2) as u8);
        let code = self.pick(&[18, 18, 19, 20, 21]);
        let operand = constant(self.pick(&[-3, -2, -1, 0, 1, 2, 7, 46_341]));
        match self.below(12) {
            0 => skip(times),
            1 => assign(times, r, &both(code, register(r), operand)),
            2 => assign(times, r, &both(code, register(r), register(1 - r))),
            3 => jump(times, self.below(length.into()) as u8, &both(37, register(r), operand)),
            4 => jump(times, self.below(length.into()) as u8, &not(both(36, register(0), register(1)))),
            5 => store(times, r, name),
            6 => load(times, r, name),
            7 => unlock(times, name),
            _ => lock(times, name),
        }
    }

    /// One to four threads of long times, most of them without an end.
    pub fn long_sheet(&mut self) -> Vec<u8> {
        let mut threads = Vec::new();
        for _ in 0..self.pick(&[1, 2, 2, 2, 3, 4]) {
            let length = self.pick(&[1, 2, 3]);
            let mut statements: Vec<_> = (0..length).map(|_| self.long_statement(length)).collect();
            if self.below(3) > 0 {
                statements.push(jump(self.long_times(), 0, &[32]));
            }
            let range = self.pick(&[(-9, 9), (0, 0), (1, 3), (-70_000, 70_000)]);
            threads.push(thread(&[range, (-2, 2)], &statements));
        }
        sheet(2, &[(-1, 1), (5, 7)], &threads)
    }
}

// ---- what a run comes to

/// What a record that is a run comes to.
pub struct Seen {
    pub events: usize,
    /// events that leave their thread at a lock
    pub failed_tries: usize,
    /// how often the recorder's clock starts over
    pub turns: usize,
}

/// The record is a run of the sheet.
pub fn seen(sheet: &Sheet, record: &[u8]) -> Seen {
    let (starts, events) = record.split_at(ranges(sheet).len() * (HEADER + START_LENGTH));
    let starts = starts.chunks(HEADER + START_LENGTH);
    let values: Vec<i32> = starts.map(|field| signed(&field[HEADER..])).collect();
    let mut state = State::new(sheet, &values);
    let mut seen = Seen { events: 0, failed_tries: 0, turns: 0 };
    let mut tick = 0;
    for field in events.chunks(HEADER + EVENT_LENGTH) {
        let (thread, clock) = (usize::from(field[HEADER]), u16::from_be_bytes([field[4], field[5]]));
        let before = state.threads[thread].statement;
        let tries = state.statement(sheet, thread).code == LOCK;
        seen.turns += usize::from(clock < tick as u16);
        tick += u64::from(clock.wrapping_sub(tick as u16));
        state.end(sheet, thread, tick).expect("a run has results");
        seen.events += 1;
        seen.failed_tries += usize::from(tries && state.threads[thread].statement == before);
    }
    seen
}
