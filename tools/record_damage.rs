//! What is wrong with a record: malformed fields, events near those that a rule allows, and random
//! damage.

use crate::field::{field, HEADER};
use crate::generator::Random;
use crate::record_follow::{EVENT_LENGTH, EVENT_TAG, START_LENGTH, START_TAG};
use crate::record_rule::State;
use crate::record_runs::{bound, event, latest, start};
use crate::record_sheet::Sheet;
use std::collections::BTreeSet;

/// What may stand where a field of this tag is due: headers cut short; then, with this tag, the
/// other and none, each of several lengths with fewer, as many and more bytes behind it. Some are
/// malformed in two ways, one of them is whole.
pub fn malformed(tag: u8, body: &[u8]) -> Vec<Vec<u8>> {
    let due = body.len() as u16;
    let more = [body, &[0, 1, 2]].concat();
    let mut all = Vec::new();
    for first in [tag, START_TAG ^ EVENT_TAG ^ tag, 0] {
        all.extend([vec![first], vec![first, 0]]);
        for length in [0, due - 1, due, due + 1, due << 8, due + 256] {
            for behind in [0, body.len() - 1, body.len(), body.len() + 1] {
                all.push([&[first], &length.to_be_bytes()[..], &more[..behind]].concat());
            }
        }
    }
    // bodies whose length has a high byte
    all.extend([256, 256 + body.len()].map(|length| field(tag, &body.repeat(100)[..length])));
    all
}

/// A value and its neighbours that differ from it by one, by sign or by a byte.
pub fn values_near(low: i32, high: i32) -> Vec<i32> {
    let mut values = vec![low, high, 0, i32::MIN, i32::MAX, low.swap_bytes(), !low, high & 0xFF, high & 0xFFFF];
    values.extend([low.wrapping_sub(1), low.wrapping_add(1), high.wrapping_sub(1), high.wrapping_add(1)]);
    values
}

/// Events of each thread and of none, at the ends of what a rule allows and one beyond.
pub fn events_near(sheet: &Sheet, state: &State) -> BTreeSet<(u8, u64)> {
    let latest = latest(state);
    let bound = bound(sheet, state).unwrap_or(latest);
    let mut near = BTreeSet::new();
    for (thread, own) in state.threads.iter().enumerate() {
        let statement = state.statement(sheet, thread);
        let (least, greatest) = (own.clock + statement.least, own.clock + statement.greatest);
        let ticks =
            [least.wrapping_sub(1), least, greatest, greatest + 1, latest.wrapping_sub(1), latest, bound, bound + 1];
        near.extend(ticks.map(|tick| (thread as u8, tick & 0xFFFF)));
    }
    let absent = state.threads.len() as u8;
    near.insert(if bound % 2 == 0 { (absent, bound & 0xFFFF) } else { (255, latest.wrapping_sub(1) & 0xFFFF) });
    near
}

/// The fields of a record, whose starts come first.
fn fields(record: &[u8], starts: usize) -> Vec<Vec<u8>> {
    let (starts, events) = record.split_at(starts * (HEADER + START_LENGTH));
    let fields = starts.chunks(HEADER + START_LENGTH).chain(events.chunks(HEADER + EVENT_LENGTH));
    fields.map(<[u8]>::to_vec).collect()
}

impl Random {
    /// One change of a record with so many starting values.
    pub fn damaged(&mut self, record: &[u8], starts: usize) -> Vec<u8> {
        let mut fields = fields(record, starts);
        if fields.is_empty() {
            return self
                .pick(&[&[32u8][..], &[33, 0], &[33, 0, 3, 0, 0], &[33, 0, 3, 0, 0, 1], &[32, 0, 4, 0, 0, 0, 0]])
                .to_vec();
        }
        let (at, other) = (self.below(fields.len()), self.below(fields.len()));
        let last = fields[at].len() - 1;
        match self.below(12) {
            0 => drop(fields.remove(at)),
            1 => fields.insert(at, fields[other].clone()),
            2 => fields.swap(at, other),
            3 => fields[at][0] = self.pick(&[0, 1, START_TAG, EVENT_TAG, 34, 160, 161, 255]),
            4 => fields[at][2] = self.pick(&[0, 2, 3, 4, 5, 255]),
            5 => fields[at][1] = self.pick(&[1, 3, 4, 255]),
            6 => fields[at][3] = self.pick(&[0, 1, 2, 3, 4, 127, 128, 255]),
            7 => {
                fields[at][last] =
                    self.pick(&[fields[at][last].wrapping_add(1), fields[at][last].wrapping_sub(1), 0, 255])
            }
            8 => fields[at][last - 1] ^= self.pick(&[1, 128, 255]),
            9 => fields[at] = start(self.of_range(-10, 10) as i32),
            10 => fields.truncate(at),
            _ => {
                fields.insert(at, event(self.below(5) as u8, self.next()));
            }
        }
        let mut record = fields.concat();
        if self.below(6) == 0 {
            record.truncate(self.below(record.len() + 1));
        }
        record
    }
}
