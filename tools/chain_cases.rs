//! The cases of a corpus of chains: those chosen by hand, then random ones.

use crate::chain_steps::Case;
use crate::entries::Cases;

/// The cases chosen by hand, then so many random ones.
pub fn all(seed: u64, count: usize) -> Vec<Case> {
    let mut cases = Cases::new();
    cases.in_orders();
    cases.long_chains();
    let in_orders = cases.all.len();
    cases.times_of_none();
    cases.names_of_none();
    cases.zeros();
    cases.unread();
    cases.longest();
    let never = cases.all.len();
    cases.times_written();
    cases.shown_since();
    cases.codes_written();
    cases.fields_written();
    cases.numbers_moved();
    let written = cases.all.len();
    cases.random(seed, count);
    eprintln!(
        "{in_orders} chains of changes taken back, {} of what was never a change or refused, {} with bytes written between, {} random",
        never - in_orders,
        written - never,
        cases.all.len() - written
    );
    cases.all
}
