//! Messages over tables: fixed ones and random ones, with questions in between.

mod both_tables;
mod counts;
mod crossed_faults;
mod damaged_tables;
mod flows;
mod outcome;
mod second_tables;
mod table_lengths;

pub use both_tables::BothTables;

use crate::messages::{fixed_messages, Checker};
use counts::ApplyCounts;

/// The fixed ones, and that many random ones.
pub fn applying(both: &mut BothTables, count: u64) -> ApplyCounts {
    let mut all = ApplyCounts::new();
    let counts = &mut all;
    fixed_messages(&mut InTurn { both, counts });
    table_lengths::every_pair(both, counts);
    table_lengths::every_book(both, counts);
    crossed_faults::every_crossing(both, counts);
    flows::good(both, counts, count * 35 / 100);
    flows::hostile(both, counts, count * 30 / 100);
    flows::full(both, counts, count * 10 / 100);
    damaged_tables::damaged(both, counts, count * 25 / 100);
    all
}

/// Messages made for the readers, applied one after the other to tables that begin fresh.
struct InTurn<'a> {
    both: &'a mut BothTables,
    counts: &'a mut ApplyCounts,
}

impl Checker for InTurn<'_> {
    fn source(&mut self, name: &'static str) {
        self.counts.source(name);
        self.both.lay(&[0; 2], &[0; 257]);
    }

    fn check(&mut self, message: &[u8]) {
        self.both.apply(self.counts, message);
    }
}
