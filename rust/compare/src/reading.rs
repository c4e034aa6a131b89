//! Messages alone: both readers asked about each.

mod both_readers;
mod counts;

use crate::messages::all_messages;
use both_readers::BothReaders;
use counts::ReadCounts;

/// The fixed messages, and that many random ones.
pub fn reading(count: u64) -> ReadCounts {
    let mut readers = BothReaders::new();
    all_messages(&mut readers, count);
    readers.counts
}
