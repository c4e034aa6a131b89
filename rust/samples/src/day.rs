//! A made-up day of five test stocks, as a stream: the start of the day, orders that come, trade,
//! move and go, some messages that must be refused, and a last block that is cut.

mod exchange;
mod opening;
mod refused;

use crate::put_block;
use exchange::Exchange;
use refused::REFUSED;

const SEED: u64 = 0x6461_7920_6461_7921;
/// Good messages after the start of the day.
const FLOW: usize = 300;
/// Good messages from one that must be refused to the next.
const BETWEEN: usize = 19;
/// Bytes that the last block lacks.
const LACKING: usize = 9;

/// The stream of the day, always the same.
pub fn day() -> Vec<u8> {
    let mut exchange = Exchange::new(SEED);
    let mut stream = vec![];
    for message in exchange.opening() {
        put_block(&mut stream, &message);
    }
    let mut refused = REFUSED.iter();
    for turn in 1..=FLOW {
        put_block(&mut stream, &exchange.message());
        if turn % BETWEEN == 0 {
            if let Some(spoiled) = refused.next() {
                put_block(&mut stream, &spoiled(&mut exchange));
            }
        }
    }
    put_block(&mut stream, &exchange.offered(b'A').1);
    stream.truncate(stream.len() - LACKING);
    stream
}

#[cfg(test)]
mod tests {
    use super::*;

    #[test]
    fn there_is_a_turn_for_all_that_must_be_refused() {
        assert!(FLOW / BETWEEN >= REFUSED.len());
    }
}
