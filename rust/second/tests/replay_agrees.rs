//! The replay against this program's own tables and questions, over flows of good and bad messages.

mod common;

use common::replayed::{self, counts, records, refusal};
use samples::{random_bytes, stream_of, twist, Flow, Random};
use second::{Tables, FULL};

const DIRECTORY: usize = 2_048;
const BOOK: usize = 257 * 16;

/// The records that the tables and the questions come to.
struct Expected {
    tables: Tables,
    records: Vec<u8>,
    messages: u64,
    refused: u64,
    full: u64,
}

impl Expected {
    fn new() -> Self {
        let tables = Tables::from_numbers(&[0; DIRECTORY], &[0; BOOK]);
        Expected {
            tables: tables.expect("good lengths"),
            records: vec![],
            messages: 0,
            refused: 0,
            full: 0,
        }
    }

    /// Whether the message is accepted.
    fn message(&mut self, message: &[u8]) -> bool {
        self.messages += 1;
        let number = self.tables.apply(message).numbers().0;
        if number != 0 {
            self.refused += 1;
            self.full += u64::from(number == FULL);
            self.records.extend(refusal(self.messages, number));
        }
        number == 0
    }

    fn levels(&mut self) {
        for locate in 1..DIRECTORY as u16 {
            for (side, kind) in [(b'B', b'b'), (b'S', b's')] {
                let mut found = self.tables.best(locate, side).expect("a sound book");
                while let Some(level) = found {
                    let (price, total, orders) = (level.price, level.total, level.count as u32);
                    let record = replayed::level(kind, locate, price, total, orders);
                    self.records.extend(record);
                    found = self.tables.next(locate, side, level.price).expect("sound");
                }
            }
        }
    }
}

/// A flow that strives for that many live orders, with about one bad message of eight; how often
/// the book was full.
fn agree(seed: u64, wanted: usize, count: usize) -> u64 {
    let mut random = Random::new(seed);
    let mut flow = Flow::new(DIRECTORY, wanted);
    let mut expected = Expected::new();
    let mut messages = vec![];
    for _ in 0..count {
        let mut message = flow.message(&mut random);
        match random.below(16) {
            0 => twist(&mut message, &flow, &mut random),
            1 => message = random_bytes(&mut random),
            _ => {}
        }
        if expected.message(&message) {
            flow.learn(&message);
        }
        messages.push(message);
    }
    expected.levels();
    let end = counts(expected.messages, expected.refused);
    expected.records.extend(end);
    assert!(
        records(&stream_of(&messages)) == expected.records,
        "seed {seed}"
    );
    expected.full
}

#[test]
fn few_orders() {
    for seed in 0..50 {
        assert_eq!(agree(seed, 20, 400), 0);
    }
}

#[test]
fn a_book_that_is_often_full() {
    for seed in 100..103 {
        assert!(agree(seed, 1_040, 6_000) > 10);
    }
}
