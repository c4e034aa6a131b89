//! The books that questions are measured on, and what is asked of them.

use crate::stretch::Fill;
use samples::{FlatBook, Random, SlotNumbers};

const SEED: u64 = 0x626F_6F6B_7321;

/// Stocks, and prices of each on either side: as many levels as a busy book has.
const STOCKS: u64 = 8;
const PRICES: u64 = 20;

/// Live slots of all books together: enough that no branch predictor learns them.
const LIVE: usize = 1 << 14;

/// Live slots that the questions of one round read, and those that are timed at one go: few enough
/// that it is seldom interrupted.
const ROUND: usize = 1 << 19;
const GROUP: usize = 1 << 15;

/// One question of each kind, all about the same order.
pub struct Asked {
    pub book: usize,
    pub reference: u64,
    pub locate: u16,
    pub side: u8,
    pub price: u32,
}

/// One row of the table.
pub struct Books {
    pub books: Vec<Vec<u64>>,
    pub asked: Vec<Asked>,
    /// Questions that are timed at one go.
    at_once: usize,
}

impl Books {
    pub fn new(words: usize, fill: Fill) -> Self {
        let mut random = Random::new(SEED);
        let live = fill.live(64 * words);
        let orders: Vec<_> = (0..LIVE / live)
            .map(|_| book(words, fill, &mut random))
            .collect();
        let count = ROUND / live;
        let asked = (0..count).map(|turn| {
            // One book after the other.
            let book = turn % orders.len();
            asked(book, *random.one_of(&orders[book].1))
        });
        Books {
            asked: asked.collect(),
            books: orders.into_iter().map(|(book, _)| book.numbers).collect(),
            at_once: GROUP / live,
        }
    }

    pub fn groups(&self) -> impl Iterator<Item = &[Asked]> {
        self.asked.chunks(self.at_once)
    }
}

fn asked(book: usize, order: SlotNumbers) -> Asked {
    Asked {
        book,
        reference: order.reference,
        locate: order.locate,
        side: order.side,
        price: order.price,
    }
}

/// A book, and the orders in it.
fn book(words: usize, fill: Fill, random: &mut Random) -> (FlatBook, Vec<SlotNumbers>) {
    let mut book = FlatBook::empty(words);
    let mut slots: Vec<usize> = (0..book.slots()).collect();
    if fill == Fill::Spread {
        for place in 0..fill.live(slots.len()) {
            let other = place + random.place(slots.len() - place);
            slots.swap(place, other);
        }
    }
    slots.truncate(fill.live(book.slots()));
    let mut orders = vec![];
    for slot in slots {
        let order = order(random);
        book.put(slot, &order);
        orders.push(order);
    }
    (book, orders)
}

/// Every twentieth has an attribution of its own, and every fourth is in part executed.
fn order(random: &mut Random) -> SlotNumbers {
    let locate = 1 + random.below(STOCKS) as u16;
    let (side, step) = (*random.one_of(b"BS"), 100 * random.below(PRICES) as u32);
    let (middle, added) = (
        100_000 * u32::from(locate),
        100 + random.below(10_000) as u32,
    );
    let attribution = match random.below(20) {
        0 => b"MPID",
        _ => b"NSDQ",
    };
    SlotNumbers {
        reference: random.number(),
        price: if side == b'B' {
            middle - step
        } else {
            middle + step
        },
        added,
        executed: if random.below(4) == 0 { added / 2 } else { 0 },
        cancelled: 0,
        locate,
        side,
        attribution: u32::from_be_bytes(*attribution),
        low: 0,
    }
}
