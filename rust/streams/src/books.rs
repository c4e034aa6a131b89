//! A full book, one of as many levels as orders, and one of many stocks.

use crate::BOOK;
use samples::orders::{add, delete, order, register, replace, take, Order, ZVZZT};
use samples::{random_text, stream_of, Flow, Random, MAXIMUM_PRICE};

const SEED: u64 = 0x626F_6F6B_7362_6F6F;
/// Numbers of the directory.
const DIRECTORY: usize = 2_048;

/// A and F in turn until nothing is free, and what is refused and accepted then.
pub fn full() -> Vec<u8> {
    let mut messages = vec![register(1, ZVZZT)];
    for reference in 1..=BOOK {
        let kind = b"AF"[(reference % 2) as usize];
        let side = b"BS"[(reference / 2 % 2) as usize];
        let price = 100_000 + 100 * (reference % 8);
        let order = Order {
            side,
            price,
            ..order(reference)
        };
        messages.push(add(kind, order));
    }
    let one_more = |reference| add(b'A', order(reference));
    messages.extend([
        one_more(BOOK + 1),
        replace(1, 17, BOOK + 1),
        one_more(17),
        delete(1, 40),
        one_more(17),
        one_more(40),
        // What is left of an order keeps its place; a used up one gives it back.
        take(b'X', 1, 1_000, 299),
        one_more(40),
        take(b'E', 1, 1_000, 1),
        one_more(40),
        one_more(1_000),
        delete(1, BOOK),
        delete(1, 1),
        one_more(BOOK),
        replace(1, BOOK, 1),
        one_more(1_000),
        one_more(BOOK),
    ]);
    stream_of(&messages)
}

/// Buys of one stock at prices that all differ, in no order, from the lowest to the highest.
pub fn levels() -> Vec<u8> {
    let mut random = Random::new(SEED);
    let step = MAXIMUM_PRICE / (BOOK - 1);
    let mut prices: Vec<u64> = (0..BOOK - 1).map(|level| step * level).collect();
    prices.push(MAXIMUM_PRICE);
    shuffle(&mut prices, &mut random);
    let mut messages = vec![register(9, ZVZZT)];
    for (reference, price) in (1..).zip(prices) {
        let shares = 1 + random.below(0xFFFF_FFFF);
        let order = Order {
            locate: 9,
            price,
            shares,
            ..order(reference)
        };
        messages.push(add(b'A', order));
    }
    stream_of(&messages)
}

/// Stocks from the first locate to the last, registered in no order, and a flow of good messages.
pub fn stocks() -> Vec<u8> {
    let mut random = Random::new(SEED);
    let mut locates = vec![
        1, 2, 127, 128, 255, 256, 257, 511, 512, 1_023, 1_024, 2_046, 2_047,
    ];
    locates.extend((0..7).map(|place| 300 + 239 * place));
    shuffle(&mut locates, &mut random);
    let mut flow = Flow::new(DIRECTORY, 400);
    let mut messages = vec![];
    for locate in locates {
        messages.push(register(locate, random_text(8, &mut random)));
    }
    messages.iter().for_each(|message| flow.learn(message));
    for _ in 0..1_000 {
        let message = flow.message(&mut random);
        flow.learn(&message);
        messages.push(message);
    }
    stream_of(&messages)
}

fn shuffle(list: &mut [u64], random: &mut Random) {
    for place in (1..list.len()).rev() {
        list.swap(place, random.place(place + 1));
    }
}
