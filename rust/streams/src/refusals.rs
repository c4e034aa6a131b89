//! Every refusal that a replay can give, in many ways, and the order in which they are checked.

use crate::BOOK;
use samples::orders::{add, delete, order, register, replace, take, Order, ZVZZT, ZXZZT};
use samples::{faults_of, sample, stream_of, Random, LAYOUTS};

const SEED: u64 = 0x7265_6675_7365_6421;

pub fn refusals() -> Vec<u8> {
    let mut messages = reading();
    messages.extend(two_faults());
    messages.extend(stocks());
    messages.extend(orders());
    messages.extend(full());
    stream_of(&messages)
}

/// No bytes, and each type with each fault of its bytes.
fn reading() -> Vec<Vec<u8>> {
    let mut messages = vec![vec![]];
    for layout in &LAYOUTS {
        messages.push(sample(layout));
        messages.push(vec![layout.message_type]);
        for fault in faults_of(layout) {
            let mut message = sample(layout);
            fault.put(&mut message);
            messages.push(message);
        }
    }
    messages
}

/// Each type with some two faults at a time.
fn two_faults() -> Vec<Vec<u8>> {
    let mut random = Random::new(SEED);
    let mut messages = vec![];
    for layout in &LAYOUTS {
        let faults = faults_of(layout);
        for _ in 0..6 {
            let (one, other) = (random.place(faults.len()), random.place(faults.len()));
            let mut message = sample(layout);
            // Those of the length stand last, and must be put last.
            faults[one.min(other)].put(&mut message);
            faults[one.max(other)].put(&mut message);
            messages.push(message);
        }
    }
    messages
}

/// 7 and 8 of R, A and F, around ZVZZT at 1, ZXZZT at 2 and ZVZZT again at 2,047.
fn stocks() -> Vec<Vec<u8>> {
    let mut messages = vec![
        register(1, ZVZZT),
        register(2, ZXZZT),
        register(2_047, ZVZZT),
        register(1, ZVZZT),
        register(1, ZXZZT),
        register(2_047, ZXZZT),
    ];
    for locate in [0, 2_048, 2_049, 32_769, 65_535] {
        messages.push(register(locate, ZVZZT));
    }
    for kind in *b"AF" {
        for locate in [0, 3, 2_046, 2_048, 32_769, 65_535] {
            messages.push(add(kind, Order { locate, ..order(5) }));
        }
        for (locate, stock) in [(1, ZXZZT), (2, ZVZZT), (2_047, ZXZZT)] {
            let order = Order {
                locate,
                stock,
                ..order(5)
            };
            messages.push(add(kind, order));
        }
    }
    messages
}

/// 8 to 11, with a buy of 300 under reference 5, and one of the last stock under reference 0.
fn orders() -> Vec<Vec<u8>> {
    let other = Order {
        locate: 2_047,
        side: b'S',
        ..order(0)
    };
    let mut messages = vec![
        delete(2_047, 0),
        add(b'A', order(5)),
        add(b'F', other),
        add(b'A', order(5)),
        add(
            b'F',
            Order {
                locate: 2_047,
                ..order(5)
            },
        ),
        add(b'A', order(0)),
        // 7 and 8 go before 9.
        add(
            b'A',
            Order {
                locate: 3,
                ..order(5)
            },
        ),
        add(
            b'A',
            Order {
                stock: ZXZZT,
                ..order(5)
            },
        ),
    ];
    for (locate, reference) in [(1, 6), (2_047, 5), (0, 5), (2_048, 5), (2, 0), (1, 0)] {
        messages.extend(every_change(locate, reference, 301));
    }
    messages.extend([
        replace(1, 5, 5),
        replace(1, 5, 0),
        replace(2_047, 0, 5),
        replace(2_047, 0, 0),
    ]);
    messages.extend(shares());
    messages
}

/// E, C, X, D and U of one order, U by itself: 10 and 8 go before 9 and 11.
fn every_change(locate: u64, reference: u64, shares: u64) -> Vec<Vec<u8>> {
    let taken = b"ECX".map(|kind| take(kind, locate, reference, shares));
    let rest = [
        delete(locate, reference),
        replace(locate, reference, reference),
    ];
    [&taken[..], &rest].concat()
}

/// 11 around what remains of reference 5, and 10 once it is used up.
fn shares() -> Vec<Vec<u8>> {
    let mut messages = vec![];
    for (kind, remaining) in [(b'E', 300), (b'C', 200), (b'X', 100)] {
        for shares in [remaining + 1, 0x8000_0000, 0xFFFF_FFFF, 100] {
            messages.push(take(kind, 1, 5, shares));
        }
    }
    messages.extend(every_change(1, 5, 1));
    messages
}

/// 12 of A and F, after all that goes before it, and never of U.
fn full() -> Vec<Vec<u8>> {
    // Reference 0 is there already.
    let mut messages: Vec<_> = (1..BOOK).map(|it| add(b'A', order(it))).collect();
    for kind in *b"AF" {
        messages.extend([
            add(kind, order(BOOK)),
            add(kind, order(7)),
            add(
                kind,
                Order {
                    locate: 3,
                    ..order(BOOK)
                },
            ),
            add(
                kind,
                Order {
                    stock: ZXZZT,
                    ..order(BOOK)
                },
            ),
            add(
                kind,
                Order {
                    shares: 0,
                    ..order(BOOK)
                },
            ),
        ]);
    }
    messages.extend([
        replace(1, BOOK, BOOK + 1),
        replace(1, 7, 8),
        replace(1, 7, BOOK),
        add(b'F', order(7)),
    ]);
    messages
}
