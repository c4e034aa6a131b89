//! What the desk may ask of a book.

mod common;

use common::*;
use samples::{broken_slots, FlatBook, SlotNumbers};
use second::{questions, Account, Level, Tables, BOOK, FIELD, MAXIMUM_PRICE, NO_ORDER, SHAPE};

fn at(price: u32, total: u64, count: u64) -> Level {
    Level {
        price,
        total,
        count,
    }
}

/// A sell or a buy of locate 1 with that much remaining.
fn order(reference: u64, side: u8, price: u32, remaining: u32) -> SlotNumbers {
    SlotNumbers {
        side,
        price,
        added: remaining,
        executed: 0,
        cancelled: 0,
        ..sound(reference)
    }
}

/// Case 4 in the tables: A of 300, E 100, X 50.
fn case_4() -> Tables {
    let mut tables = tables(&book_with(&[]));
    for message in [add(5), execute(1, 5, 100), cancel(1, 5, 50)] {
        assert_eq!(number(&mut tables, &message), 0);
    }
    tables
}

#[test]
fn case_4_the_account() {
    let account = Account {
        added: 300,
        executed: 100,
        cancelled: 50,
        remaining: 150,
        locate: 1,
        side: b'B',
        price: 100_000,
        attribution: *b"NSDQ",
    };
    let tables = case_4();
    assert_eq!(tables.order(5), Ok(account));
    let numbers = [300, 100, 50, 150, 1, 0x42, 100_000, 0x4E53_4451];
    assert_eq!(account.numbers(), numbers);
    assert_eq!(tables.order(0), Err(NO_ORDER));
    assert_eq!(tables.level(1, b'B', 100_000), Ok(at(100_000, 150, 1)));
    assert_eq!(tables.live_count(), 1);
}

#[test]
fn case_5_a_used_up_order_leaves_no_level() {
    let mut tables = case_4();
    assert_eq!(number(&mut tables, &execute(1, 5, 150)), 0);
    assert_eq!(tables.level(1, b'B', 100_000), Ok(at(100_000, 0, 0)));
    assert_eq!(tables.best(1, b'B'), Ok(None));
    assert_eq!(tables.order(5), Err(NO_ORDER));
    assert_eq!(tables.live_count(), 0);
}

#[test]
fn case_8_a_total_above_32_bits() {
    let sell = |reference| order(reference, b'S', 101_500, u32::MAX);
    let book = book_with(&[(0, sell(6)), (63, sell(7))]);
    let level = at(101_500, 8_589_934_590, 2);
    assert_eq!(tables(&book).level(1, b'S', 101_500), Ok(level));
    assert_eq!(questions::best(&book.numbers, 1, b'S'), Ok(Some(level)));
}

#[test]
fn price_0_is_a_level() {
    for side in [b'B', b'S'] {
        let tables = tables(&book_with(&[(9, order(5, side, 0, 7))]));
        assert_eq!(tables.level(1, side, 0), Ok(at(0, 7, 1)));
        assert_eq!(tables.best(1, side), Ok(Some(at(0, 7, 1))));
        let below = tables.next(1, side, 1);
        assert_eq!(below, Ok((side == b'B').then_some(at(0, 7, 1))));
        assert_eq!(tables.next(1, side, 0), Ok(None));
    }
}

/// Buys at 0, 100 (two) and the maximum, sells at the same prices, and one of another stock.
fn ladder() -> Tables {
    let mut slots = vec![];
    for (side, shift) in [(b'B', 0), (b'S', 8)] {
        let prices = [100, MAXIMUM_PRICE, 0, 100].into_iter();
        slots.extend(prices.enumerate().map(|(place, price)| {
            let slot = shift + 2 * place;
            (slot, order(slot as u64, side, price, 10 + place as u32))
        }));
    }
    let other = SlotNumbers {
        locate: 2,
        ..order(50, b'B', 50, 1)
    };
    slots.push((63, other));
    tables(&book_with(&slots))
}

#[test]
fn from_the_best_down_to_none() {
    let tables = ladder();
    let levels = [at(MAXIMUM_PRICE, 11, 1), at(100, 23, 2), at(0, 12, 1)];
    for (side, levels) in [(b'B', levels), (b'S', [levels[2], levels[1], levels[0]])] {
        assert_eq!(tables.best(1, side), Ok(Some(levels[0])));
        assert_eq!(tables.next(1, side, levels[0].price), Ok(Some(levels[1])));
        assert_eq!(tables.next(1, side, levels[1].price), Ok(Some(levels[2])));
        assert_eq!(tables.next(1, side, levels[2].price), Ok(None));
    }
}

#[test]
fn next_from_between_below_and_above_everything() {
    let tables = ladder();
    let next = |side, price| tables.next(1, side, price).map(|l| l.map(|l| l.price));
    for price in [MAXIMUM_PRICE + 1, u32::MAX] {
        assert_eq!(next(b'B', price), Ok(Some(MAXIMUM_PRICE)));
        assert_eq!(next(b'S', price), Ok(None));
    }
    assert_eq!(next(b'B', 101), Ok(Some(100)));
    assert_eq!(next(b'B', 99), Ok(Some(0)));
    assert_eq!(next(b'S', 99), Ok(Some(100)));
    assert_eq!(next(b'S', 101), Ok(Some(MAXIMUM_PRICE)));
    assert_eq!(next(b'S', 0), Ok(Some(100)));
    assert_eq!(next(b'B', 0), Ok(None));
    assert_eq!(tables.best(2, b'B'), Ok(Some(at(50, 1, 1))));
    assert_eq!(tables.best(2, b'S'), Ok(None));
}

#[test]
fn any_level_may_be_asked() {
    let tables = ladder();
    for locate in [0, 3, u16::MAX] {
        assert_eq!(tables.level(locate, b'B', 100), Ok(at(100, 0, 0)));
        assert_eq!(tables.best(locate, b'S'), Ok(None));
    }
    assert_eq!(tables.level(1, b'S', u32::MAX), Ok(at(u32::MAX, 0, 0)));
    assert_eq!(tables.level(1, b'B', 50), Ok(at(50, 0, 0)));
}

#[test]
fn one_unsound_slot_anywhere() {
    let far = SlotNumbers {
        locate: 7,
        price: 3,
        ..sound(9)
    };
    for broken in broken_slots(far) {
        let mut book = FlatBook::empty(2);
        book.put(5, &SOUND);
        book.put(127, &broken);
        let numbers = &book.numbers;
        for side in [b'B', b'S'] {
            assert_eq!(questions::level(numbers, 1, side, 100_000), Err(BOOK));
            assert_eq!(questions::best(numbers, 1, side), Err(BOOK));
            assert_eq!(questions::next(numbers, 1, side, u32::MAX), Err(BOOK));
        }
        assert_eq!(questions::level(numbers, 1, b'b', 100_000), Err(FIELD));
        assert!(questions::order(numbers, 5).is_ok());
        assert_eq!(questions::order(numbers, 9), Err(BOOK));
        assert_eq!(questions::order(numbers, 6), Err(NO_ORDER));
        assert_eq!(questions::live_count(numbers), Ok(2));
        // A free slot may hold anything.
        book.turn(127);
        assert!(questions::level(&book.numbers, 1, b'B', 100_000).is_ok());
        assert_eq!(questions::order(&book.numbers, 9), Err(NO_ORDER));
    }
}

#[test]
fn the_lowest_live_slot_with_the_reference() {
    let higher = SlotNumbers {
        added: 999,
        ..SOUND
    };
    let mut book = book_with(&[(3, SOUND), (40, higher)]);
    assert_eq!(tables(&book).order(5).map(|order| order.added), Ok(300));
    book.turn(3);
    assert_eq!(tables(&book).order(5).map(|order| order.added), Ok(999));
}

#[test]
fn side_bytes() {
    let tables = ladder();
    for side in 0..=255 {
        let refused = if b"BS".contains(&side) {
            None
        } else {
            Some(FIELD)
        };
        assert_eq!(tables.level(1, side, 100).err(), refused);
        assert_eq!(tables.best(1, side).err(), refused);
        assert_eq!(tables.next(1, side, 100).err(), refused);
    }
}

#[test]
fn lengths_go_first() {
    for length in [0, 1, 256, 258, 16_447, 16_449, 16_705] {
        let book = vec![u64::MAX; length];
        assert_eq!(questions::order(&book, 5), Err(SHAPE));
        assert_eq!(questions::level(&book, 1, b'x', 5), Err(SHAPE));
        assert_eq!(questions::best(&book, 1, b'x'), Err(SHAPE));
        assert_eq!(questions::next(&book, 1, b'x', 5), Err(SHAPE));
        assert_eq!(questions::live_count(&book), Err(SHAPE));
    }
    assert_eq!(questions::live_count(&[u64::MAX; 257]), Ok(64));
    assert_eq!(questions::live_count(&[u64::MAX; 16_448]), Ok(4_096));
}
