//! The questions, against levels summed up from the slots of a sound book one by one; and their refusals.

use ladlemoss::{best, book_length, level, live_count, next, order};
use ladlemoss::{Account, Level, Refusal, Side};
use samples::{damaged_book, sound_book, Random, SlotNumbers};
use std::collections::BTreeMap;

const SIDES: [Side; 2] = [Side::Buy, Side::Sell];

/// The live slots' four numbers.
fn live(book: &[u64]) -> impl Iterator<Item = &[u64]> {
    let words = book.len() / 257;
    let slots = book[words..].chunks_exact(4).enumerate();
    slots.filter_map(|(slot, four)| (book[slot / 64] >> (slot % 64) & 1 == 1).then_some(four))
}

fn account(four: &[u64]) -> Account {
    let (added, executed, cancelled) = (four[1] as u32, (four[2] >> 32) as u32, four[2] as u32);
    Account {
        added,
        executed,
        cancelled,
        remaining: added - executed - cancelled,
        locate: (four[3] >> 48) as u16,
        side: Side::of_byte((four[3] >> 40) as u8).expect("a sound slot"),
        price: (four[1] >> 32) as u32,
        attribution: (four[3] >> 8) as u32,
    }
}

/// The levels of a side, best first.
fn levels(book: &[u64], locate: u16, side: Side) -> Vec<Level> {
    let mut sums = BTreeMap::new();
    for order in live(book).map(account) {
        if order.locate == locate && order.side == side {
            let (total, count) = sums.entry(order.price).or_insert((0, 0));
            *total += u64::from(order.remaining);
            *count += 1;
        }
    }
    let levels = sums.into_iter().map(|(price, (total, count))| Level {
        price,
        total,
        count,
    });
    match side {
        Side::Buy => levels.rev().collect(),
        Side::Sell => levels.collect(),
    }
}

#[test]
fn levels_and_accounts_are_those_of_the_slots() {
    let mut random = Random::new(8);
    for share in [0, 3, 50, 100] {
        for words in [1, 2, 5] {
            let book = sound_book(words, share, 4, &mut random).numbers;
            assert_eq!(live_count(&book), Ok(live(&book).count() as u64));
            for four in live(&book) {
                assert_eq!(order(&book, four[0]), Ok(account(four)));
            }
            for locate in 0..6 {
                for side in SIDES {
                    walk(&book, locate, side);
                }
            }
        }
    }
}

/// From the best to the worst level, each the next of the one before.
fn walk(book: &[u64], locate: u16, side: Side) {
    let mut found = best(book, locate, side);
    for expected in levels(book, locate, side) {
        assert_eq!(found, Ok(Some(expected)));
        assert_eq!(level(book, locate, side, expected.price), Ok(expected));
        found = next(book, locate, side, expected.price);
    }
    assert_eq!(found, Ok(None));
}

#[test]
fn an_unsound_slot_and_a_wrong_length_are_refused() {
    let mut random = Random::new(9);
    let mut book = sound_book(1, 0, 1, &mut random);
    let mut slot = SlotNumbers::sound(5, 1, &mut random);
    slot.low = 1;
    book.put(9, &slot);
    assert_eq!(live_count(&book.numbers), Ok(1));
    for length in [0, 256, 257, 258, book_length(65)] {
        let mut lent = book.numbers.clone();
        lent.resize(length, 0);
        let refusal = match length {
            257 => Refusal::Book,
            _ => Refusal::Shape,
        };
        assert_eq!(order(&lent, 5), Err(refusal));
        for side in SIDES {
            assert_eq!(level(&lent, 1, side, 0), Err(refusal));
            assert_eq!(best(&lent, 1, side), Err(refusal));
            assert_eq!(next(&lent, 1, side, 0), Err(refusal));
        }
    }
    assert_eq!(order(&book.numbers, 6), Err(Refusal::NoOrder));
    assert_eq!(book_length(usize::MAX), usize::MAX);
}

#[test]
fn no_question_panics_over_a_damaged_book() {
    let mut random = Random::new(10);
    for _ in 0..300 {
        let book = damaged_book(1, 4, &mut random).numbers;
        for locate in 0..5 {
            for side in SIDES {
                let asked = best(&book, locate, side);
                assert!(matches!(asked, Ok(_) | Err(Refusal::Book)));
                let _ = level(&book, locate, side, random.number() as u32);
                let _ = next(&book, locate, side, random.number() as u32);
            }
        }
        let asked = order(&book, random.below(8));
        assert!(matches!(
            asked,
            Ok(_) | Err(Refusal::Book | Refusal::NoOrder)
        ));
    }
}
