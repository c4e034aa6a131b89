//! Places of the paper that are easily missed.

mod common;

use common::*;
use samples::{broken_slots, sample_with, Random, SlotNumbers};
use second::{Order, Tables, BOOK, CONFLICT, DUPLICATE, FULL, NO_ORDER, OVER, STOCK};

#[test]
fn reference_0_is_a_reference_like_any_other() {
    let mut tables = tables(&book_with(&[]));
    assert_eq!(number(&mut tables, &execute(1, 0, 1)), NO_ORDER);
    assert_eq!(number(&mut tables, &add(0)), 0);
    assert_eq!(number(&mut tables, &add(0)), DUPLICATE);
    assert_eq!(number(&mut tables, &delete(1, 0)), 0);
    assert_eq!(number(&mut tables, &delete(1, 0)), NO_ORDER);
}

#[test]
fn old_numbers_in_free_slots_are_nobodys_and_stay() {
    let mut book = book_with(&[(0, sound(5)), (1, sound(6))]);
    book.turn(0);
    book.turn(1);
    let mut tables = tables(&book);
    for reference in [5, 6] {
        assert_eq!(number(&mut tables, &execute(1, reference, 1)), NO_ORDER);
    }
    assert_eq!(number(&mut tables, &add(5)), 0);
    let added = [5, 0x0001_86A0_0000_012C, 0, 0x0001_424E_5344_5100];
    assert_eq!(slot(&tables, 0), Some(added));
    assert_eq!(tables.book_numbers()[5..9], sound(6).numbers());
    assert_eq!(tables.book_numbers()[0], 1);
}

#[test]
fn a_duplicate_in_an_unsound_slot_is_a_duplicate() {
    for broken in broken_slots(sound(7)) {
        let mut tables = tables(&book_with(&[(3, sound(5)), (9, broken)]));
        assert_eq!(number(&mut tables, &add(7)), DUPLICATE);
        assert_eq!(number(&mut tables, &replace(1, 5, 7)), DUPLICATE);
    }
}

#[test]
fn every_rule_of_soundness() {
    for broken in broken_slots(SOUND) {
        let mut tables = tables(&book_with(&[(3, broken)]));
        // The locate is wrong as well, but 13 goes first.
        for locate in [1, 2] {
            assert_eq!(number(&mut tables, &execute(locate, 5, 1)), BOOK);
            assert_eq!(number(&mut tables, &cancel(locate, 5, 1)), BOOK);
            assert_eq!(number(&mut tables, &delete(locate, 5)), BOOK);
            assert_eq!(number(&mut tables, &replace(locate, 5, 5)), BOOK);
        }
    }
    for edge in [
        SlotNumbers { price: 0, ..SOUND },
        SlotNumbers {
            price: 2_000_000_000,
            ..SOUND
        },
        SlotNumbers {
            executed: 299,
            cancelled: 0,
            ..SOUND
        },
        SlotNumbers {
            attribution: u32::from_be_bytes(*b"~   "),
            side: b'S',
            ..SOUND
        },
    ] {
        let mut tables = tables(&book_with(&[(3, edge)]));
        assert_eq!(number(&mut tables, &execute(1, 5, 1)), 0);
    }
}

#[test]
fn random_slots_are_as_sound_as_they_are_made() {
    let mut random = Random::new(2);
    let is_sound = |numbers: &SlotNumbers| Order::from_numbers(numbers.numbers()).is_sound();
    for locate in 1..=2_000 {
        let sound = SlotNumbers::sound(5, locate, &mut random);
        assert!(is_sound(&sound), "{sound:?}");
        for broken in broken_slots(sound) {
            assert!(!is_sound(&broken), "{broken:?}");
        }
    }
}

#[test]
fn the_lowest_live_slot_decides() {
    let broken = SlotNumbers { low: 1, ..SOUND };
    let mut below = tables(&book_with(&[(3, broken), (9, SOUND)]));
    assert_eq!(number(&mut below, &execute(1, 5, 1)), BOOK);
    let mut above = tables(&book_with(&[(3, SOUND), (9, broken)]));
    assert_eq!(number(&mut above, &delete(1, 5)), 0);
    assert_eq!(slot(&above, 3), None);
    assert_eq!(number(&mut above, &delete(1, 5)), BOOK);
    let mut free = book_with(&[(3, broken), (9, SOUND)]);
    free.turn(3);
    assert_eq!(number(&mut tables(&free), &execute(1, 5, 1)), 0);
}

#[test]
fn a_replace_takes_the_lowest_of_the_free_slots_and_its_own() {
    let other = [(0, sound(10)), (2, sound(12))];
    for own in [1, 3, 63] {
        let book = book_with(&[&other[..], &[(own, SOUND)]].concat());
        let mut tables = tables(&book);
        let both = [1, 0x42, 100_000, 150, 0, 1, 0x42, 99_900, 70, 70];
        assert_eq!(figures(&mut tables, &replace(1, 5, 6)), both);
        let new = SlotNumbers {
            price: 99_900,
            added: 70,
            executed: 0,
            cancelled: 0,
            ..sound(6)
        };
        assert_eq!(slot(&tables, 1), Some(new.numbers()));
        assert_eq!(tables.book_numbers()[0], 0b111);
    }
}

#[test]
fn the_attribution_of_a_replaced_order_is_not_kept() {
    let mpid = u32::from_be_bytes(*b"MPID");
    let sets = [
        ("Stock Locate", 1),
        ("Order Reference Number", 5),
        ("Attribution", u64::from(mpid)),
    ];
    let mut tables = tables(&book_with(&[]));
    assert_eq!(number(&mut tables, &sample_with(b'F', &sets)), 0);
    assert_eq!(tables.book().slots()[0].order.attribution, *b"MPID");
    assert_eq!(number(&mut tables, &replace(1, 5, 6)), 0);
    assert_eq!(tables.book().slots()[0].order.attribution, *b"NSDQ");
}

#[test]
fn the_order_of_the_checks() {
    let all: Vec<_> = (0..64).map(|i| (i as usize, sound(i))).collect();
    let mut tables = tables(&book_with(&all));
    let at = |locate, symbol, reference| {
        let sets = [
            ("Stock Locate", locate),
            ("Stock", symbol),
            ("Order Reference Number", reference),
        ];
        sample_with(b'A', &sets)
    };
    assert_eq!(number(&mut tables, &at(3, ZXZZT, 5)), STOCK);
    assert_eq!(number(&mut tables, &at(1, ZXZZT, 5)), CONFLICT);
    assert_eq!(number(&mut tables, &at(1, ZVZZT, 5)), DUPLICATE);
    assert_eq!(number(&mut tables, &at(1, ZVZZT, 99)), FULL);
    assert_eq!(number(&mut tables, &execute(2, 5, 151)), CONFLICT);
    assert_eq!(number(&mut tables, &execute(1, 5, 151)), OVER);
    assert_eq!(number(&mut tables, &replace(1, 99, 99)), NO_ORDER);
    assert_eq!(number(&mut tables, &replace(2, 5, 5)), CONFLICT);
    assert_eq!(number(&mut tables, &replace(1, 5, 6)), DUPLICATE);
}

#[test]
fn orders_do_not_ask_the_directory() {
    let far = SlotNumbers {
        locate: 0xFFFF,
        ..SOUND
    };
    let mut tables = tables(&book_with(&[(3, far)]));
    for locate in [0, 3, 4, 0xFFFE] {
        assert_eq!(number(&mut tables, &execute(locate, 5, 1)), CONFLICT);
        assert_eq!(number(&mut tables, &execute(locate, 6, 1)), NO_ORDER);
    }
    assert_eq!(number(&mut tables, &replace(0xFFFF, 5, 6)), 0);
    assert_eq!(number(&mut tables, &delete(0xFFFF, 6)), 0);
}

#[test]
fn the_directory() {
    let odd = u64::from_be_bytes(*b"ZV ZT   ");
    let directory = [ZVZZT, ZVZZT, 0, odd];
    let mut tables = Tables::from_numbers(&directory, &[0; 257]).expect("good lengths");
    let number_of = |tables: &mut Tables, locate, symbol| {
        let sets = [("Stock Locate", locate), ("Stock", symbol)];
        let add = sample_with(b'A', &sets);
        (
            number(tables, &add),
            number(tables, &register(locate, symbol)),
        )
    };
    // Number 0 holds the symbol, and is not asked all the same.
    assert_eq!(number_of(&mut tables, 0, ZVZZT), (STOCK, STOCK));
    assert_eq!(number_of(&mut tables, 4, ZVZZT), (STOCK, STOCK));
    assert_eq!(number_of(&mut tables, 3, ZVZZT), (CONFLICT, CONFLICT));
    assert_eq!(number_of(&mut tables, 1, ZXZZT), (CONFLICT, CONFLICT));
    // The same symbol at a second locate.
    assert_eq!(number_of(&mut tables, 2, ZVZZT), (STOCK, 0));
    assert_eq!(tables.directory_numbers(), [ZVZZT, ZVZZT, ZVZZT, odd]);
    assert_eq!(number_of(&mut tables, 2, ZVZZT), (0, 0));
}

#[test]
fn an_execution_price_moves_nothing() {
    let sets = [
        ("Stock Locate", 1),
        ("Order Reference Number", 5),
        ("Executed Shares", 50),
        ("Execution Price", 7),
    ];
    let mut tables = tables(&book_with(&[(3, SOUND)]));
    let taken = [1, 0x42, 100_000, 50, 100, 0, 0, 0, 0, 0];
    assert_eq!(figures(&mut tables, &sample_with(b'C', &sets)), taken);
    let left = SlotNumbers {
        executed: 150,
        ..SOUND
    };
    assert_eq!(slot(&tables, 3), Some(left.numbers()));
}
