//! The fast questions are answered as the second program answers them.

use samples::{broken_slots, damaged_book, harm, sound_book, FlatBook, Random, SlotNumbers};
use second::{questions, Level};

fn told<const N: usize>(answer: Result<[u64; N], u8>) -> (u8, [u64; N]) {
    match answer {
        Ok(numbers) => (0, numbers),
        Err(number) => (number, [0; N]),
    }
}

fn found(level: Option<Level>) -> [u64; 4] {
    level.map_or([0; 4], |level| {
        [1, level.price.into(), level.total, level.count]
    })
}

fn orders_agree(book: &[u64], reference: u64) {
    let expected = told(questions::order(book, reference).map(|account| account.numbers()));
    for order in [fast::order_numbers, fast::order_numbers_by_eights] {
        let mut out = [7; 8];
        let number = order(book, reference, &mut out);
        assert_eq!((number, out), expected);
    }
    let mut out = [7];
    let number = fast::live_numbers(book, &mut out);
    let live = questions::live_count(book).map(|count| [count]);
    assert_eq!((number, out), told(live));
}

fn levels_agree(book: &[u64], locate: u16, side: u8, price: u32) {
    let mut out = [7; 2];
    let number = fast::level_numbers(book, locate, side, price, &mut out);
    let level = questions::level(book, locate, side, price);
    assert_eq!((number, out), told(level.map(|l| [l.total, l.count])));
    let mut out = [7; 4];
    let number = fast::best_numbers(book, locate, side, &mut out);
    let best = questions::best(book, locate, side);
    assert_eq!((number, out), told(best.map(found)));
    let mut out = [7; 4];
    let number = fast::next_numbers(book, locate, side, price, &mut out);
    let next = questions::next(book, locate, side, price);
    assert_eq!((number, out), told(next.map(found)));
}

/// About some slots of the book and around them.
fn agree(book: &[u64], random: &mut Random) {
    let groups = book.len() / 257;
    let slots = &book[groups..];
    for _ in 0..8 {
        let [reference, level, _, holder] = match slots.as_chunks::<4>().0 {
            [] => [0; 4],
            slots => *random.one_of(slots),
        };
        orders_agree(book, reference);
        orders_agree(book, random.below(200));
        let (locate, price) = ((holder >> 48) as u16, (level >> 32) as u32);
        for side in [b'B', b'S', random.byte()] {
            for price in [price, price.wrapping_sub(1), price.wrapping_add(1)] {
                levels_agree(book, locate, side, price);
            }
            for price in [0, 2_000_000_000, u32::MAX] {
                levels_agree(book, locate, side, price);
            }
            levels_agree(book, random.below(4) as u16, side, price);
        }
    }
}

#[test]
fn on_sound_books() {
    let mut random = Random::new(5);
    for groups in [1, 2, 3, 17] {
        for share in [0, 3, 50, 97, 100] {
            for stocks in [1, 4] {
                let book = sound_book(groups, share, stocks, &mut random);
                agree(&book.numbers, &mut random);
            }
        }
    }
}

#[test]
fn on_damaged_books() {
    let mut random = Random::new(6);
    for _ in 0..400 {
        let mut book = damaged_book(1 + random.place(2), 3, &mut random);
        agree(&book.numbers, &mut random);
        harm(&mut book, 3, &mut random);
        agree(&book.numbers, &mut random);
    }
}

#[test]
fn on_one_unsound_slot() {
    let mut random = Random::new(7);
    let mut usual = SlotNumbers::sound(5, 1, &mut random);
    for attribution in [*b"NSDQ", *b"MPID"] {
        usual.attribution = u32::from_be_bytes(attribution);
        for broken in broken_slots(usual) {
            let mut book = FlatBook::empty(1);
            book.put(3, &usual);
            book.put(60, &broken);
            agree(&book.numbers, &mut random);
        }
    }
}

#[test]
fn on_lengths() {
    let mut random = Random::new(8);
    for length in [0, 1, 256, 257, 258, 514, 16_448, 16_449, 16_705] {
        agree(&vec![0; length], &mut random);
        agree(&vec![u64::MAX; length], &mut random);
    }
}
