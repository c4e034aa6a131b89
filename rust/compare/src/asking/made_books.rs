//! Questions about books laid out for them: of all lengths, with one slot unsound, of one level,
//! and whole books with everything in them asked.

use crate::asking::asker::{Asker, BothBooks};
use crate::asking::question::Question;
use crate::asking::survey::{every_kind, survey};
use crate::memory::{Edge, LentTable, BOOK_LENGTHS};
use samples::{broken_slots, sound_book, FlatBook, Random, SlotNumbers, MAXIMUM_PRICE};
use second::Book;

const SEED: u64 = 0x6C6F_6E65_5F5F_2121;

/// An order of 300 shares, 150 of which remain.
const SOUND: SlotNumbers = SlotNumbers {
    reference: 5,
    price: 100_000,
    added: 300,
    executed: 100,
    cancelled: 50,
    locate: 1,
    side: b'B',
    attribution: u32::from_be_bytes(*b"MPID"),
    low: 0,
};

/// Lays the numbers out and asks about them.
fn over(
    asker: &mut Asker,
    lent: &mut LentTable,
    numbers: &[u64],
    ask: impl FnOnce(&mut Asker, &mut BothBooks),
) {
    lent.lay(numbers, Edge::any(&mut asker.random));
    let book = Book::lent(numbers);
    let second = book.as_ref().map_err(|number| *number);
    let mut both = BothBooks {
        second,
        lent,
        numbers,
    };
    ask(asker, &mut both);
}

pub fn made_books(asker: &mut Asker) {
    let (lent, random) = (&mut LentTable::new(), &mut Random::new(SEED));
    all_lengths(asker, lent, random);
    every_side(asker, lent);
    one_unsound(asker, lent, random);
    one_level(asker, lent);
    whole_books(asker, lent, random);
}

/// Wrong lengths hold a sound book as far as it goes, so that only their length is in the way.
fn all_lengths(asker: &mut Asker, lent: &mut LentTable, random: &mut Random) {
    asker.source("questions: books of all lengths");
    let multiples = (1..=70).map(|groups| 257 * groups);
    let around = multiples.flat_map(|length| length - 1..=length + 1);
    let small = 0..=520;
    for length in small.chain(around).chain(BOOK_LENGTHS) {
        let share = *random.one_of(&[0, 50, 100]);
        let mut numbers = sound_book(length / 257, share, 2, random).numbers;
        numbers.resize_with(length, || random.number());
        let groups = length / 257;
        let order = numbers.get(groups..groups + 4).unwrap_or(&[0; 4]).to_vec();
        let (locate, price) = ((order[3] >> 48) as u16, (order[1] >> 32) as u32);
        over(asker, lent, &numbers, |asker, both| {
            asker.ask(both, Question::Live);
            for reference in [order[0], 0, 7] {
                asker.ask(both, Question::Order(reference));
            }
            for side in [b'B', b'S', b'b', 0] {
                every_kind(asker, both, (locate, side, price));
            }
        });
    }
}

/// Sound, with one slot unsound, and of a wrong length.
fn every_side(asker: &mut Asker, lent: &mut LentTable) {
    asker.source("questions: all side bytes");
    let mut book = FlatBook::empty(1);
    book.put(3, &SOUND);
    let sound = book.clone();
    book.put(9, &SlotNumbers { low: 1, ..SOUND });
    let long = [&sound.numbers[..], &[0]].concat();
    for numbers in [&sound.numbers, &book.numbers, &long] {
        over(asker, lent, numbers, |asker, both| {
            for side in 0..=255 {
                every_kind(asker, both, (1, side, 100_000));
            }
        });
    }
}

/// Each rule of soundness broken in one slot, alone in the book or among sound ones; the slot is of
/// the stock that is asked about or not, and lastly it is free.
fn one_unsound(asker: &mut Asker, lent: &mut LentTable, random: &mut Random) {
    asker.source("questions: one slot unsound");
    for (groups, share) in [(1, 0), (1, 60), (3, 20)] {
        let others = sound_book(groups, share, 3, random);
        let last = others.slots() - 1;
        for slot in [0, 31, 32, 63, last.saturating_sub(63), last] {
            for broken in broken_slots(SOUND) {
                let mut book = others.clone();
                book.put(slot, &broken);
                over(asker, lent, &book.numbers, about_it);
                book.turn(slot);
                over(asker, lent, &book.numbers, about_it);
            }
        }
    }
}

fn about_it(asker: &mut Asker, both: &mut BothBooks) {
    asker.ask(both, Question::Live);
    for reference in [5, 6] {
        asker.ask(both, Question::Order(reference));
    }
    let price = SOUND.price;
    for place in [
        (1, b'B', price),
        (1, b'S', price),
        (7, b'B', 3),
        (1, b'x', 3),
    ] {
        every_kind(asker, both, place);
    }
}

/// Full books whose orders are all at one level, with as many shares as there can be.
fn one_level(asker: &mut Asker, lent: &mut LentTable) {
    asker.source("questions: books of one level");
    for groups in [1, 2, 5, 16, 64] {
        for (side, price) in [(b'B', 0), (b'S', 0), (b'S', MAXIMUM_PRICE as u32)] {
            let mut book = FlatBook::empty(groups);
            for slot in 0..book.slots() {
                let order = SlotNumbers {
                    reference: slot as u64,
                    price,
                    added: u32::MAX,
                    executed: 0,
                    cancelled: 0,
                    side,
                    ..SOUND
                };
                book.put(slot, &order);
            }
            over(asker, lent, &book.numbers, |asker, both| {
                survey(asker, both, 16);
            });
        }
    }
}

/// Sound books, in whose free slots old orders may stand.
fn whole_books(asker: &mut Asker, lent: &mut LentTable, random: &mut Random) {
    asker.source("questions: whole books");
    for groups in [1, 2, 3, 1, 2, 4, 1, 16, 64] {
        for share in [100, 90, 50, 10, 2] {
            for stocks in [1, 5] {
                let mut book = sound_book(groups, 100, stocks, random);
                for slot in 0..book.slots() {
                    if random.below(100) >= share {
                        book.turn(slot);
                    }
                }
                let most = if groups <= 4 { usize::MAX } else { 24 };
                over(asker, lent, &book.numbers, |asker, both| {
                    survey(asker, both, most);
                });
            }
        }
    }
}
