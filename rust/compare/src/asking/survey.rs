//! What is asked of a book at one go: its orders, its levels, and what lies around them.

use crate::asking::asker::{Asker, BothBooks};
use crate::asking::question::Question;
use samples::MAXIMUM_PRICE;
use second::Book;

/// A level's locate, side and price.
type Place = (u16, u8, u32);

/// Prices at and beyond both ends.
const EXTREMES: [u32; 6] = [
    0,
    1,
    MAXIMUM_PRICE as u32 - 1,
    MAXIMUM_PRICE as u32,
    MAXIMUM_PRICE as u32 + 1,
    u32::MAX,
];

/// Where one slot is unsound, every level is refused alike.
const UNSOUND: usize = 3;

/// Asks about at most that many orders and levels, by chance, where there are more.
pub fn survey(asker: &mut Asker, both: &mut BothBooks, most: usize) {
    asker.ask(both, Question::Live);
    let Ok(book) = both.second else { return };
    orders(asker, both, book, most);
    let live = || book.slots().iter().filter(|slot| slot.live);
    let most = match live().all(|slot| slot.order.is_sound()) {
        true => most,
        false => most.min(UNSOUND),
    };
    let mut places: Vec<Place> = live()
        .map(|slot| (slot.order.locate, slot.order.side, slot.order.price))
        .collect();
    places.sort_unstable();
    places.dedup();
    levels(asker, both, &places, most);
    sides(asker, both, &places, most);
    odd(asker, both, &places);
}

/// The references of live slots and of free ones, 0, and some that are near one or nowhere.
fn orders(asker: &mut Asker, both: &mut BothBooks, book: &Book, most: usize) {
    let slots = book.slots().iter();
    let mut references: Vec<u64> = slots.map(|slot| slot.order.reference).collect();
    references.sort_unstable();
    references.dedup();
    let near = *asker.random.one_of(&references) ^ 1 << asker.random.below(64);
    let nowhere = asker.random.number();
    let asked = asker.some(references, most);
    for reference in asked.into_iter().chain([0, u64::MAX, near, nowhere]) {
        asker.ask(both, Question::Order(reference));
    }
}

/// Each level, its neighbours, and the next from it, from beside it and from between two levels.
fn levels(asker: &mut Asker, both: &mut BothBooks, places: &[Place], most: usize) {
    for (locate, side, price) in asker.some(places.to_vec(), most) {
        let (below, above) = (price.wrapping_sub(1), price.wrapping_add(1));
        let (elsewhere, _, another) = *asker.random.one_of(places);
        let between = price / 2 + another / 2;
        asker.ask(both, Question::Next(locate, side, between));
        for price in [price, below, above] {
            asker.ask(both, Question::Level(locate, side, price));
            asker.ask(both, Question::Next(locate, side, price));
        }
        asker.ask(both, Question::Level(locate, other(side), price));
        // Locates and prices that differ in one bit are levels of their own too.
        let far = price ^ 1 << asker.random.below(32);
        asker.ask(both, Question::Level(locate, side, far));
        for locate in [locate ^ 1, locate ^ 0x0100, elsewhere] {
            asker.ask(both, Question::Level(locate, side, price));
        }
    }
}

/// Both sides of each stock: the best, and on down to none; and the next from the extremes.
fn sides(asker: &mut Asker, both: &mut BothBooks, places: &[Place], most: usize) {
    let mut stocks: Vec<u16> = places.iter().map(|place| place.0).collect();
    stocks.dedup();
    for locate in asker.some(stocks, 1 + most / 8) {
        for side in [b'B', b'S'] {
            let best = asker.ask(both, Question::Best(locate, side));
            walk(asker, both, (locate, side), best.1, most);
            for price in EXTREMES {
                asker.ask(both, Question::Next(locate, side, price));
            }
        }
    }
}

/// From a level to the next until there is none, or that many times.
fn walk(
    asker: &mut Asker,
    both: &mut BothBooks,
    (locate, side): (u16, u8),
    mut level: [u64; 8],
    most: usize,
) {
    let mut steps = 0;
    while level[0] == 1 && steps < most {
        let question = Question::Next(locate, side, level[1] as u32);
        level = asker.ask(both, question).1;
        steps += 1;
    }
}

/// Locates that no order has, prices that no level has, and side bytes that are none.
fn odd(asker: &mut Asker, both: &mut BothBooks, places: &[Place]) {
    let known = match places.is_empty() {
        true => 1,
        false => asker.random.one_of(places).0,
    };
    for locate in [0, u16::MAX, known] {
        let side = *asker.random.one_of(b"BS");
        let price = *asker.random.one_of(&EXTREMES);
        every_kind(asker, both, (locate, side, price));
    }
    let (side, price) = (asker.random.byte(), asker.random.number() as u32);
    every_kind(asker, both, (known, side, price));
}

/// Level, best and next with the same locate, side and price.
pub fn every_kind(asker: &mut Asker, both: &mut BothBooks, (locate, side, price): Place) {
    asker.ask(both, Question::Level(locate, side, price));
    asker.ask(both, Question::Best(locate, side));
    asker.ask(both, Question::Next(locate, side, price));
}

fn other(side: u8) -> u8 {
    match side {
        b'B' => b'S',
        _ => b'B',
    }
}
