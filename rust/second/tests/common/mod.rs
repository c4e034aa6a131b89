//! Tables and messages for the tests: one stock, ZVZZT at locate 1, and samples with some fields set.
#![allow(dead_code, unused_imports, reason = "each test file uses a part")]

pub mod replayed;

pub use samples::orders::{delete, order, register, replace, Order, ZVZZT, ZXZZT};
use samples::{orders, FlatBook, SlotNumbers};
use second::Tables;

/// ZVZZT at locate 1 and ZXZZT at locate 2; 3 is not registered.
pub const DIRECTORY: [u64; 4] = [0, ZVZZT, ZXZZT, 0];

/// A buy of 300 at 100,000, 150 of which remain.
pub const SOUND: SlotNumbers = SlotNumbers {
    reference: 5,
    price: 100_000,
    added: 300,
    executed: 100,
    cancelled: 50,
    locate: 1,
    side: b'B',
    attribution: u32::from_be_bytes(*b"NSDQ"),
    low: 0,
};

/// A book of 64 slots with some of them set.
pub fn book_with(slots: &[(usize, SlotNumbers)]) -> FlatBook {
    let mut book = FlatBook::empty(1);
    for (slot, numbers) in slots {
        book.put(*slot, numbers);
    }
    book
}

pub fn tables(book: &FlatBook) -> Tables {
    Tables::from_numbers(&DIRECTORY, &book.numbers).expect("the lengths are good")
}

pub fn sound(reference: u64) -> SlotNumbers {
    SlotNumbers { reference, ..SOUND }
}

/// A buy of 300 ZVZZT at 100,000.
pub fn add(reference: u64) -> Vec<u8> {
    orders::add(b'A', order(reference))
}

pub fn execute(locate: u64, reference: u64, shares: u64) -> Vec<u8> {
    orders::take(b'E', locate, reference, shares)
}

pub fn cancel(locate: u64, reference: u64, shares: u64) -> Vec<u8> {
    orders::take(b'X', locate, reference, shares)
}

/// The number alone; a refusal must leave both tables as they were.
pub fn number(tables: &mut Tables, message: &[u8]) -> u8 {
    let before = tables.clone();
    let (number, out, figures) = tables.apply(message).numbers();
    if number != 0 {
        assert_eq!(*tables, before);
        assert_eq!((out, figures), ([0; 18], [0; 10]));
    }
    number
}

/// The figures of a message that must be accepted.
pub fn figures(tables: &mut Tables, message: &[u8]) -> [u64; 10] {
    let (number, out, figures) = tables.apply(message).numbers();
    assert_eq!(number, 0);
    assert_eq!(out, second::numbers(&second::read(message)).1);
    figures
}

/// The four numbers of a slot, if it is live.
pub fn slot(tables: &Tables, slot: usize) -> Option<[u64; 4]> {
    let slot = tables.book().slots()[slot];
    slot.live.then(|| slot.order.numbers())
}
