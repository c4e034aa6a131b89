//! Every type of book message in every combination of the things that may be wrong with it.

use crate::applying::both_tables::BothTables;
use crate::applying::counts::ApplyCounts;
use samples::orders::{ZVZZT, ZXZZT};
use samples::{broken_slots, sample_with, FlatBook, SlotNumbers, LAYOUTS, MAXIMUM_PRICE};

const NO_TEXT: u64 = u64::from_be_bytes(*b"ZV ZT   ");

/// Registered, of another symbol, unregistered, of no text; number 0 must not matter.
const DIRECTORY: [u64; 5] = [ZVZZT, ZVZZT, ZXZZT, 0, NO_TEXT];
const LOCATES: [u64; 8] = [1, 0, 2, 3, 4, 5, 0x0101, 0xFFFF];

/// The order aimed at, another one, one whose slot is free, and one that is nowhere.
const AIM: u64 = 5;
const OTHER: u64 = 7;
const OLD: u64 = 9;
const NOWHERE: u64 = 11;
const REFERENCES: [u64; 6] = [AIM, OTHER, OLD, NOWHERE, 0, AIM | 1 << 32];

/// An order of 300 shares, 150 of which remain.
const SOUND: SlotNumbers = SlotNumbers {
    reference: AIM,
    price: 100_000,
    added: 300,
    executed: 100,
    cancelled: 50,
    locate: 1,
    side: b'B',
    attribution: u32::from_be_bytes(*b"MPID"),
    low: 0,
};
const SHARES: [u64; 7] = [1, 149, 150, 151, 300, 0xFFFF_FFFF, 0];

/// Every message over every book, each time over the book as it was.
pub fn every_crossing(both: &mut BothTables, counts: &mut ApplyCounts) {
    counts.source("apply: all that may be wrong, crossed");
    let messages = messages();
    for book in books() {
        both.lay(&DIRECTORY, &book.numbers);
        for message in &messages {
            if both.apply(counts, message) == 0 {
                both.lay(&DIRECTORY, &book.numbers);
            }
        }
    }
}

/// Books with the order aimed at sound or broken in each way, the other order below or above it, and
/// the rest free or full.
fn books() -> Vec<FlatBook> {
    let mut aims = broken_slots(SOUND);
    aims.push(SOUND);
    let mut books = vec![];
    for aim in aims {
        for full in [false, true] {
            for other in [1, 40] {
                books.push(book_around(&aim, full, other));
            }
        }
    }
    for book in &mut books.clone() {
        // The same reference in a higher slot, sound: the lowest one decides all the same.
        book.put(50, &SOUND);
        books.push(book.clone());
    }
    books
}

fn book_around(aim: &SlotNumbers, full: bool, other: usize) -> FlatBook {
    let mut book = FlatBook::empty(1);
    for slot in (0..64).filter(|slot| full || *slot == 0) {
        let reference = 1_000 + slot as u64;
        book.put(slot, &SlotNumbers { reference, ..SOUND });
    }
    book.put(20, aim);
    let broken = SlotNumbers {
        reference: OTHER,
        side: b'b',
        ..SOUND
    };
    book.put(other, &broken);
    if !full {
        let old = SlotNumbers {
            reference: OLD,
            ..SOUND
        };
        book.slot(10).copy_from_slice(&old.numbers());
    }
    book
}

/// The book messages with every locate, reference, count and symbol; the others once.
fn messages() -> Vec<Vec<u8>> {
    let mut messages = vec![];
    for layout in &LAYOUTS {
        let kind = layout.message_type;
        messages.push(sample_with(kind, &[]));
        // At a locate that is not registered yet.
        messages.push(sample_with(kind, &[("Stock Locate", 3)]));
    }
    for locate in LOCATES.map(|locate| ("Stock Locate", locate)) {
        for stock in [ZVZZT, ZXZZT].map(|stock| ("Stock", stock)) {
            messages.push(sample_with(b'R', &[locate, stock]));
            additions(&mut messages, &[locate, stock]);
        }
        changes(&mut messages, locate);
    }
    messages
}

fn additions(messages: &mut Vec<Vec<u8>>, sets: &[(&str, u64)]) {
    for reference in REFERENCES {
        let sets = [sets, &[("Order Reference Number", reference)]].concat();
        for kind in [b'A', b'F'] {
            messages.push(sample_with(kind, &sets));
            for worse in [("Shares", 0), ("Price", MAXIMUM_PRICE + 1)] {
                messages.push(sample_with(kind, &[&sets[..], &[worse]].concat()));
            }
        }
    }
}

fn changes(messages: &mut Vec<Vec<u8>>, locate: (&'static str, u64)) {
    for number in REFERENCES {
        let order = [locate, ("Order Reference Number", number)];
        messages.push(sample_with(b'D', &order));
        messages.push(sample_with(b'P', &order));
        for shares in SHARES {
            let executed = [&order[..], &[("Executed Shares", shares)]].concat();
            messages.push(sample_with(b'E', &executed));
            messages.push(sample_with(b'C', &executed));
            let cancelled = [&order[..], &[("Cancelled Shares", shares)]].concat();
            messages.push(sample_with(b'X', &cancelled));
        }
        let original = [locate, ("Original Order Reference Number", number)];
        for new in REFERENCES {
            let both = [&original[..], &[("New Order Reference Number", new)]].concat();
            messages.push(sample_with(b'U', &both));
        }
    }
}
