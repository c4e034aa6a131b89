//! Tables that no run of messages leads to.

use crate::flow::symbol;
use crate::slots::{broken_slots, FlatBook, SlotNumbers};
use crate::Random;

/// References so few that several slots hold the same.
const REFERENCES: [u64; 8] = [0, 1, 2, 3, 5, 7, 1 << 32, u64::MAX];

/// A directory in which symbols are missing, doubled or no texts, and number 0 is used.
pub fn damaged_directory(length: usize, random: &mut Random) -> Vec<u64> {
    let mut directory: Vec<u64> = (0..length).map(|_| entry(random)).collect();
    if random.below(2) == 0 {
        directory[0] = 0;
    }
    directory
}

fn entry(random: &mut Random) -> u64 {
    match random.below(10) {
        0 | 1 => 0,
        2 => random.number(),
        3 => {
            let odd = [b"ZV ZT   ", b"        ", b" ZVZZT  ", b"ZVZZT\0\0\0"];
            u64::from_be_bytes(**random.one_of(&odd))
        }
        // Differs from a symbol in one bit.
        4 => symbol(random) ^ 1 << random.below(64),
        _ => symbol(random),
    }
}

/// A book of live slots sound and unsound, and of free ones with old numbers.
pub fn damaged_book(groups: usize, stocks: u16, random: &mut Random) -> FlatBook {
    let mut book = FlatBook::empty(groups);
    // Full and nearly full books are as frequent as others.
    let free_of_100 = *random.one_of(&[0, 1, 10, 50, 90, 100]);
    let odd_of_100 = *random.one_of(&[0, 20, 100]);
    for slot in 0..book.slots() {
        if random.below(100) >= free_of_100 {
            book.turn(slot);
        } else if random.below(2) == 0 {
            continue;
        }
        let numbers = numbers(odd_of_100, stocks, random);
        book.slot(slot).copy_from_slice(&numbers);
    }
    book
}

/// The numbers of a slot: sound, with one rule broken, with two, or any.
fn numbers(odd_of_100: u64, stocks: u16, random: &mut Random) -> [u64; 4] {
    let reference = match random.below(3) {
        0 => *random.one_of(&REFERENCES),
        _ => random.below(200),
    };
    let locate = match random.below(12) {
        0 => *random.one_of(&[0x1FFF, 0x2000, 0xFFFF]),
        _ => 1 + random.below(stocks.into()) as u16,
    };
    let sound = SlotNumbers::sound(reference, locate, random);
    if random.below(100) >= odd_of_100 {
        return sound.numbers();
    }
    match random.below(8) {
        0 => [(); 4].map(|()| random.number()),
        1 => {
            let broken = *random.one_of(&broken_slots(sound));
            random.one_of(&broken_slots(broken_again(broken))).numbers()
        }
        _ => random.one_of(&broken_slots(sound)).numbers(),
    }
}

/// Made fit to have another rule broken, which needs at least one added share.
fn broken_again(broken: SlotNumbers) -> SlotNumbers {
    SlotNumbers {
        added: broken.added.max(1),
        ..broken
    }
}

/// Damages a book, whatever it holds, in one place.
pub fn harm(book: &mut FlatBook, stocks: u16, random: &mut Random) {
    let slot = random.place(book.slots());
    match random.below(5) {
        0 => book.turn(slot),
        1 => book.slot(slot)[random.place(4)] ^= 1 << random.below(64),
        2 => {
            let numbers = numbers(50, stocks, random);
            book.slot(slot).copy_from_slice(&numbers);
        }
        // The same reference once more, or all of another slot.
        3 => {
            let reference = book.slot(random.place(book.slots()))[0];
            book.slot(slot)[0] = reference;
        }
        _ => {
            let from = random.place(book.slots());
            let numbers = book.slot(from).to_vec();
            book.slot(slot).copy_from_slice(&numbers);
        }
    }
}
