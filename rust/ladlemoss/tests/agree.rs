//! The typed answers are those of the second program, message after message, and so are the tables.

use ladlemoss::{Figures, Outcome, Refusal};
use samples::{damaged_book, damaged_directory, faults_of, random_bytes, random_message};
use samples::{sound_book, targets, twist, Flow, Random, LAYOUTS};
use std::collections::BTreeSet;

/// The number, the values of the message and the figures of the orders.
type Numbers = (u8, [u64; 18], [u64; 10]);

fn five(order: &Figures) -> [u64; 5] {
    [
        order.locate.into(),
        order.side.byte().into(),
        order.price.into(),
        order.shares.into(),
        order.remains.into(),
    ]
}

/// A typed answer as the numbers it must have come from.
fn numbers(answer: &Result<Outcome, Refusal>) -> Numbers {
    let mut figures = [0; 10];
    let outcome = match answer {
        Err(refusal) => return (refusal.number(), [0; 18], figures),
        Ok(outcome) => outcome,
    };
    match outcome {
        Outcome::Accepted(_) => {}
        Outcome::Moved(_, order) => figures[..5].copy_from_slice(&five(order)),
        Outcome::Replaced(_, closed, started) => {
            figures[..5].copy_from_slice(&five(closed));
            figures[5..].copy_from_slice(&five(started));
        }
    }
    (0, outcome.message().numbers(), figures)
}

/// Both sides' tables, and what was met so far.
struct Desk {
    directory: Vec<u64>,
    book: Vec<u64>,
    refusals: BTreeSet<u8>,
    types: BTreeSet<u8>,
}

impl Desk {
    fn new() -> Self {
        Desk {
            directory: vec![],
            book: vec![],
            refusals: BTreeSet::new(),
            types: BTreeSet::new(),
        }
    }

    fn lay(&mut self, directory: Vec<u64>, book: Vec<u64>) {
        (self.directory, self.book) = (directory, book);
    }

    /// Gives the message to both sides and answers whether it was accepted.
    fn apply(&mut self, message: &[u8]) -> bool {
        let (mut directory, mut book) = (self.directory.clone(), self.book.clone());
        let expected = second::apply(&mut directory, &mut book, message).numbers();
        let answer = ladlemoss::apply(&mut self.directory, &mut self.book, message);
        assert_eq!(numbers(&answer), expected, "{message:?}");
        assert_eq!((&self.directory, &self.book), (&directory, &book));
        read(message);
        match answer {
            Ok(_) => self.types.insert(message[0]),
            Err(refusal) => self.refusals.insert(refusal.number()),
        };
        answer.is_ok()
    }
}

/// Reading alone answers as the second program does.
fn read(message: &[u8]) {
    let expected = second::numbers(&second::read(message));
    let got = match ladlemoss::read(message) {
        Err(refusal) => (refusal.number(), [0; 18]),
        Ok(read) => (0, read.numbers()),
    };
    assert_eq!(got, expected, "{message:?}");
}

/// A flow in which that many of a hundred messages are changed.
fn flow(desk: &mut Desk, hostile: u64, wanted: usize, random: &mut Random) {
    let mut flow = Flow::new(desk.directory.len(), wanted);
    let symbols = desk.directory.iter().enumerate().skip(1);
    flow.stocks = symbols
        .filter(|(_, symbol)| **symbol != 0)
        .map(|(locate, symbol)| (locate as u16, *symbol))
        .collect();
    flow.orders = targets(&desk.book, false);
    for _ in 0..1_000 {
        let mut message = flow.message(random);
        if random.below(100) < hostile {
            match random.below(12) {
                0 => message = random_bytes(random),
                _ => twist(&mut message, &flow, random),
            }
        }
        if desk.apply(&message) {
            flow.learn(&message);
        }
    }
}

#[test]
fn applying_agrees_over_sound_and_damaged_tables() {
    let (mut desk, mut random) = (Desk::new(), Random::new(5));
    for (words, length) in [(1, 2), (2, 7), (1, 64), (3, 300)] {
        desk.lay(vec![7; length], vec![7; ladlemoss::book_length(words)]);
        assert_eq!(
            ladlemoss::fresh(&mut desk.directory, &mut desk.book),
            Ok(())
        );
        assert!(desk.directory.iter().chain(&desk.book).all(|&n| n == 0));
        flow(&mut desk, 0, 40, &mut random);
        flow(&mut desk, 70, 40, &mut random);
        // Full, with more wanted than there is room for.
        let book = sound_book(words, 100, 1, &mut random);
        desk.lay(desk.directory.clone(), book.numbers);
        flow(&mut desk, 10, 64 * words + 1, &mut random);
        let directory = damaged_directory(length, &mut random);
        let book = damaged_book(words, 6, &mut random);
        desk.lay(directory, book.numbers);
        flow(&mut desk, 30, 64 * words, &mut random);
    }
    for (directory, book) in [(1, 257), (8_193, 257), (2, 0), (2, 256), (2, 16_705)] {
        desk.lay(vec![3; directory], vec![3; book]);
        assert!(!desk.apply(b"S\0\0\0\0\0\0\0\0\0\0O"));
        let fresh = ladlemoss::fresh(&mut desk.directory, &mut desk.book);
        assert_eq!(fresh, Err(Refusal::Shape));
        assert!(desk.directory.iter().chain(&desk.book).all(|&n| n == 3));
    }
    assert_eq!(desk.types.len(), 23);
    assert_eq!(desk.refusals, (1..=14).collect());
}

#[test]
fn reading_agrees_on_every_type_length_and_fault() {
    let mut random = Random::new(6);
    for byte in 0..=255 {
        for length in 0..=52 {
            read(&vec![byte; length]);
        }
    }
    for layout in &LAYOUTS {
        for fault in faults_of(layout) {
            let mut message = random_message(layout, &mut random);
            fault.put(&mut message);
            read(&message);
        }
    }
}
