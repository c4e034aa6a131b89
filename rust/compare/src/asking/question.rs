//! The questions about a book, and what both programs answer to them.

use crate::memory::{Edge, Guarded, PATTERN};
use second::{Book, Level};

/// The kinds of question about a book.
pub const QUESTIONS: [&str; 5] = ["order", "level", "best", "next", "live count"];

/// A question about a book.
#[derive(Clone, Copy, Debug)]
pub enum Question {
    /// By reference.
    Order(u64),
    /// By locate, side and price; so are the others.
    Level(u16, u8, u32),
    Best(u16, u8),
    Next(u16, u8, u32),
    Live,
}

/// The number and the numbers beside it, then zeros.
pub type Reply = (u8, [u64; 8]);

impl Question {
    /// Its place among the kinds of question.
    pub fn kind(&self) -> usize {
        match self {
            Question::Order(..) => 0,
            Question::Level(..) => 1,
            Question::Best(..) => 2,
            Question::Next(..) => 3,
            Question::Live => 4,
        }
    }

    pub fn side(&self) -> Option<u8> {
        match *self {
            Question::Level(_, side, _) | Question::Best(_, side) | Question::Next(_, side, _) => {
                Some(side)
            }
            Question::Order(..) | Question::Live => None,
        }
    }

    /// The second program's answer; a book of a wrong length is its refusal.
    pub fn expected(&self, book: Result<&Book, u8>) -> Reply {
        match *self {
            Question::Order(reference) => {
                let account = book.and_then(|book| book.order(reference));
                told(account.map(|account| account.numbers()))
            }
            Question::Level(locate, side, price) => {
                let level = book.and_then(|book| book.level(locate, side, price));
                told(level.map(|level| [level.total, level.count]))
            }
            Question::Best(locate, side) => {
                told(book.and_then(|book| book.best(locate, side)).map(found))
            }
            Question::Next(locate, side, price) => {
                let level = book.and_then(|book| book.next(locate, side, price));
                told(level.map(found))
            }
            Question::Live => told(book.map(|book| [book.live_count()])),
        }
    }

    /// The product's answer, written to that edge of the memory.
    pub fn product(&self, book: &[u64], memory: &mut Guarded, edge: Edge) -> Reply {
        match *self {
            Question::Order(reference) => {
                written(memory, edge, |out| face::order(book, reference, out))
            }
            Question::Level(locate, side, price) => written(memory, edge, |out| {
                face::level(book, locate, side, price, out)
            }),
            Question::Best(locate, side) => {
                written(memory, edge, |out| face::best(book, locate, side, out))
            }
            Question::Next(locate, side, price) => written(memory, edge, |out| {
                face::next(book, locate, side, price, out)
            }),
            Question::Live => written(memory, edge, |out| face::live(book, out)),
        }
    }
}

/// Best's and next's numbers: 1 and the level, or zeros.
fn found(level: Option<Level>) -> [u64; 4] {
    match level {
        Some(level) => [1, level.price.into(), level.total, level.count],
        None => [0; 4],
    }
}

fn told<const N: usize>(answer: Result<[u64; N], u8>) -> Reply {
    match answer {
        Ok(numbers) => (0, padded(&numbers)),
        Err(number) => (number, [0; 8]),
    }
}

fn written<const N: usize>(
    memory: &mut Guarded,
    edge: Edge,
    ask: impl FnOnce(&mut [u64; N]) -> u8,
) -> Reply {
    let out = memory.numbers(edge);
    out.fill(PATTERN);
    let number = ask(out);
    (number, padded(out))
}

fn padded(numbers: &[u64]) -> [u64; 8] {
    let mut all = [0; 8];
    all[..numbers.len()].copy_from_slice(numbers);
    all
}
