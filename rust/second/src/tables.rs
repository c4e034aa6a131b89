//! The two tables that the desk lends.

use crate::applied::Applied;
use crate::book::Book;
use crate::directory::Directory;
use crate::questions::{Account, Level};
use crate::{message_of, SHAPE};
use std::ops::Range;

/// A directory and a book of the paper's lengths, with any contents.
#[derive(Clone, Debug, PartialEq, Eq)]
pub struct Tables {
    pub(crate) directory: Directory,
    pub(crate) book: Book,
}

impl Tables {
    /// Starts from any numbers, or refuses their lengths with 14.
    pub fn from_numbers(directory: &[u64], book: &[u64]) -> Result<Self, u8> {
        Ok(Tables {
            directory: Directory::lent(directory)?,
            book: Book::lent(book)?,
        })
    }

    /// Applies one message, lent with its exact length.
    pub fn apply(&mut self, bytes: &[u8]) -> Applied {
        let message = match message_of(bytes) {
            Ok(message) => message,
            Err(number) => return Applied::Refused(number),
        };
        match self.step(&message) {
            Ok(orders) => Applied::Done(message, orders),
            Err(number) => Applied::Refused(number),
        }
    }

    /// Order by reference.
    pub fn order(&self, reference: u64) -> Result<Account, u8> {
        self.book.order(reference)
    }

    /// Level by locate, side and price.
    pub fn level(&self, locate: u16, side: u8, price: u32) -> Result<Level, u8> {
        self.book.level(locate, side, price)
    }

    /// Best level of a stock's side.
    pub fn best(&self, locate: u16, side: u8) -> Result<Option<Level>, u8> {
        self.book.best(locate, side)
    }

    /// Next level worse than a price.
    pub fn next(&self, locate: u16, side: u8, price: u32) -> Result<Option<Level>, u8> {
        self.book.next(locate, side, price)
    }

    pub fn live_count(&self) -> u64 {
        self.book.live_count()
    }

    /// The part of a message that is its symbol.
    pub fn symbol(&self, bytes: &[u8]) -> Range<usize> {
        self.directory.symbol(bytes)
    }

    pub fn directory(&self) -> &Directory {
        &self.directory
    }

    pub fn book(&self) -> &Book {
        &self.book
    }

    pub fn directory_numbers(&self) -> Vec<u64> {
        self.directory.numbers().collect()
    }

    pub fn book_numbers(&self) -> Vec<u64> {
        self.book.numbers().collect()
    }
}

/// Makes both tables all zero and answers 0, or answers 14 and leaves them.
pub fn fresh(directory: &mut [u64], book: &mut [u64]) -> u8 {
    if !Directory::is_length(directory.len()) || !Book::is_length(book.len()) {
        return SHAPE;
    }
    directory.fill(0);
    book.fill(0);
    0
}

/// Applies one message to tables of any lengths, given and left as numbers.
pub fn apply(directory: &mut [u64], book: &mut [u64], bytes: &[u8]) -> Applied {
    let mut tables = match Tables::from_numbers(directory, book) {
        Ok(tables) => tables,
        Err(number) => return Applied::Refused(number),
    };
    let applied = tables.apply(bytes);
    directory.copy_from_slice(&tables.directory_numbers());
    book.copy_from_slice(&tables.book_numbers());
    applied
}
