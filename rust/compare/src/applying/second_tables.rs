//! The second program's tables, also where it refuses their lengths.

use crate::applying::outcome::Answer;
use crate::memory::{table_difference, TableDifference};
use second::{Applied, Tables};

/// The second program's tables; numbers alone where their lengths are refused.
pub enum SecondTables {
    Tables(Tables),
    Refused(u8, Vec<u64>, Vec<u64>),
}

impl SecondTables {
    pub fn new(directory: &[u64], book: &[u64]) -> Self {
        match Tables::from_numbers(directory, book) {
            Ok(tables) => SecondTables::Tables(tables),
            Err(number) => SecondTables::Refused(number, directory.to_vec(), book.to_vec()),
        }
    }

    pub fn apply(&mut self, bytes: &[u8]) -> Answer {
        match self {
            SecondTables::Tables(tables) => tables.apply(bytes).numbers(),
            SecondTables::Refused(number, ..) => Applied::Refused(*number).numbers(),
        }
    }

    pub fn numbers(&self) -> (Vec<u64>, Vec<u64>) {
        match self {
            SecondTables::Tables(tables) => (tables.directory_numbers(), tables.book_numbers()),
            SecondTables::Refused(_, directory, book) => (directory.clone(), book.clone()),
        }
    }

    /// Where the product's tables differ from these.
    pub fn differences(
        &self,
        directory: &[u64],
        book: &[u64],
    ) -> (Option<TableDifference>, Option<TableDifference>) {
        match self {
            SecondTables::Tables(tables) => (
                table_difference(tables.directory().numbers(), directory),
                table_difference(tables.book().numbers(), book),
            ),
            SecondTables::Refused(_, second_directory, second_book) => (
                table_difference(second_directory.iter().copied(), directory),
                table_difference(second_book.iter().copied(), book),
            ),
        }
    }
}
