//! The memory that is lent to the product, and where a table of it differs from what it should hold.

mod difference;
mod guarded;
mod lent_table;

pub use difference::{table_difference, TableDifference};
pub use guarded::{Edge, Guarded, PATTERN};
pub use lent_table::{LentTable, BOOK_LENGTHS, LONGEST_TABLE};
