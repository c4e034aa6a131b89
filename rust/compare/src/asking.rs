//! The desk's questions, put to both programs: about books laid out for them, and for the symbols of
//! messages; while messages are applied, about the books they leave.

mod asker;
mod counts;
mod made_books;
mod question;
mod survey;
mod symbols;

pub use asker::{Asker, BothBooks};
pub use survey::survey;

use crate::messages::all_messages;
use symbols::Symbols;

/// About the books made for it, and for the symbols of all messages made for the readers, that many
/// random ones among them.
pub fn asking(asker: &mut Asker, count: u64) {
    made_books::made_books(asker);
    all_messages(&mut Symbols::new(asker), count);
}
