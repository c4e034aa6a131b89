//! Messages to try the readers with: well-formed ones, ones spoiled in a known way, and flows of
//! them that fit together; tables to apply them to, sound and damaged ones; and a day to replay.
//!
//! Its table of layouts takes the offsets as document 000 prints them, while the second program's
//! reader takes one field after the other, so that each is a check of the other. It reads nothing.

mod blocks;
mod damage;
mod day;
mod faults;
mod flow;
mod layouts;
mod make;
pub mod orders;
mod random;
mod slots;
mod twist;

pub use blocks::{put_block, stream_of};
pub use damage::{damaged_book, damaged_directory, harm};
pub use day::day;
pub use faults::{faults_of, spoil, Fault};
pub use flow::{Flow, Target};
pub use layouts::LAYOUTS;
pub use make::{bare_with, random_message, random_text, sample, sample_with};
pub use random::Random;
pub use slots::{broken_slots, sound_book, targets, FlatBook, SlotNumbers};
pub use twist::{random_bytes, twist};

/// The first timestamp that is too large.
pub const DAY: u64 = 0x4E94_914F_0000;
/// The largest Price (4).
pub const MAXIMUM_PRICE: u64 = 0x7735_9400;

/// What the paper asks of a field.
#[derive(Clone, Copy, Debug, PartialEq, Eq)]
pub enum Rule {
    Free,
    Time,
    Side,
    Printable,
    Text,
    Price,
    Shares,
}

impl Rule {
    /// The number of the refusal when the rule is broken; none for a free field.
    pub fn number(self) -> Option<u8> {
        match self {
            Rule::Free => None,
            Rule::Time => Some(3),
            Rule::Side | Rule::Printable | Rule::Text => Some(4),
            Rule::Price => Some(5),
            Rule::Shares => Some(6),
        }
    }
}

/// A row of one of document 000's tables.
#[derive(Clone, Copy, Debug, PartialEq, Eq)]
pub struct Field {
    pub name: &'static str,
    pub offset: usize,
    pub width: usize,
    pub rule: Rule,
}

impl Field {
    /// The field's bytes as one big-endian number.
    pub fn get(&self, message: &[u8]) -> u64 {
        let mut wide = [0; 8];
        wide[8 - self.width..].copy_from_slice(&message[self.offset..self.offset + self.width]);
        u64::from_be_bytes(wide)
    }

    /// Stores the low bytes of a number, big-endian.
    pub fn set(&self, message: &mut [u8], number: u64) {
        let wide = number.to_be_bytes();
        message[self.offset..self.offset + self.width].copy_from_slice(&wide[8 - self.width..]);
    }

    /// The largest number that the field can hold.
    pub fn largest(&self) -> u64 {
        u64::MAX >> (64 - 8 * self.width)
    }
}

/// One of the 23 messages.
#[derive(Clone, Copy, Debug)]
pub struct Layout {
    pub message_type: u8,
    pub length: usize,
    /// The fields after the head that every message has.
    pub own: &'static [Field],
}

impl Layout {
    /// All fields after the type byte.
    pub fn fields(&self) -> impl Iterator<Item = &'static Field> {
        layouts::HEAD.iter().chain(self.own)
    }

    /// The layout of a type, if it is one of the 23.
    pub fn of(message_type: u8) -> Option<&'static Layout> {
        LAYOUTS
            .iter()
            .find(|layout| layout.message_type == message_type)
    }

    /// The field of that name.
    pub fn field(&self, name: &str) -> Option<&'static Field> {
        self.fields().find(|field| field.name == name)
    }

    /// What an accepted message of this layout is given out as.
    pub fn values(&self, message: &[u8]) -> [u64; 18] {
        let mut out = [0; 18];
        out[0] = u64::from(self.message_type);
        for (place, field) in self.fields().enumerate() {
            out[place + 1] = field.get(message);
        }
        out
    }
}
