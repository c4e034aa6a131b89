//! The directory: the symbol that each locate is registered with.

use crate::SHAPE;

/// Symbols by their locates.
#[derive(Clone, Debug, PartialEq, Eq)]
pub struct Directory {
    /// Kept as it was given, and asked by nobody.
    number_0: u64,
    /// From locate 1 on.
    entries: Vec<Entry>,
}

/// What stands at a locate inside the directory.
#[derive(Clone, Copy, Debug, PartialEq, Eq)]
pub enum Entry {
    Unregistered,
    /// Eight bytes that are not all 0; a damaged directory may hold ones that are no text.
    Registered([u8; 8]),
}

impl Entry {
    fn from_number(number: u64) -> Self {
        match number {
            0 => Entry::Unregistered,
            _ => Entry::Registered(number.to_be_bytes()),
        }
    }

    fn number(self) -> u64 {
        match self {
            Entry::Unregistered => 0,
            Entry::Registered(symbol) => u64::from_be_bytes(symbol),
        }
    }
}

impl Directory {
    /// The paper's lengths, in numbers.
    pub fn is_length(length: usize) -> bool {
        (2..=8_192).contains(&length)
    }

    /// Takes over any numbers, or refuses their length with 14.
    pub fn lent(numbers: &[u64]) -> Result<Self, u8> {
        match Directory::is_length(numbers.len()) {
            true => Ok(Directory::from_numbers(numbers)),
            false => Err(SHAPE),
        }
    }

    /// The caller has seen to the length.
    fn from_numbers(numbers: &[u64]) -> Self {
        let (&number_0, entries) = numbers.split_first().expect("at least 2 numbers");
        Directory {
            number_0,
            entries: entries.iter().copied().map(Entry::from_number).collect(),
        }
    }

    /// The entry of a locate; none for 0 and beyond the end.
    pub fn entry(&self, locate: u16) -> Option<Entry> {
        let place = usize::from(locate).checked_sub(1)?;
        self.entries.get(place).copied()
    }

    /// Registers the symbol at a locate that has an entry.
    pub(crate) fn register(&mut self, locate: u16, symbol: [u8; 8]) {
        self.entries[usize::from(locate) - 1] = Entry::Registered(symbol);
    }

    /// The numbers that hold this directory.
    pub fn numbers(&self) -> impl Iterator<Item = u64> + '_ {
        let entries = self.entries.iter().map(|entry| entry.number());
        std::iter::once(self.number_0).chain(entries)
    }
}
