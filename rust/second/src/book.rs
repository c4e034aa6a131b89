//! The book: slots, each with an order's numbers and whether it is live.

use crate::order::Order;
use crate::SHAPE;

/// Slots of one number of the map.
const GROUP: usize = 64;
/// Numbers of a group of slots: one of the map, then four a slot.
const GROUP_NUMBERS: usize = 1 + 4 * GROUP;
/// A book has at most this many groups.
const MOST_GROUPS: usize = 64;

/// A place for one order. A free slot of a damaged book may hold old numbers, and keeps them.
#[derive(Clone, Copy, Debug, PartialEq, Eq)]
pub struct Slot {
    pub live: bool,
    pub order: Order,
}

/// The slots in their order.
#[derive(Clone, Debug, PartialEq, Eq)]
pub struct Book {
    slots: Vec<Slot>,
}

impl Book {
    /// The paper's lengths, in numbers.
    pub fn is_length(length: usize) -> bool {
        (1..=MOST_GROUPS).any(|groups| length == GROUP_NUMBERS * groups)
    }

    /// Takes over any numbers, or refuses their length with 14.
    pub fn lent(numbers: &[u64]) -> Result<Self, u8> {
        match Book::is_length(numbers.len()) {
            true => Ok(Book::from_numbers(numbers)),
            false => Err(SHAPE),
        }
    }

    /// The caller has seen to the length.
    fn from_numbers(numbers: &[u64]) -> Self {
        let (map, rest) = numbers.split_at(numbers.len() / GROUP_NUMBERS);
        let slots = rest.chunks_exact(4).enumerate().map(|(place, four)| Slot {
            live: map[place / GROUP] >> (place % GROUP) & 1 == 1,
            order: Order::from_numbers(four.try_into().expect("four numbers")),
        });
        Book {
            slots: slots.collect(),
        }
    }

    pub fn slots(&self) -> &[Slot] {
        &self.slots
    }

    /// The lowest live slot with that reference, whatever else the book holds.
    pub fn find(&self, reference: u64) -> Option<usize> {
        self.slots
            .iter()
            .position(|slot| slot.live && slot.order.reference == reference)
    }

    /// The lowest slot that is not live.
    pub fn lowest_free(&self) -> Option<usize> {
        self.slots.iter().position(|slot| !slot.live)
    }

    /// Makes the slot live with the order, whatever it held.
    pub(crate) fn put(&mut self, place: usize, order: Order) {
        self.slots[place] = Slot { live: true, order };
    }

    /// Frees the slot and zeroes its numbers.
    pub(crate) fn remove(&mut self, place: usize) {
        self.slots[place] = Slot {
            live: false,
            order: Order::default(),
        };
    }

    /// The numbers that hold this book: the map, then the slots.
    pub fn numbers(&self) -> impl Iterator<Item = u64> + '_ {
        let map = self.slots.chunks_exact(GROUP).map(|group| {
            let bits = group.iter().enumerate();
            bits.fold(0, |map, (bit, slot)| map | u64::from(slot.live) << bit)
        });
        map.chain(self.slots.iter().flat_map(|slot| slot.order.numbers()))
    }
}
