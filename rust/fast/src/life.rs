//! A live order, and the four numbers of a slot that hold it.

use crate::checks::{side, text4, MAXIMUM_PRICE};

pub const NSDQ: u32 = u32::from_be_bytes(*b"NSDQ");

/// An order of which something remains.
#[derive(Clone, Copy)]
pub struct Order {
    pub reference: u64,
    pub price: u32,
    pub added: u32,
    pub executed: u32,
    pub cancelled: u32,
    pub locate: u16,
    pub side: u8,
    pub attribution: u32,
}

impl Order {
    /// The order in a live slot; none if the slot is unsound.
    #[inline(always)]
    pub fn held(numbers: &[u64; 4]) -> Option<Order> {
        let [reference, second, third, fourth] = *numbers;
        let order = Order {
            reference,
            price: (second >> 32) as u32,
            added: second as u32,
            executed: (third >> 32) as u32,
            cancelled: third as u32,
            locate: (fourth >> 48) as u16,
            side: (fourth >> 40) as u8,
            attribution: (fourth >> 8) as u32,
        };
        let gone = u64::from(order.executed) + u64::from(order.cancelled);
        let sound = order.price <= MAXIMUM_PRICE
            && order.locate != 0
            && side(order.side)
            && fourth as u8 == 0
            && gone < u64::from(order.added)
            // NSDQ, which most orders have, is known by one compare.
            && (order.attribution == NSDQ || text4(order.attribution));
        sound.then_some(order)
    }

    #[inline(always)]
    pub fn numbers(&self) -> [u64; 4] {
        [
            self.reference,
            (u64::from(self.price) << 32) | u64::from(self.added),
            self.third(),
            (u64::from(self.locate) << 48)
                | (u64::from(self.side) << 40)
                | (u64::from(self.attribution) << 8),
        ]
    }

    /// The executed and the cancelled shares, the only number that changes in a life.
    #[inline(always)]
    pub fn third(&self) -> u64 {
        (u64::from(self.executed) << 32) | u64::from(self.cancelled)
    }

    #[inline(always)]
    pub fn remaining(&self) -> u32 {
        self.added - self.executed - self.cancelled
    }

    /// What the answer says of it.
    #[inline(always)]
    pub fn figures(&self, shares: u32, remains: u32) -> [u64; 5] {
        [
            u64::from(self.locate),
            u64::from(self.side),
            u64::from(self.price),
            u64::from(shares),
            u64::from(remains),
        ]
    }
}
