//! What the answer to a message that was applied to the tables says.

use crate::order::Order;
use crate::{numbers, Answer, Message};

/// The answer to a message.
#[derive(Clone, Copy, Debug, PartialEq, Eq)]
pub enum Applied {
    /// Accepted, with its typed fields and the figures of the orders concerned.
    Done(Message, Orders),
    /// Refused with the paper's number, 1 to 14.
    Refused(u8),
}

/// The figures of the orders that an accepted message concerns.
#[derive(Clone, Copy, Debug, PartialEq, Eq)]
pub enum Orders {
    None,
    One(Figures),
    Two { original: Figures, new: Figures },
}

/// What the answer says of one order.
#[derive(Clone, Copy, Debug, PartialEq, Eq)]
pub struct Figures {
    pub locate: u16,
    pub side: u8,
    pub price: u32,
    /// Taken from the order, or put with it.
    pub shares: u32,
    pub remains: u32,
}

impl Figures {
    pub(crate) fn of(order: &Order, shares: u32, remains: u32) -> Self {
        Figures {
            locate: order.locate,
            side: order.side,
            price: order.price,
            shares,
            remains,
        }
    }

    fn numbers(&self) -> [u64; 5] {
        [
            self.locate.into(),
            self.side.into(),
            self.price.into(),
            self.shares.into(),
            self.remains.into(),
        ]
    }
}

impl Applied {
    /// The paper's number, the 18 values of the message and the 10 figures that the C function
    /// leaves.
    pub fn numbers(&self) -> (u8, [u64; 18], [u64; 10]) {
        let mut figures = [0; 10];
        let (message, orders) = match self {
            Applied::Refused(number) => return (*number, [0; 18], figures),
            Applied::Done(message, orders) => (message, orders),
        };
        match orders {
            Orders::None => {}
            Orders::One(order) => figures[..5].copy_from_slice(&order.numbers()),
            Orders::Two { original, new } => {
                figures[..5].copy_from_slice(&original.numbers());
                figures[5..].copy_from_slice(&new.numbers());
            }
        }
        let (number, out) = numbers(&Answer::Good(*message));
        (number, out, figures)
    }
}
