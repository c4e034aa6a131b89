//! One message applied to the tables, and what it comes to.

use crate::accepted;
use crate::field::{Field, Side};
use crate::message::Message;
use crate::refusal::Refusal;

/// What the answer says of one order.
#[derive(Clone, Copy, Debug, PartialEq, Eq, Hash)]
pub struct Figures {
    /// The order's stock.
    pub locate: u16,
    /// The order's side.
    pub side: Side,
    /// The order's price, in ten-thousandths.
    pub price: u32,
    /// The shares taken from the order, or put with it.
    pub shares: u32,
    /// What then remains: 0 for an order that is closed or used up.
    pub remains: u32,
}

impl Figures {
    /// The order of five figures; none where they are zeros, which have no side.
    #[inline]
    fn of([locate, side, price, shares, remains]: [u64; 5]) -> Option<Figures> {
        let side = Side::of_byte(Field::of(side))?;
        Some(Figures {
            locate: Field::of(locate),
            side,
            price: Field::of(price),
            shares: Field::of(shares),
            remains: Field::of(remains),
        })
    }
}

/// What an accepted message comes to.
#[derive(Clone, Copy, Debug, PartialEq, Eq, Hash)]
pub enum Outcome {
    /// R, and every message that touches no order.
    Accepted(Message),
    /// A, F, E, C, X, D: with the order put or taken from.
    Moved(Message, Figures),
    /// U: with the order closed, and the one that starts.
    Replaced(Message, Figures, Figures),
}

impl Outcome {
    /// The message's typed fields.
    pub const fn message(&self) -> &Message {
        match self {
            Outcome::Accepted(message)
            | Outcome::Moved(message, _)
            | Outcome::Replaced(message, _, _) => message,
        }
    }
}

/// Applies one message, lent with its exact length, to both tables.
///
/// A refused message changes neither table:
///
/// ```
/// use ladlemoss::Refusal;
///
/// let (mut directory, mut book) = ([0; 2], [0; ladlemoss::book_length(1)]);
/// let delete = [b"D", &[0, 1, 0, 0, 0, 0, 0, 0, 0, 0][..], &9u64.to_be_bytes()].concat();
/// let refused = ladlemoss::apply(&mut directory, &mut book, &delete);
/// assert_eq!(refused, Err(Refusal::NoOrder));
/// assert_eq!(Refusal::NoOrder.number(), 10);
/// assert!(book.iter().all(|&number| number == 0));
/// ```
pub fn apply(directory: &mut [u64], book: &mut [u64], bytes: &[u8]) -> Result<Outcome, Refusal> {
    let mut out = [0; 18];
    let mut figures = [0; 10];
    let number = face::apply(directory, book, bytes, &mut out, &mut figures);
    Refusal::check(number)?;
    let message = accepted(&out)?;
    let [a, b, c, d, e, f, g, h, i, j] = figures;
    let orders = (Figures::of([a, b, c, d, e]), Figures::of([f, g, h, i, j]));
    Ok(match orders {
        (Some(closed), Some(started)) => Outcome::Replaced(message, closed, started),
        (Some(order), None) => Outcome::Moved(message, order),
        (None, _) => Outcome::Accepted(message),
    })
}
