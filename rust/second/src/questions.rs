//! What the desk may ask of a book alone, and the same of books given as any numbers.

use crate::book::Book;
use crate::fields::{Field, Side};
use crate::order::Order;
use crate::{BOOK, NO_ORDER};

/// What is told of an order.
#[derive(Clone, Copy, Debug, PartialEq, Eq)]
pub struct Account {
    pub added: u32,
    pub executed: u32,
    pub cancelled: u32,
    pub remaining: u32,
    pub locate: u16,
    pub side: u8,
    pub price: u32,
    pub attribution: [u8; 4],
}

/// What all orders of a stock's side at one price come to; 0 and 0 where there is none.
#[derive(Clone, Copy, Debug, PartialEq, Eq)]
pub struct Level {
    pub price: u32,
    /// Two orders alone may pass 32 bits.
    pub total: u64,
    pub count: u64,
}

impl Account {
    /// As the C function leaves them.
    pub fn numbers(&self) -> [u64; 8] {
        [
            self.added.into(),
            self.executed.into(),
            self.cancelled.into(),
            self.remaining.into(),
            self.locate.into(),
            self.side.into(),
            self.price.into(),
            u32::from_be_bytes(self.attribution).into(),
        ]
    }
}

impl Level {
    fn of(orders: &[Order], price: u32) -> Self {
        let there = orders.iter().filter(|order| order.price == price);
        let (mut total, mut count) = (0, 0);
        for order in there {
            total += u64::from(order.remaining());
            count += 1;
        }
        Level {
            price,
            total,
            count,
        }
    }
}

impl Book {
    /// Order by reference: 10, 13 for its slot alone.
    pub fn order(&self, reference: u64) -> Result<Account, u8> {
        let Some(place) = self.find(reference) else {
            return Err(NO_ORDER);
        };
        let order = self.slots()[place].order;
        if !order.is_sound() {
            return Err(BOOK);
        }
        Ok(Account {
            added: order.added,
            executed: order.executed,
            cancelled: order.cancelled,
            remaining: order.remaining(),
            locate: order.locate,
            side: order.side,
            price: order.price,
            attribution: order.attribution,
        })
    }

    /// Level by locate, side and price; any may be asked.
    pub fn level(&self, locate: u16, side: u8, price: u32) -> Result<Level, u8> {
        let (_, orders) = self.orders_of(locate, side)?;
        Ok(Level::of(&orders, price))
    }

    /// The level of the best price of a stock's side: the highest buy, the lowest sell.
    pub fn best(&self, locate: u16, side: u8) -> Result<Option<Level>, u8> {
        let (side, orders) = self.orders_of(locate, side)?;
        Ok(best_of(side, &orders))
    }

    /// The level of the next worse price than the one given, which need not be a level's.
    pub fn next(&self, locate: u16, side: u8, price: u32) -> Result<Option<Level>, u8> {
        let (side, mut orders) = self.orders_of(locate, side)?;
        orders.retain(|order| match side {
            Side::Buy => order.price < price,
            Side::Sell => order.price > price,
        });
        Ok(best_of(side, &orders))
    }

    /// How many slots are live, sound or not.
    pub fn live_count(&self) -> u64 {
        let live = self.slots().iter().filter(|slot| slot.live);
        live.count() as u64
    }

    /// What level, best and next begin with, 4, 13: the orders of a stock's side, out of a book
    /// whose live slots are all sound.
    fn orders_of(&self, locate: u16, side: u8) -> Result<(Side, Vec<Order>), u8> {
        let wanted = Side::decode(&[side])?;
        let mut orders = vec![];
        for slot in self.slots().iter().filter(|slot| slot.live) {
            if !slot.order.is_sound() {
                return Err(BOOK);
            }
            if slot.order.locate == locate && slot.order.side == side {
                orders.push(slot.order);
            }
        }
        Ok((wanted, orders))
    }
}

fn best_of(side: Side, orders: &[Order]) -> Option<Level> {
    let prices = orders.iter().map(|order| order.price);
    let best = match side {
        Side::Buy => prices.max(),
        Side::Sell => prices.min(),
    };
    best.map(|price| Level::of(orders, price))
}

/// As `Book::order`, 14 first; so are the others.
pub fn order(book: &[u64], reference: u64) -> Result<Account, u8> {
    Book::lent(book)?.order(reference)
}

pub fn level(book: &[u64], locate: u16, side: u8, price: u32) -> Result<Level, u8> {
    Book::lent(book)?.level(locate, side, price)
}

pub fn best(book: &[u64], locate: u16, side: u8) -> Result<Option<Level>, u8> {
    Book::lent(book)?.best(locate, side)
}

pub fn next(book: &[u64], locate: u16, side: u8, price: u32) -> Result<Option<Level>, u8> {
    Book::lent(book)?.next(locate, side, price)
}

pub fn live_count(book: &[u64]) -> Result<u64, u8> {
    Ok(Book::lent(book)?.live_count())
}
