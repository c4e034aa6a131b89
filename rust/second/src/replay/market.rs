//! The stocks and the live orders of a replay, and what each message does to them.

use crate::fields::{Price, Shares, Side};
use crate::Message;
use crate::{CONFLICT, DUPLICATE, FULL, NO_ORDER, OVER, STOCK};
use std::collections::hash_map::{Entry, HashMap, OccupiedEntry};
use std::hash::{BuildHasherDefault, Hasher};

/// Numbers of the directory; locate 0 is none.
const DIRECTORY: usize = 2_048;
/// Orders that the book has room for.
const BOOK: usize = 1_024;

/// A live order.
#[derive(Clone, Copy)]
struct Order {
    locate: u16,
    side: Side,
    price: u32,
    remaining: u32,
}

/// All orders of a stock's side at one price.
pub struct Level {
    /// `b` or `s`.
    pub kind: u8,
    pub locate: u16,
    pub price: u32,
    /// Two orders alone may pass 32 bits.
    pub total: u64,
    pub orders: u32,
}

/// Symbols by their locates, and orders by their references.
pub struct Market {
    stocks: Vec<Option<[u8; 8]>>,
    orders: HashMap<u64, Order, BuildHasherDefault<Mixed>>,
}

impl Market {
    pub fn new() -> Self {
        Market {
            stocks: vec![None; DIRECTORY],
            orders: HashMap::with_capacity_and_hasher(BOOK, BuildHasherDefault::default()),
        }
    }

    /// What a well-formed message does, or a number from 7 to 12.
    pub fn step(&mut self, message: &Message) -> Result<(), u8> {
        match message {
            Message::StockDirectory(r) => self.register(r.stock_locate, r.stock.0),
            Message::AddOrder(a) => {
                let order = order(a.stock_locate, a.buy_sell_indicator, a.price, a.shares);
                self.add(a.order_reference_number, order, a.stock.0)
            }
            Message::AddOrderWithAttribution(f) => {
                let order = order(f.stock_locate, f.buy_sell_indicator, f.price, f.shares);
                self.add(f.order_reference_number, order, f.stock.0)
            }
            Message::OrderExecuted(e) => {
                let found = self.find(e.order_reference_number, e.stock_locate)?;
                take(found, e.executed_shares)
            }
            Message::OrderExecutedWithPrice(c) => {
                let found = self.find(c.order_reference_number, c.stock_locate)?;
                take(found, c.executed_shares)
            }
            Message::OrderCancel(x) => {
                let found = self.find(x.order_reference_number, x.stock_locate)?;
                take(found, x.cancelled_shares)
            }
            Message::OrderDelete(d) => {
                self.find(d.order_reference_number, d.stock_locate)?
                    .remove();
                Ok(())
            }
            Message::OrderReplace(u) => {
                let original = u.original_order_reference_number;
                let old = *self.find(original, u.stock_locate)?.get();
                let new = order(old.locate, old.side, u.price, u.shares);
                self.replace(original, u.new_order_reference_number, new)
            }
            _ => Ok(()),
        }
    }

    /// The levels by rising locate, buys before sells, best first.
    pub fn levels(&self) -> Vec<Level> {
        let mut orders: Vec<&Order> = self.orders.values().collect();
        orders.sort_unstable_by_key(|order| order.rank());
        let same = |one: &&Order, other: &&Order| one.rank() == other.rank();
        orders.chunk_by(same).map(level).collect()
    }

    /// The entry of a locate: 7 if it has none.
    fn stock(&mut self, locate: u16) -> Result<&mut Option<[u8; 8]>, u8> {
        match usize::from(locate) {
            place @ 1..DIRECTORY => Ok(&mut self.stocks[place]),
            _ => Err(STOCK),
        }
    }

    /// R: 7, 8.
    fn register(&mut self, locate: u16, symbol: [u8; 8]) -> Result<(), u8> {
        match self.stock(locate)?.get_or_insert(symbol) {
            registered if *registered == symbol => Ok(()),
            _ => Err(CONFLICT),
        }
    }

    /// A, F: 7, 8, 9, 12.
    fn add(&mut self, reference: u64, order: Order, symbol: [u8; 8]) -> Result<(), u8> {
        match *self.stock(order.locate)? {
            None => return Err(STOCK),
            Some(registered) if registered != symbol => return Err(CONFLICT),
            Some(_) => {}
        }
        let full = self.orders.len() == BOOK;
        match self.orders.entry(reference) {
            Entry::Occupied(_) => Err(DUPLICATE),
            Entry::Vacant(_) if full => Err(FULL),
            Entry::Vacant(place) => {
                place.insert(order);
                Ok(())
            }
        }
    }

    /// What E, C, X, D and U begin with: 10, 8.
    fn find(&mut self, reference: u64, locate: u16) -> Result<OccupiedEntry<'_, u64, Order>, u8> {
        match self.orders.entry(reference) {
            Entry::Vacant(_) => Err(NO_ORDER),
            Entry::Occupied(found) if found.get().locate != locate => Err(CONFLICT),
            Entry::Occupied(found) => Ok(found),
        }
    }

    /// U once the original is found: 9, also for the original's own reference.
    fn replace(&mut self, original: u64, new: u64, order: Order) -> Result<(), u8> {
        if self.orders.contains_key(&new) {
            return Err(DUPLICATE);
        }
        self.orders.remove(&original);
        self.orders.insert(new, order);
        Ok(())
    }
}

/// E, C, X once the order is found: 11. One that is used up is gone.
fn take(mut found: OccupiedEntry<'_, u64, Order>, shares: Shares) -> Result<(), u8> {
    match found.get().remaining.checked_sub(shares.0) {
        None => Err(OVER),
        Some(0) => {
            found.remove();
            Ok(())
        }
        Some(left) => {
            found.get_mut().remaining = left;
            Ok(())
        }
    }
}

fn order(locate: u16, side: Side, price: Price, shares: Shares) -> Order {
    Order {
        locate,
        side,
        price: price.0,
        remaining: shares.0,
    }
}

impl Order {
    /// Rises in the order of the records, and is the same for the orders of one level.
    fn rank(&self) -> (u16, u8, u32) {
        match self.side {
            Side::Buy => (self.locate, b'b', u32::MAX - self.price),
            Side::Sell => (self.locate, b's', self.price),
        }
    }
}

/// The level of orders that all have its rank.
fn level(orders: &[&Order]) -> Level {
    let (locate, kind, _) = orders[0].rank();
    Level {
        kind,
        locate,
        price: orders[0].price,
        total: orders.iter().map(|order| u64::from(order.remaining)).sum(),
        orders: orders.len() as u32,
    }
}

/// A quick hash of one reference; the usual one guards large maps against chosen keys, and this
/// map never has more than 1,024.
#[derive(Default)]
struct Mixed(u64);

impl Hasher for Mixed {
    fn write_u64(&mut self, reference: u64) {
        // Both ends of the product depend on all of the reference.
        let product = u128::from(reference) * 0x9E37_79B9_7F4A_7C15;
        self.0 = product as u64 ^ (product >> 64) as u64;
    }

    fn write(&mut self, _: &[u8]) {
        unreachable!("a reference is hashed whole");
    }

    fn finish(&self) -> u64 {
        self.0
    }
}
