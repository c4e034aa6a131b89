//! What each well-formed message does to the tables, and when the tables refuse it.

use crate::applied::{Figures, Orders};
use crate::directory::Entry;
use crate::fields::{Price, Shares, Side};
use crate::order::{Order, NSDQ};
use crate::tables::Tables;
use crate::{Message, StockDirectory};
use crate::{BOOK, CONFLICT, DUPLICATE, FULL, NO_ORDER, OVER, STOCK};

/// Which count of an order the shares of E, C or X go to.
enum Count {
    Executed,
    Cancelled,
}

impl Tables {
    /// The figures for an accepted message, or a number from 7 on; nothing changes before all
    /// checks have passed.
    pub(crate) fn step(&mut self, message: &Message) -> Result<Orders, u8> {
        match message {
            Message::StockDirectory(r) => self.register(r),
            Message::AddOrder(a) => {
                let order = new_order(a.order_reference_number, a.shares, a.price);
                let side = side_byte(a.buy_sell_indicator);
                self.add(belonging(order, a.stock_locate, side, NSDQ), a.stock.0)
            }
            Message::AddOrderWithAttribution(f) => {
                let order = new_order(f.order_reference_number, f.shares, f.price);
                let side = side_byte(f.buy_sell_indicator);
                let order = belonging(order, f.stock_locate, side, f.attribution.0);
                self.add(order, f.stock.0)
            }
            Message::OrderExecuted(e) => {
                let place = self.concerned(e.order_reference_number, e.stock_locate)?;
                self.take(place, e.executed_shares.0, Count::Executed)
            }
            // The execution price moves no order, so it is not even looked at.
            Message::OrderExecutedWithPrice(c) => {
                let place = self.concerned(c.order_reference_number, c.stock_locate)?;
                self.take(place, c.executed_shares.0, Count::Executed)
            }
            Message::OrderCancel(x) => {
                let place = self.concerned(x.order_reference_number, x.stock_locate)?;
                self.take(place, x.cancelled_shares.0, Count::Cancelled)
            }
            Message::OrderDelete(d) => {
                let place = self.concerned(d.order_reference_number, d.stock_locate)?;
                Ok(Orders::One(self.close(place)))
            }
            Message::OrderReplace(u) => {
                let original = u.original_order_reference_number;
                let place = self.concerned(original, u.stock_locate)?;
                let new = new_order(u.new_order_reference_number, u.shares, u.price);
                self.replace(place, new)
            }
            _ => Ok(Orders::None),
        }
    }

    /// R: 7, 8.
    fn register(&mut self, r: &StockDirectory) -> Result<Orders, u8> {
        match self.directory.entry(r.stock_locate) {
            None => Err(STOCK),
            Some(Entry::Registered(symbol)) if symbol != r.stock.0 => Err(CONFLICT),
            Some(Entry::Registered(_)) => Ok(Orders::None),
            Some(Entry::Unregistered) => {
                self.directory.register(r.stock_locate, r.stock.0);
                Ok(Orders::None)
            }
        }
    }

    /// A and F: 7, 8, 9, 12.
    fn add(&mut self, order: Order, stock: [u8; 8]) -> Result<Orders, u8> {
        match self.directory.entry(order.locate) {
            None | Some(Entry::Unregistered) => return Err(STOCK),
            Some(Entry::Registered(symbol)) if symbol != stock => return Err(CONFLICT),
            Some(Entry::Registered(_)) => {}
        }
        if self.book.find(order.reference).is_some() {
            return Err(DUPLICATE);
        }
        let Some(place) = self.book.lowest_free() else {
            return Err(FULL);
        };
        self.book.put(place, order);
        Ok(Orders::One(Figures::of(&order, order.added, order.added)))
    }

    /// What E, C, X, D and U begin with, 10, 13, 8: the slot of the order they name.
    fn concerned(&self, reference: u64, locate: u16) -> Result<usize, u8> {
        let Some(place) = self.book.find(reference) else {
            return Err(NO_ORDER);
        };
        let order = self.book.slots()[place].order;
        if !order.is_sound() {
            return Err(BOOK);
        }
        if locate != order.locate {
            return Err(CONFLICT);
        }
        Ok(place)
    }

    /// E, C and X once the order is found: 11.
    fn take(&mut self, place: usize, shares: u32, count: Count) -> Result<Orders, u8> {
        let mut order = self.book.slots()[place].order;
        if shares > order.remaining() {
            return Err(OVER);
        }
        match count {
            Count::Executed => order.executed += shares,
            Count::Cancelled => order.cancelled += shares,
        }
        let remains = order.remaining();
        if remains == 0 {
            self.book.remove(place);
        } else {
            self.book.put(place, order);
        }
        Ok(Orders::One(Figures::of(&order, shares, remains)))
    }

    /// Ends the life of the order in a slot; all that remained is reported as closed.
    fn close(&mut self, place: usize) -> Figures {
        let order = self.book.slots()[place].order;
        self.book.remove(place);
        Figures::of(&order, order.remaining(), 0)
    }

    /// U once the original is found: 9.
    fn replace(&mut self, place: usize, new: Order) -> Result<Orders, u8> {
        // A new reference equal to the original's is found too, since the original is live.
        if self.book.find(new.reference).is_some() {
            return Err(DUPLICATE);
        }
        let old = self.book.slots()[place].order;
        let new = belonging(new, old.locate, old.side, NSDQ);
        let original = self.close(place);
        let free = self.book.lowest_free().expect("the old slot is free now");
        self.book.put(free, new);
        let new = Figures::of(&new, new.added, new.added);
        Ok(Orders::Two { original, new })
    }
}

fn side_byte(side: Side) -> u8 {
    match side {
        Side::Buy => b'B',
        Side::Sell => b'S',
    }
}

/// An order at the start of its life, not yet of any stock.
fn new_order(reference: u64, shares: Shares, price: Price) -> Order {
    Order {
        reference,
        price: price.0,
        added: shares.0,
        ..Order::default()
    }
}

/// The order with its stock, side and attribution.
fn belonging(order: Order, locate: u16, side: u8, attribution: [u8; 4]) -> Order {
    Order {
        locate,
        side,
        attribution,
        ..order
    }
}
