//! What each message does to the tables; the figures are written where it is accepted.

use crate::book::{Book, Slot};
use crate::checks::{BOOK, CONFLICT, DUPLICATE, FULL, NO_ORDER, OVER};
use crate::directory;
use crate::life::{Order, NSDQ};
use crate::message::Message;
use crate::orders::{AddOrder, AddOrderWithAttribution, OrderReplace};

type Figures = [u64; 10];

/// The reference that a message gives, and the locate that the order must have.
type Named = (u64, u16);

/// Changes the tables and overwrites all figures, or refuses and changes nothing.
#[inline(always)]
pub fn step<const EIGHTS: bool>(
    directory: &mut [u64],
    book: &mut Book<EIGHTS>,
    message: &Message,
    figures: &mut Figures,
) -> Result<(), u8> {
    match message {
        Message::AddOrder(m) => {
            directory::check(directory, m.stock_locate, m.stock)?;
            place(book, Order::from(m), figures)
        }
        Message::AddOrderWithAttribution(m) => {
            directory::check(directory, m.stock_locate, m.stock)?;
            place(book, Order::from(m), figures)
        }
        Message::OrderExecuted(m) => {
            let named = (m.order_reference_number, m.stock_locate);
            take(book, named, [m.executed_shares, 0], figures)
        }
        Message::OrderExecutedWithPrice(m) => {
            let named = (m.order_reference_number, m.stock_locate);
            take(book, named, [m.executed_shares, 0], figures)
        }
        Message::OrderCancel(m) => {
            let named = (m.order_reference_number, m.stock_locate);
            take(book, named, [0, m.cancelled_shares], figures)
        }
        Message::OrderDelete(m) => {
            let named = (m.order_reference_number, m.stock_locate);
            delete(book, named, figures)
        }
        Message::OrderReplace(m) => replace(book, m, figures),
        Message::StockDirectory(m) => {
            *figures = [0; 10];
            directory::register(directory, m.stock_locate, m.stock)
        }
        _ => {
            *figures = [0; 10];
            Ok(())
        }
    }
}

impl From<&AddOrder> for Order {
    #[inline(always)]
    fn from(m: &AddOrder) -> Order {
        Order {
            reference: m.order_reference_number,
            price: m.price,
            added: m.shares,
            executed: 0,
            cancelled: 0,
            locate: m.stock_locate,
            side: m.buy_sell_indicator,
            attribution: NSDQ,
        }
    }
}

impl From<&AddOrderWithAttribution> for Order {
    #[inline(always)]
    fn from(m: &AddOrderWithAttribution) -> Order {
        Order {
            reference: m.order_reference_number,
            price: m.price,
            added: m.shares,
            executed: 0,
            cancelled: 0,
            locate: m.stock_locate,
            side: m.buy_sell_indicator,
            attribution: m.attribution,
        }
    }
}

/// A, F: the order starts its life in the lowest free slot.
#[inline(always)]
fn place<const EIGHTS: bool>(
    book: &mut Book<EIGHTS>,
    order: Order,
    figures: &mut Figures,
) -> Result<(), u8> {
    if book.find(order.reference).is_some() {
        return Err(DUPLICATE);
    }
    let slot = book.lowest_free().ok_or(FULL)?;
    book.put(slot, order.numbers());
    one(order.figures(order.added, order.added), figures);
    Ok(())
}

/// The order that E, C, X, D and U are about.
#[inline(always)]
fn concerned<const EIGHTS: bool>(
    book: &mut Book<EIGHTS>,
    (reference, locate): Named,
) -> Result<(Slot, Order), u8> {
    let slot = book.find(reference).ok_or(NO_ORDER)?;
    let order = Order::held(book.slot(slot)).ok_or(BOOK)?;
    if order.locate != locate {
        return Err(CONFLICT);
    }
    Ok((slot, order))
}

/// E, C, X: shares are executed or cancelled; an order with nothing remaining is removed.
#[inline]
fn take<const EIGHTS: bool>(
    book: &mut Book<EIGHTS>,
    named: Named,
    [executed, cancelled]: [u32; 2],
    figures: &mut Figures,
) -> Result<(), u8> {
    let (slot, mut order) = concerned(book, named)?;
    let shares = executed + cancelled;
    let remains = order.remaining().checked_sub(shares).ok_or(OVER)?;
    if remains == 0 {
        book.clear(slot);
    } else {
        order.executed += executed;
        order.cancelled += cancelled;
        book.slot(slot)[2] = order.third();
    }
    one(order.figures(shares, remains), figures);
    Ok(())
}

/// D: all that remains is closed.
#[inline(always)]
fn delete<const EIGHTS: bool>(
    book: &mut Book<EIGHTS>,
    named: Named,
    figures: &mut Figures,
) -> Result<(), u8> {
    let (slot, order) = concerned(book, named)?;
    book.clear(slot);
    one(order.figures(order.remaining(), 0), figures);
    Ok(())
}

/// U: the original is closed, then the new order takes the lowest slot that is free.
#[inline(always)]
fn replace<const EIGHTS: bool>(
    book: &mut Book<EIGHTS>,
    m: &OrderReplace,
    figures: &mut Figures,
) -> Result<(), u8> {
    let named = (m.original_order_reference_number, m.stock_locate);
    let (slot, old) = concerned(book, named)?;
    let reference = m.new_order_reference_number;
    if reference == m.original_order_reference_number || book.find(reference).is_some() {
        return Err(DUPLICATE);
    }
    let new = Order {
        reference,
        price: m.price,
        added: m.shares,
        executed: 0,
        cancelled: 0,
        attribution: NSDQ,
        ..old
    };
    book.clear(slot);
    let free = book.lowest_free().unwrap_or(slot);
    book.put(free, new.numbers());
    one(old.figures(old.remaining(), 0), figures);
    figures[5..].copy_from_slice(&new.figures(new.added, new.added));
    Ok(())
}

/// The figures of one order, then zeros.
#[inline(always)]
fn one(order: [u64; 5], figures: &mut Figures) {
    figures[..5].copy_from_slice(&order);
    figures[5..].fill(0);
}
