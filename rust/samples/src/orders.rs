//! The messages that cases and streams are put together from: one order each, by its reference.

use crate::sample_with;

pub const ZVZZT: u64 = u64::from_be_bytes(*b"ZVZZT   ");
pub const ZXZZT: u64 = u64::from_be_bytes(*b"ZXZZT   ");

/// What A, F and U say of an order.
#[derive(Clone, Copy)]
pub struct Order {
    pub locate: u64,
    pub stock: u64,
    pub reference: u64,
    pub side: u8,
    pub shares: u64,
    pub price: u64,
}

/// A buy of 300 ZVZZT at 10.0000, at locate 1.
pub fn order(reference: u64) -> Order {
    Order {
        locate: 1,
        stock: ZVZZT,
        reference,
        side: b'B',
        shares: 300,
        price: 100_000,
    }
}

pub fn register(locate: u64, stock: u64) -> Vec<u8> {
    sample_with(b'R', &[("Stock Locate", locate), ("Stock", stock)])
}

/// A or F.
pub fn add(kind: u8, order: Order) -> Vec<u8> {
    let sets = [
        ("Stock Locate", order.locate),
        ("Stock", order.stock),
        ("Order Reference Number", order.reference),
        ("Buy/Sell Indicator", order.side.into()),
        ("Shares", order.shares),
        ("Price", order.price),
    ];
    sample_with(kind, &sets)
}

/// E, C or X.
pub fn take(kind: u8, locate: u64, reference: u64, shares: u64) -> Vec<u8> {
    let field = match kind {
        b'X' => "Cancelled Shares",
        _ => "Executed Shares",
    };
    let sets = [
        ("Stock Locate", locate),
        ("Order Reference Number", reference),
        (field, shares),
    ];
    sample_with(kind, &sets)
}

pub fn delete(locate: u64, reference: u64) -> Vec<u8> {
    let sets = [
        ("Stock Locate", locate),
        ("Order Reference Number", reference),
    ];
    sample_with(b'D', &sets)
}

/// Into 70 shares at 9.9900.
pub fn replace(locate: u64, original: u64, new: u64) -> Vec<u8> {
    let sets = [
        ("Stock Locate", locate),
        ("Original Order Reference Number", original),
        ("New Order Reference Number", new),
        ("Shares", 70),
        ("Price", 99_900),
    ];
    sample_with(b'U', &sets)
}
