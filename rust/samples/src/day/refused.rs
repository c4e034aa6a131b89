//! Messages of the day that must be refused, for one reason each.

use super::exchange::{symbol, Exchange, STOCKS};
use crate::{Layout, DAY, MAXIMUM_PRICE};

type Make = fn(&mut Exchange) -> Vec<u8>;

/// One of each reason, as they come.
pub const REFUSED: [Make; 15] = [
    |exchange| exchange.offered(b'A').1[..35].to_vec(),
    // The seconds of issue 4.0, which 5.0 has no more.
    |_| b"T\0\0\x85\x98".to_vec(),
    no_order,
    over,
    duplicate,
    // No stock is registered after the last, and none can be at 2,048.
    |exchange| spoiled(exchange, b'A', "Stock Locate", STOCKS.len() as u64 + 1),
    |exchange| exchange.registration(2_048, symbol(1)),
    |exchange| exchange.registration(1, symbol(2)),
    another_locate,
    |exchange| spoiled(exchange, b'A', "Price", MAXIMUM_PRICE + 1),
    |exchange| spoiled(exchange, b'A', "Shares", 0),
    |exchange| spoiled(exchange, b'A', "Buy/Sell Indicator", b'T'.into()),
    |exchange| spoiled(exchange, b'F', "Attribution", 0x2020_2020),
    |exchange| spoiled(exchange, b'A', "Timestamp", DAY),
    |_| vec![],
];

/// A or F of a new order with one field set anew.
fn spoiled(exchange: &mut Exchange, kind: u8, name: &str, number: u64) -> Vec<u8> {
    let mut message = exchange.offered(kind).1;
    let layout = Layout::of(kind).expect("one of the 23");
    let field = layout.field(name).expect("a field of the type");
    field.set(&mut message, number);
    message
}

/// Deletes an order that there never was.
fn no_order(exchange: &mut Exchange) -> Vec<u8> {
    exchange.made(b'D', 1, &[("Order Reference Number", 3_999)])
}

/// Executes one share more than remains.
fn over(exchange: &mut Exchange) -> Vec<u8> {
    let order = exchange.any();
    let sets = [
        ("Order Reference Number", order.reference),
        ("Executed Shares", order.shares + 1),
        ("Match Number", 1),
    ];
    exchange.made(b'E', order.locate, &sets)
}

/// Adds an order under the reference of a live one.
fn duplicate(exchange: &mut Exchange) -> Vec<u8> {
    let live = exchange.any().reference;
    spoiled(exchange, b'A', "Order Reference Number", live)
}

/// Cancels shares of an order by the locate of another stock.
fn another_locate(exchange: &mut Exchange) -> Vec<u8> {
    let order = exchange.any();
    let other = 1 + order.locate % STOCKS.len() as u64;
    let sets = [
        ("Order Reference Number", order.reference),
        ("Cancelled Shares", 100),
    ];
    exchange.made(b'X', other, &sets)
}
