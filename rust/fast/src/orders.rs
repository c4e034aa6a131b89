//! Document 000, sections 1.3 and 1.4.

use crate::checks::{field, prices, printable, shares, side, text4, text8};
use crate::message::message;

message! {
    AddOrder: b'A', 36 {
        order_reference_number: u64 = 11,
        buy_sell_indicator: u8 = 19,
        shares: u32 = 20,
        stock: u64 = 24,
        price: u32 = 32,
    }
    |m| {
        field(side(m.buy_sell_indicator) & text8(m.stock))?;
        prices([m.price])?;
        shares(m.shares)
    }
}

message! {
    AddOrderWithAttribution: b'F', 40 {
        order_reference_number: u64 = 11,
        buy_sell_indicator: u8 = 19,
        shares: u32 = 20,
        stock: u64 = 24,
        price: u32 = 32,
        attribution: u32 = 36,
    }
    |m| {
        let texts = text8(m.stock) & text4(m.attribution);
        field(side(m.buy_sell_indicator) & texts)?;
        prices([m.price])?;
        shares(m.shares)
    }
}

message! {
    OrderExecuted: b'E', 31 {
        order_reference_number: u64 = 11,
        executed_shares: u32 = 19,
        match_number: u64 = 23,
    }
    |m| {
        shares(m.executed_shares)
    }
}

message! {
    OrderExecutedWithPrice: b'C', 36 {
        order_reference_number: u64 = 11,
        executed_shares: u32 = 19,
        match_number: u64 = 23,
        printable: u8 = 31,
        execution_price: u32 = 32,
    }
    |m| {
        field(printable(m.printable))?;
        prices([m.execution_price])?;
        shares(m.executed_shares)
    }
}

message! {
    OrderCancel: b'X', 23 {
        order_reference_number: u64 = 11,
        cancelled_shares: u32 = 19,
    }
    |m| {
        shares(m.cancelled_shares)
    }
}

message! {
    OrderDelete: b'D', 19 {
        order_reference_number: u64 = 11,
    }
    |_| {
        Ok(())
    }
}

message! {
    OrderReplace: b'U', 35 {
        original_order_reference_number: u64 = 11,
        new_order_reference_number: u64 = 19,
        shares: u32 = 27,
        price: u32 = 31,
    }
    |m| {
        prices([m.price])?;
        shares(m.shares)
    }
}
