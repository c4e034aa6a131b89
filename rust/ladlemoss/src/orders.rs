//! Document 000, sections 1.3 and 1.4: the messages that add and modify orders.

use crate::field::Side;
use crate::message::message;

message! {
    /// A: Add Order, no MPID attribution, 1.3.1.
    b'A' AddOrder {
        order_reference_number: u64,
        buy_sell_indicator: Side,
        shares: u32,
        stock: u64,
        price: u32,
    }
}

message! {
    /// F: Add Order with MPID attribution, 1.3.2.
    b'F' AddOrderMpid {
        order_reference_number: u64,
        buy_sell_indicator: Side,
        shares: u32,
        stock: u64,
        price: u32,
        attribution: u32,
    }
}

message! {
    /// E: Order Executed, 1.4.1.
    b'E' OrderExecuted {
        order_reference_number: u64,
        executed_shares: u32,
        match_number: u64,
    }
}

message! {
    /// C: Order Executed With Price, 1.4.2.
    b'C' OrderExecutedWithPrice {
        order_reference_number: u64,
        executed_shares: u32,
        match_number: u64,
        printable: u8,
        execution_price: u32,
    }
}

message! {
    /// X: Order Cancel, 1.4.3.
    b'X' OrderCancel {
        order_reference_number: u64,
        cancelled_shares: u32,
    }
}

message! {
    /// D: Order Delete, 1.4.4.
    b'D' OrderDelete {
        order_reference_number: u64,
    }
}

message! {
    /// U: Order Replace, 1.4.5.
    b'U' OrderReplace {
        original_order_reference_number: u64,
        new_order_reference_number: u64,
        shares: u32,
        price: u32,
    }
}
