//! Document 000, sections 1.3 and 1.4: the messages that add and modify orders.

use crate::fields::{Price, Printable, Shares, Side, Text};
use crate::message::message;

message! {
    /// 1.3.1, type A.
    AddOrder {
        order_reference_number: u64,
        buy_sell_indicator: Side,
        shares: Shares,
        stock: Text<8>,
        price: Price,
    }
}

message! {
    /// 1.3.2, type F.
    AddOrderWithAttribution {
        order_reference_number: u64,
        buy_sell_indicator: Side,
        shares: Shares,
        stock: Text<8>,
        price: Price,
        attribution: Text<4>,
    }
}

message! {
    /// 1.4.1, type E.
    OrderExecuted {
        order_reference_number: u64,
        executed_shares: Shares,
        match_number: u64,
    }
}

message! {
    /// 1.4.2, type C. The names lost at 000's page break are those of 003, 4.4.2.
    OrderExecutedWithPrice {
        order_reference_number: u64,
        executed_shares: Shares,
        match_number: u64,
        printable: Printable,
        execution_price: Price,
    }
}

message! {
    /// 1.4.3, type X.
    OrderCancel {
        order_reference_number: u64,
        cancelled_shares: Shares,
    }
}

message! {
    /// 1.4.4, type D.
    OrderDelete {
        order_reference_number: u64,
    }
}

message! {
    /// 1.4.5, type U.
    OrderReplace {
        original_order_reference_number: u64,
        new_order_reference_number: u64,
        shares: Shares,
        price: Price,
    }
}
