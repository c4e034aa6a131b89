//! Document 000, section 1.5: the trades.

use crate::field::Side;
use crate::message::message;

message! {
    /// P: Trade (Non-Cross), 1.5.1.
    b'P' Trade {
        order_reference_number: u64,
        buy_sell_indicator: Side,
        shares: u32,
        stock: u64,
        price: u32,
        match_number: u64,
    }
}

message! {
    /// Q: Cross Trade, 1.5.2.
    b'Q' CrossTrade {
        shares: u64,
        stock: u64,
        cross_price: u32,
        match_number: u64,
        cross_type: u8,
    }
}

message! {
    /// B: Broken Trade, 1.5.3.
    b'B' BrokenTrade {
        match_number: u64,
    }
}
