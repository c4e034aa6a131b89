//! Document 000, sections 1.5 to 1.8.

use crate::checks::{field, prices, side, text8};
use crate::message::message;

message! {
    Trade: b'P', 44 {
        order_reference_number: u64 = 11,
        buy_sell_indicator: u8 = 19,
        shares: u32 = 20,
        stock: u64 = 24,
        price: u32 = 32,
        match_number: u64 = 36,
    }
    |m| {
        field(side(m.buy_sell_indicator) & text8(m.stock))?;
        prices([m.price])
    }
}

message! {
    CrossTrade: b'Q', 40 {
        shares: u64 = 11,
        stock: u64 = 19,
        cross_price: u32 = 27,
        match_number: u64 = 31,
        cross_type: u8 = 39,
    }
    |m| {
        field(text8(m.stock))?;
        prices([m.cross_price])
    }
}

message! {
    BrokenTrade: b'B', 19 {
        match_number: u64 = 11,
    }
    |_| {
        Ok(())
    }
}

message! {
    NetOrderImbalance: b'I', 50 {
        paired_shares: u64 = 11,
        imbalance_shares: u64 = 19,
        imbalance_direction: u8 = 27,
        stock: u64 = 28,
        far_price: u32 = 36,
        near_price: u32 = 40,
        current_reference_price: u32 = 44,
        cross_type: u8 = 48,
        price_variation_indicator: u8 = 49,
    }
    |m| {
        field(text8(m.stock))?;
        prices([
            m.far_price,
            m.near_price,
            m.current_reference_price,
        ])
    }
}

message! {
    RetailInterest: b'N', 20 {
        stock: u64 = 11,
        interest_flag: u8 = 19,
    }
    |m| {
        field(text8(m.stock))
    }
}

message! {
    DirectListing: b'O', 48 {
        stock: u64 = 11,
        open_eligibility_status: u8 = 19,
        minimum_allowable_price: u32 = 20,
        maximum_allowable_price: u32 = 24,
        near_execution_price: u32 = 28,
        near_execution_time: u64 = 32,
        lower_price_range_collar: u32 = 40,
        upper_price_range_collar: u32 = 44,
    }
    |m| {
        field(text8(m.stock))?;
        prices([
            m.minimum_allowable_price,
            m.maximum_allowable_price,
            m.near_execution_price,
            m.lower_price_range_collar,
            m.upper_price_range_collar,
        ])
    }
}
