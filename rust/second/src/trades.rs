//! Document 000, sections 1.5 to 1.8: trades, imbalances, retail interest and direct listings.
//!
//! The shares of P, Q and I may be zero, so they are plain integers here.

use crate::fields::{Alpha, Price, Side, Text};
use crate::message::message;

message! {
    /// 1.5.1, type P.
    Trade {
        order_reference_number: u64,
        buy_sell_indicator: Side,
        shares: u32,
        stock: Text<8>,
        price: Price,
        match_number: u64,
    }
}

message! {
    /// 1.5.2, type Q.
    CrossTrade {
        shares: u64,
        stock: Text<8>,
        cross_price: Price,
        match_number: u64,
        cross_type: Alpha<1>,
    }
}

message! {
    /// 1.5.3, type B.
    BrokenTrade {
        match_number: u64,
    }
}

message! {
    /// 1.6, type I.
    NetOrderImbalance {
        paired_shares: u64,
        imbalance_shares: u64,
        imbalance_direction: Alpha<1>,
        stock: Text<8>,
        far_price: Price,
        near_price: Price,
        current_reference_price: Price,
        cross_type: Alpha<1>,
        price_variation_indicator: Alpha<1>,
    }
}

message! {
    /// 1.7, type N.
    RetailInterest {
        stock: Text<8>,
        interest_flag: Alpha<1>,
    }
}

message! {
    /// 1.8, type O. The near execution time is an integer that the base does not bound.
    DirectListing {
        stock: Text<8>,
        open_eligibility_status: Alpha<1>,
        minimum_allowable_price: Price,
        maximum_allowable_price: Price,
        near_execution_price: Price,
        near_execution_time: u64,
        lower_price_range_collar: Price,
        upper_price_range_collar: Price,
    }
}
