//! Document 000, sections 1.6 to 1.8: imbalances, retail interest and direct listings.

use crate::message::message;

message! {
    /// I: Net Order Imbalance Indicator, 1.6.
    b'I' NetOrderImbalance {
        paired_shares: u64,
        imbalance_shares: u64,
        imbalance_direction: u8,
        stock: u64,
        far_price: u32,
        near_price: u32,
        current_reference_price: u32,
        cross_type: u8,
        price_variation_indicator: u8,
    }
}

message! {
    /// N: Retail Interest, 1.7.
    b'N' RetailInterest {
        stock: u64,
        interest_flag: u8,
    }
}

message! {
    /// O: Direct Listing with Capital Raise, 1.8.
    b'O' DirectListing {
        stock: u64,
        open_eligibility_status: u8,
        minimum_allowable_price: u32,
        maximum_allowable_price: u32,
        near_execution_price: u32,
        near_execution_time: u64,
        lower_price_range_collar: u32,
        upper_price_range_collar: u32,
    }
}
