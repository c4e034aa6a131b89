//! Document 000, sections 1.1 and 1.2.

use crate::checks::{field, prices, text4, text8};
use crate::message::message;

message! {
    SystemEvent: b'S', 12 {
        event_code: u8 = 11,
    }
    |_| {
        Ok(())
    }
}

message! {
    StockDirectory: b'R', 39 {
        stock: u64 = 11,
        market_category: u8 = 19,
        financial_status_indicator: u8 = 20,
        round_lot_size: u32 = 21,
        round_lots_only: u8 = 25,
        issue_classification: u8 = 26,
        issue_sub_type: u16 = 27,
        authenticity: u8 = 29,
        short_sale_threshold_indicator: u8 = 30,
        ipo_flag: u8 = 31,
        luld_reference_price_tier: u8 = 32,
        etp_flag: u8 = 33,
        etp_leverage_factor: u32 = 34,
        inverse_indicator: u8 = 38,
    }
    |m| {
        field(text8(m.stock))
    }
}

message! {
    StockTradingAction: b'H', 25 {
        stock: u64 = 11,
        trading_state: u8 = 19,
        reserved: u8 = 20,
        reason: u32 = 21,
    }
    |m| {
        field(text8(m.stock))
    }
}

message! {
    RegShoRestriction: b'Y', 20 {
        stock: u64 = 11,
        reg_sho_action: u8 = 19,
    }
    |m| {
        field(text8(m.stock))
    }
}

message! {
    MarketParticipantPosition: b'L', 26 {
        mpid: u32 = 11,
        stock: u64 = 15,
        primary_market_maker: u8 = 23,
        market_maker_mode: u8 = 24,
        market_participant_state: u8 = 25,
    }
    |m| {
        field(text4(m.mpid) & text8(m.stock))
    }
}

message! {
    MwcbDeclineLevel: b'V', 35 {
        level_1: u64 = 11,
        level_2: u64 = 19,
        level_3: u64 = 27,
    }
    |_| {
        Ok(())
    }
}

message! {
    MwcbStatus: b'W', 12 {
        breached_level: u8 = 11,
    }
    |_| {
        Ok(())
    }
}

message! {
    QuotingPeriodUpdate: b'K', 28 {
        stock: u64 = 11,
        ipo_quotation_release_time: u32 = 19,
        ipo_quotation_release_qualifier: u8 = 23,
        ipo_price: u32 = 24,
    }
    |m| {
        field(text8(m.stock))?;
        prices([m.ipo_price])
    }
}

message! {
    LuldAuctionCollar: b'J', 35 {
        stock: u64 = 11,
        auction_collar_reference_price: u32 = 19,
        upper_auction_collar_price: u32 = 23,
        lower_auction_collar_price: u32 = 27,
        auction_collar_extension: u32 = 31,
    }
    |m| {
        field(text8(m.stock))?;
        prices([
            m.auction_collar_reference_price,
            m.upper_auction_collar_price,
            m.lower_auction_collar_price,
        ])
    }
}

message! {
    OperationalHalt: b'h', 21 {
        stock: u64 = 11,
        market_code: u8 = 19,
        operational_halt_action: u8 = 20,
    }
    |m| {
        field(text8(m.stock))
    }
}
