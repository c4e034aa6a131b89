//! Document 000, sections 1.1 and 1.2: the system event and the stock related messages.

use crate::fields::{Alpha, Price, Text};
use crate::message::message;

message! {
    /// 1.1, type S.
    SystemEvent {
        event_code: Alpha<1>,
    }
}

message! {
    /// 1.2.1, type R.
    StockDirectory {
        stock: Text<8>,
        market_category: Alpha<1>,
        financial_status_indicator: Alpha<1>,
        round_lot_size: u32,
        round_lots_only: Alpha<1>,
        issue_classification: Alpha<1>,
        issue_sub_type: Alpha<2>,
        authenticity: Alpha<1>,
        short_sale_threshold_indicator: Alpha<1>,
        ipo_flag: Alpha<1>,
        luld_reference_price_tier: Alpha<1>,
        etp_flag: Alpha<1>,
        etp_leverage_factor: u32,
        inverse_indicator: Alpha<1>,
    }
}

message! {
    /// 1.2.2, type H.
    StockTradingAction {
        stock: Text<8>,
        trading_state: Alpha<1>,
        reserved: Alpha<1>,
        reason: Alpha<4>,
    }
}

message! {
    /// 1.2.3, type Y.
    RegShoRestriction {
        stock: Text<8>,
        reg_sho_action: Alpha<1>,
    }
}

message! {
    /// 1.2.4, type L.
    MarketParticipantPosition {
        mpid: Text<4>,
        stock: Text<8>,
        primary_market_maker: Alpha<1>,
        market_maker_mode: Alpha<1>,
        market_participant_state: Alpha<1>,
    }
}

message! {
    /// 1.2.5.1, type V. The levels are Price (8), which are free.
    MwcbDeclineLevel {
        level_1: u64,
        level_2: u64,
        level_3: u64,
    }
}

message! {
    /// 1.2.5.2, type W.
    MwcbStatus {
        breached_level: Alpha<1>,
    }
}

message! {
    /// 1.2.6, type K. The release time is in seconds and free.
    QuotingPeriodUpdate {
        stock: Text<8>,
        ipo_quotation_release_time: u32,
        ipo_quotation_release_qualifier: Alpha<1>,
        ipo_price: Price,
    }
}

message! {
    /// 1.2.7, type J.
    LuldAuctionCollar {
        stock: Text<8>,
        auction_collar_reference_price: Price,
        upper_auction_collar_price: Price,
        lower_auction_collar_price: Price,
        auction_collar_extension: u32,
    }
}

message! {
    /// 1.2.8, type h.
    OperationalHalt {
        stock: Text<8>,
        market_code: Alpha<1>,
        operational_halt_action: Alpha<1>,
    }
}
