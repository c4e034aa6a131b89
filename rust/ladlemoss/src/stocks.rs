//! Document 000, sections 1.1 and 1.2: the system event and the stock related messages.

use crate::message::message;

message! {
    /// S: System Event, 1.1.
    b'S' SystemEvent {
        event_code: u8,
    }
}

message! {
    /// R: Stock Directory, 1.2.1.
    b'R' StockDirectory {
        stock: u64,
        market_category: u8,
        financial_status_indicator: u8,
        round_lot_size: u32,
        round_lots_only: u8,
        issue_classification: u8,
        issue_sub_type: u16,
        authenticity: u8,
        short_sale_threshold_indicator: u8,
        ipo_flag: u8,
        luld_reference_price_tier: u8,
        etp_flag: u8,
        etp_leverage_factor: u32,
        inverse_indicator: u8,
    }
}

message! {
    /// H: Stock Trading Action, 1.2.2.
    b'H' StockTradingAction {
        stock: u64,
        trading_state: u8,
        reserved: u8,
        reason: u32,
    }
}

message! {
    /// Y: Reg SHO Restriction, 1.2.3.
    b'Y' RegShoRestriction {
        stock: u64,
        reg_sho_action: u8,
    }
}

message! {
    /// L: Market Participant Position, 1.2.4.
    b'L' MarketParticipantPosition {
        mpid: u32,
        stock: u64,
        primary_market_maker: u8,
        market_maker_mode: u8,
        market_participant_state: u8,
    }
}

message! {
    /// V: MWCB Decline Level, 1.2.5.1.
    b'V' MwcbDeclineLevel {
        level_1: u64,
        level_2: u64,
        level_3: u64,
    }
}

message! {
    /// W: MWCB Status, 1.2.5.2.
    b'W' MwcbStatus {
        breached_level: u8,
    }
}

message! {
    /// K: Quoting Period Update, 1.2.6.
    b'K' QuotingPeriodUpdate {
        stock: u64,
        ipo_quotation_release_time: u32,
        ipo_quotation_release_qualifier: u8,
        ipo_price: u32,
    }
}

message! {
    /// J: LULD Auction Collar, 1.2.7.
    b'J' LuldAuctionCollar {
        stock: u64,
        auction_collar_reference_price: u32,
        upper_auction_collar_price: u32,
        lower_auction_collar_price: u32,
        auction_collar_extension: u32,
    }
}

message! {
    /// h: Operational Halt, 1.2.8.
    b'h' OperationalHalt {
        stock: u64,
        market_code: u8,
        operational_halt_action: u8,
    }
}
