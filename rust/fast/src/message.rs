//! The 23 messages as one type, and how a list of offsets becomes a struct.

use crate::checks::{LENGTH, TYPE};
use crate::{orders::*, stock::*, trades::*};

/// A big-endian number at a fixed offset.
pub(crate) trait Load {
    fn load<const N: usize>(message: &[u8; N], offset: usize) -> Self;
}

macro_rules! load {
    ($($kind:ty)*) => {$(
        impl Load for $kind {
            #[inline(always)]
            fn load<const N: usize>(message: &[u8; N], offset: usize) -> Self {
                let mut bytes = [0; size_of::<$kind>()];
                bytes.copy_from_slice(&message[offset..offset + size_of::<$kind>()]);
                <$kind>::from_be_bytes(bytes)
            }
        }
    )*};
}
load!(u8 u16 u32 u64);

/// One of the 23 messages.
pub(crate) trait Typed: Sized {
    const TYPE: u8;
    /// The length, the time and the message's own checks; the type is known.
    fn read(bytes: &[u8]) -> Result<Self, u8>;
    /// Overwrites all 18 numbers.
    fn fill(&self, out: &mut [u64; 18]);
}

/// A struct of the fields at their offsets, with the checks after the time.
macro_rules! message {
    (
        $name:ident: $byte:literal, $length:literal {
            $($field:ident: $kind:ty = $offset:literal,)*
        }
        |$message:pat_param| $check:block
    ) => {
        #[derive(Clone, Copy, Debug)]
        pub struct $name {
            pub stock_locate: u16,
            pub tracking_number: u16,
            pub timestamp: u64,
            $(pub $field: $kind,)*
        }

        impl $name {
            #[inline(always)]
            fn load(message: &[u8; $length]) -> Self {
                use $crate::message::Load;
                // Tracking number and timestamp share one load of 8 bytes.
                let timed = u64::load(message, 3);
                $name {
                    stock_locate: u16::load(message, 1),
                    tracking_number: (timed >> 48) as u16,
                    timestamp: timed & 0xFFFF_FFFF_FFFF,
                    $($field: <$kind>::load(message, $offset),)*
                }
            }

            #[inline(always)]
            fn check(&self) -> Result<(), u8> {
                let $message = self;
                $check
            }
        }

        impl $crate::message::Typed for $name {
            const TYPE: u8 = $byte;

            #[inline(always)]
            fn read(bytes: &[u8]) -> Result<Self, u8> {
                let Ok(bytes) = bytes.try_into() else {
                    return Err($crate::checks::LENGTH);
                };
                let message = Self::load(bytes);
                $crate::checks::time(message.timestamp)?;
                message.check()?;
                Ok(message)
            }

            #[inline(always)]
            fn fill(&self, out: &mut [u64; 18]) {
                let values = [
                    u64::from(Self::TYPE),
                    u64::from(self.stock_locate),
                    u64::from(self.tracking_number),
                    self.timestamp,
                    $(u64::from(self.$field),)*
                ];
                out[..values.len()].copy_from_slice(&values);
                out[values.len()..].fill(0);
            }
        }
    };
}
pub(crate) use message;

/// A well-formed message by its type.
#[derive(Clone, Copy, Debug)]
pub enum Message {
    SystemEvent(SystemEvent),
    StockDirectory(StockDirectory),
    StockTradingAction(StockTradingAction),
    RegShoRestriction(RegShoRestriction),
    MarketParticipantPosition(MarketParticipantPosition),
    MwcbDeclineLevel(MwcbDeclineLevel),
    MwcbStatus(MwcbStatus),
    QuotingPeriodUpdate(QuotingPeriodUpdate),
    LuldAuctionCollar(LuldAuctionCollar),
    OperationalHalt(OperationalHalt),
    AddOrder(AddOrder),
    AddOrderWithAttribution(AddOrderWithAttribution),
    OrderExecuted(OrderExecuted),
    OrderExecutedWithPrice(OrderExecutedWithPrice),
    OrderCancel(OrderCancel),
    OrderDelete(OrderDelete),
    OrderReplace(OrderReplace),
    Trade(Trade),
    CrossTrade(CrossTrade),
    BrokenTrade(BrokenTrade),
    NetOrderImbalance(NetOrderImbalance),
    RetailInterest(RetailInterest),
    DirectListing(DirectListing),
}

/// The order of checks: no bytes; 2; 1; then each message's own.
#[inline(always)]
pub(crate) fn message_of(bytes: &[u8]) -> Result<Message, u8> {
    let Some(&message_type) = bytes.first() else {
        return Err(LENGTH);
    };
    Ok(match message_type {
        SystemEvent::TYPE => Message::SystemEvent(SystemEvent::read(bytes)?),
        StockDirectory::TYPE => Message::StockDirectory(StockDirectory::read(bytes)?),
        StockTradingAction::TYPE => Message::StockTradingAction(StockTradingAction::read(bytes)?),
        RegShoRestriction::TYPE => Message::RegShoRestriction(RegShoRestriction::read(bytes)?),
        MarketParticipantPosition::TYPE => {
            Message::MarketParticipantPosition(MarketParticipantPosition::read(bytes)?)
        }
        MwcbDeclineLevel::TYPE => Message::MwcbDeclineLevel(MwcbDeclineLevel::read(bytes)?),
        MwcbStatus::TYPE => Message::MwcbStatus(MwcbStatus::read(bytes)?),
        QuotingPeriodUpdate::TYPE => {
            Message::QuotingPeriodUpdate(QuotingPeriodUpdate::read(bytes)?)
        }
        LuldAuctionCollar::TYPE => Message::LuldAuctionCollar(LuldAuctionCollar::read(bytes)?),
        OperationalHalt::TYPE => Message::OperationalHalt(OperationalHalt::read(bytes)?),
        AddOrder::TYPE => Message::AddOrder(AddOrder::read(bytes)?),
        AddOrderWithAttribution::TYPE => {
            Message::AddOrderWithAttribution(AddOrderWithAttribution::read(bytes)?)
        }
        OrderExecuted::TYPE => Message::OrderExecuted(OrderExecuted::read(bytes)?),
        OrderExecutedWithPrice::TYPE => {
            Message::OrderExecutedWithPrice(OrderExecutedWithPrice::read(bytes)?)
        }
        OrderCancel::TYPE => Message::OrderCancel(OrderCancel::read(bytes)?),
        OrderDelete::TYPE => Message::OrderDelete(OrderDelete::read(bytes)?),
        OrderReplace::TYPE => Message::OrderReplace(OrderReplace::read(bytes)?),
        Trade::TYPE => Message::Trade(Trade::read(bytes)?),
        CrossTrade::TYPE => Message::CrossTrade(CrossTrade::read(bytes)?),
        BrokenTrade::TYPE => Message::BrokenTrade(BrokenTrade::read(bytes)?),
        NetOrderImbalance::TYPE => Message::NetOrderImbalance(NetOrderImbalance::read(bytes)?),
        RetailInterest::TYPE => Message::RetailInterest(RetailInterest::read(bytes)?),
        DirectListing::TYPE => Message::DirectListing(DirectListing::read(bytes)?),
        _ => return Err(TYPE),
    })
}

impl Message {
    /// The type byte and the fields, in document 000's order, then zeros.
    #[inline(always)]
    pub(crate) fn fill(&self, out: &mut [u64; 18]) {
        match self {
            Message::SystemEvent(message) => message.fill(out),
            Message::StockDirectory(message) => message.fill(out),
            Message::StockTradingAction(message) => message.fill(out),
            Message::RegShoRestriction(message) => message.fill(out),
            Message::MarketParticipantPosition(message) => message.fill(out),
            Message::MwcbDeclineLevel(message) => message.fill(out),
            Message::MwcbStatus(message) => message.fill(out),
            Message::QuotingPeriodUpdate(message) => message.fill(out),
            Message::LuldAuctionCollar(message) => message.fill(out),
            Message::OperationalHalt(message) => message.fill(out),
            Message::AddOrder(message) => message.fill(out),
            Message::AddOrderWithAttribution(message) => message.fill(out),
            Message::OrderExecuted(message) => message.fill(out),
            Message::OrderExecutedWithPrice(message) => message.fill(out),
            Message::OrderCancel(message) => message.fill(out),
            Message::OrderDelete(message) => message.fill(out),
            Message::OrderReplace(message) => message.fill(out),
            Message::Trade(message) => message.fill(out),
            Message::CrossTrade(message) => message.fill(out),
            Message::BrokenTrade(message) => message.fill(out),
            Message::NetOrderImbalance(message) => message.fill(out),
            Message::RetailInterest(message) => message.fill(out),
            Message::DirectListing(message) => message.fill(out),
        }
    }
}
