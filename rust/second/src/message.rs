//! The 23 messages as one type, and how a message's table of fields becomes a struct.

use crate::cursor::Cursor;
use crate::{orders::*, stock::*, trades::*};

/// A struct with the head that every message begins with, then the fields listed, in their order.
macro_rules! message {
    ($(#[$doc:meta])* $name:ident { $($field:ident: $kind:ty,)* }) => {
        $(#[$doc])*
        #[derive(Clone, Copy, Debug, PartialEq, Eq)]
        pub struct $name {
            pub stock_locate: u16,
            pub tracking_number: u16,
            pub timestamp: $crate::fields::Timestamp,
            $(pub $field: $kind,)*
        }

        impl $name {
            /// The fields in document 000's order, or the first refusal by number.
            pub(crate) fn take(cursor: &mut $crate::cursor::Cursor) -> Result<Self, u8> {
                let stock_locate = cursor.take();
                let tracking_number = cursor.take();
                let timestamp = cursor.take::<$crate::fields::Timestamp>();
                $(let $field = cursor.take::<$kind>();)*
                $crate::cursor::no_fault(&[timestamp.err(), $($field.err(),)*])?;
                Ok($name {
                    stock_locate: stock_locate?,
                    tracking_number: tracking_number?,
                    timestamp: timestamp?,
                    $($field: $field?,)*
                })
            }

            /// The fields after the type byte as numbers.
            pub(crate) fn values(self) -> Vec<u64> {
                use $crate::fields::Field;
                vec![
                    self.stock_locate.number(),
                    self.tracking_number.number(),
                    self.timestamp.number(),
                    $(self.$field.number(),)*
                ]
            }
        }
    };
}
pub(crate) use message;

/// A well-formed message by its type.
#[derive(Clone, Copy, Debug, PartialEq, Eq)]
pub enum Message {
    SystemEvent(SystemEvent),
    StockDirectory(StockDirectory),
    StockTradingAction(StockTradingAction),
    RegShoRestriction(RegShoRestriction),
    MarketParticipantPosition(MarketParticipantPosition),
    MwcbDeclineLevel(MwcbDeclineLevel),
    MwcbStatus(MwcbStatus),
    QuotingPeriodUpdate(QuotingPeriodUpdate),
    LuldAuctionCollar(LuldAuctionCollar),
    OperationalHalt(OperationalHalt),
    AddOrder(AddOrder),
    AddOrderWithAttribution(AddOrderWithAttribution),
    OrderExecuted(OrderExecuted),
    OrderExecutedWithPrice(OrderExecutedWithPrice),
    OrderCancel(OrderCancel),
    OrderDelete(OrderDelete),
    OrderReplace(OrderReplace),
    Trade(Trade),
    CrossTrade(CrossTrade),
    BrokenTrade(BrokenTrade),
    NetOrderImbalance(NetOrderImbalance),
    RetailInterest(RetailInterest),
    DirectListing(DirectListing),
}

impl Message {
    /// The message of a type that the caller knows to be one of the 23.
    pub(crate) fn take(message_type: u8, cursor: &mut Cursor) -> Result<Message, u8> {
        Ok(match message_type {
            b'S' => Message::SystemEvent(SystemEvent::take(cursor)?),
            b'R' => Message::StockDirectory(StockDirectory::take(cursor)?),
            b'H' => Message::StockTradingAction(StockTradingAction::take(cursor)?),
            b'Y' => Message::RegShoRestriction(RegShoRestriction::take(cursor)?),
            b'L' => Message::MarketParticipantPosition(MarketParticipantPosition::take(cursor)?),
            b'V' => Message::MwcbDeclineLevel(MwcbDeclineLevel::take(cursor)?),
            b'W' => Message::MwcbStatus(MwcbStatus::take(cursor)?),
            b'K' => Message::QuotingPeriodUpdate(QuotingPeriodUpdate::take(cursor)?),
            b'J' => Message::LuldAuctionCollar(LuldAuctionCollar::take(cursor)?),
            b'h' => Message::OperationalHalt(OperationalHalt::take(cursor)?),
            b'A' => Message::AddOrder(AddOrder::take(cursor)?),
            b'F' => Message::AddOrderWithAttribution(AddOrderWithAttribution::take(cursor)?),
            b'E' => Message::OrderExecuted(OrderExecuted::take(cursor)?),
            b'C' => Message::OrderExecutedWithPrice(OrderExecutedWithPrice::take(cursor)?),
            b'X' => Message::OrderCancel(OrderCancel::take(cursor)?),
            b'D' => Message::OrderDelete(OrderDelete::take(cursor)?),
            b'U' => Message::OrderReplace(OrderReplace::take(cursor)?),
            b'P' => Message::Trade(Trade::take(cursor)?),
            b'Q' => Message::CrossTrade(CrossTrade::take(cursor)?),
            b'B' => Message::BrokenTrade(BrokenTrade::take(cursor)?),
            b'I' => Message::NetOrderImbalance(NetOrderImbalance::take(cursor)?),
            b'N' => Message::RetailInterest(RetailInterest::take(cursor)?),
            b'O' => Message::DirectListing(DirectListing::take(cursor)?),
            _ => unreachable!("a type with a length is one of the 23"),
        })
    }

    /// The first byte of such a message.
    pub fn message_type(&self) -> u8 {
        match self {
            Message::SystemEvent(_) => b'S',
            Message::StockDirectory(_) => b'R',
            Message::StockTradingAction(_) => b'H',
            Message::RegShoRestriction(_) => b'Y',
            Message::MarketParticipantPosition(_) => b'L',
            Message::MwcbDeclineLevel(_) => b'V',
            Message::MwcbStatus(_) => b'W',
            Message::QuotingPeriodUpdate(_) => b'K',
            Message::LuldAuctionCollar(_) => b'J',
            Message::OperationalHalt(_) => b'h',
            Message::AddOrder(_) => b'A',
            Message::AddOrderWithAttribution(_) => b'F',
            Message::OrderExecuted(_) => b'E',
            Message::OrderExecutedWithPrice(_) => b'C',
            Message::OrderCancel(_) => b'X',
            Message::OrderDelete(_) => b'D',
            Message::OrderReplace(_) => b'U',
            Message::Trade(_) => b'P',
            Message::CrossTrade(_) => b'Q',
            Message::BrokenTrade(_) => b'B',
            Message::NetOrderImbalance(_) => b'I',
            Message::RetailInterest(_) => b'N',
            Message::DirectListing(_) => b'O',
        }
    }

    /// The fields after the type byte as numbers, in document 000's order.
    pub fn values(&self) -> Vec<u64> {
        match self {
            Message::SystemEvent(message) => message.values(),
            Message::StockDirectory(message) => message.values(),
            Message::StockTradingAction(message) => message.values(),
            Message::RegShoRestriction(message) => message.values(),
            Message::MarketParticipantPosition(message) => message.values(),
            Message::MwcbDeclineLevel(message) => message.values(),
            Message::MwcbStatus(message) => message.values(),
            Message::QuotingPeriodUpdate(message) => message.values(),
            Message::LuldAuctionCollar(message) => message.values(),
            Message::OperationalHalt(message) => message.values(),
            Message::AddOrder(message) => message.values(),
            Message::AddOrderWithAttribution(message) => message.values(),
            Message::OrderExecuted(message) => message.values(),
            Message::OrderExecutedWithPrice(message) => message.values(),
            Message::OrderCancel(message) => message.values(),
            Message::OrderDelete(message) => message.values(),
            Message::OrderReplace(message) => message.values(),
            Message::Trade(message) => message.values(),
            Message::CrossTrade(message) => message.values(),
            Message::BrokenTrade(message) => message.values(),
            Message::NetOrderImbalance(message) => message.values(),
            Message::RetailInterest(message) => message.values(),
            Message::DirectListing(message) => message.values(),
        }
    }
}
