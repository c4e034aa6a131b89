//! The 23 messages as one type, and how the numbers of an answer become a struct.

use crate::{auctions::*, orders::*, stocks::*, trades::*};

/// The numbers of a message: its type byte, its fields in the document's order, and 0 behind the last.
pub(crate) type Numbers = [u64; 18];

/// A struct with the head that every message begins with, then the fields listed, in their order.
macro_rules! message {
    ($(#[$doc:meta])* $letter:literal $name:ident { $($field:ident: $kind:ty,)* }) => {
        $(#[$doc])*
        #[derive(Clone, Copy, Debug, PartialEq, Eq, Hash)]
        pub struct $name {
            #[allow(missing_docs)]
            pub stock_locate: u16,
            #[allow(missing_docs)]
            pub tracking_number: u16,
            /// Nanoseconds since midnight.
            pub timestamp: u64,
            $(#[allow(missing_docs)] pub $field: $kind,)*
        }

        impl $name {
            /// The first byte of such a message.
            pub const TYPE: u8 = $letter;

            #[inline]
            pub(crate) fn of(numbers: &$crate::message::Numbers) -> Self {
                use $crate::field::Field;
                let [_, stock_locate, tracking_number, timestamp, $($field,)* ..] = *numbers;
                $name {
                    stock_locate: Field::of(stock_locate),
                    tracking_number: Field::of(tracking_number),
                    timestamp,
                    $($field: Field::of($field),)*
                }
            }

            pub(crate) fn numbers(self) -> $crate::message::Numbers {
                use $crate::field::Field;
                let values = [
                    Self::TYPE.number(),
                    self.stock_locate.number(),
                    self.tracking_number.number(),
                    self.timestamp,
                    $(self.$field.number(),)*
                ];
                let mut numbers = [0; 18];
                for (number, value) in numbers.iter_mut().zip(values) {
                    *number = value;
                }
                numbers
            }
        }
    };
}
pub(crate) use message;

/// The enum over the structs named, each case told by its struct's type byte.
macro_rules! messages {
    ($($name:ident,)*) => {
        /// A well-formed message by its type.
        #[derive(Clone, Copy, Debug, PartialEq, Eq, Hash)]
        pub enum Message {
            $(#[allow(missing_docs)] $name($name),)*
        }

        impl Message {
            /// The message of an answer's numbers; none if the first is no type's byte.
            #[inline]
            pub(crate) fn of(numbers: &Numbers) -> Option<Message> {
                match numbers[0] as u8 {
                    $($name::TYPE => Some(Message::$name($name::of(numbers))),)*
                    _ => None,
                }
            }

            /// The first byte of such a message.
            pub const fn message_type(&self) -> u8 {
                match self {
                    $(Message::$name(_) => $name::TYPE,)*
                }
            }

            /// The numbers that the C function leaves: the type byte, the fields in document 000's
            /// order, and 0 behind the last.
            pub fn numbers(&self) -> [u64; 18] {
                match self {
                    $(Message::$name(message) => message.numbers(),)*
                }
            }
        }
    };
}

messages! {
    SystemEvent,
    StockDirectory,
    StockTradingAction,
    RegShoRestriction,
    MarketParticipantPosition,
    MwcbDeclineLevel,
    MwcbStatus,
    QuotingPeriodUpdate,
    LuldAuctionCollar,
    OperationalHalt,
    AddOrder,
    AddOrderMpid,
    OrderExecuted,
    OrderExecutedWithPrice,
    OrderCancel,
    OrderDelete,
    OrderReplace,
    Trade,
    CrossTrade,
    BrokenTrade,
    NetOrderImbalance,
    RetailInterest,
    DirectListing,
}
