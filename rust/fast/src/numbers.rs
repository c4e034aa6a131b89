//! The call in the shape of the product's C function: the number, and all 18 values overwritten.

use crate::checks::{LENGTH, TYPE};
use crate::message::{message_of, Typed};
use crate::{orders::*, stock::*, trades::*};

type Reader = fn(&[u8], &mut [u64; 18]) -> u8;

/// The quickest way: one jump by the type byte, the fields straight from their struct to `out`.
#[inline(never)]
pub fn read_numbers(bytes: &[u8], out: &mut [u64; 18]) -> u8 {
    match bytes.first() {
        Some(&message_type) => READERS[usize::from(message_type)](bytes, out),
        None => refuse(LENGTH, out),
    }
}

/// The same by way of the typed enum, which is told apart twice.
#[inline(never)]
pub fn read_numbers_by_enum(bytes: &[u8], out: &mut [u64; 18]) -> u8 {
    match message_of(bytes) {
        Ok(message) => {
            message.fill(out);
            0
        }
        Err(number) => refuse(number, out),
    }
}

#[inline(always)]
fn refuse(number: u8, out: &mut [u64; 18]) -> u8 {
    *out = [0; 18];
    number
}

fn unknown(_: &[u8], out: &mut [u64; 18]) -> u8 {
    refuse(TYPE, out)
}

fn known<M: Typed>(bytes: &[u8], out: &mut [u64; 18]) -> u8 {
    match M::read(bytes) {
        Ok(message) => {
            message.fill(out);
            0
        }
        Err(number) => refuse(number, out),
    }
}

/// The reader of each first byte.
static READERS: [Reader; 256] = {
    let mut readers: [Reader; 256] = [unknown; 256];
    readers[SystemEvent::TYPE as usize] = known::<SystemEvent>;
    readers[StockDirectory::TYPE as usize] = known::<StockDirectory>;
    readers[StockTradingAction::TYPE as usize] = known::<StockTradingAction>;
    readers[RegShoRestriction::TYPE as usize] = known::<RegShoRestriction>;
    readers[MarketParticipantPosition::TYPE as usize] = known::<MarketParticipantPosition>;
    readers[MwcbDeclineLevel::TYPE as usize] = known::<MwcbDeclineLevel>;
    readers[MwcbStatus::TYPE as usize] = known::<MwcbStatus>;
    readers[QuotingPeriodUpdate::TYPE as usize] = known::<QuotingPeriodUpdate>;
    readers[LuldAuctionCollar::TYPE as usize] = known::<LuldAuctionCollar>;
    readers[OperationalHalt::TYPE as usize] = known::<OperationalHalt>;
    readers[AddOrder::TYPE as usize] = known::<AddOrder>;
    readers[AddOrderWithAttribution::TYPE as usize] = known::<AddOrderWithAttribution>;
    readers[OrderExecuted::TYPE as usize] = known::<OrderExecuted>;
    readers[OrderExecutedWithPrice::TYPE as usize] = known::<OrderExecutedWithPrice>;
    readers[OrderCancel::TYPE as usize] = known::<OrderCancel>;
    readers[OrderDelete::TYPE as usize] = known::<OrderDelete>;
    readers[OrderReplace::TYPE as usize] = known::<OrderReplace>;
    readers[Trade::TYPE as usize] = known::<Trade>;
    readers[CrossTrade::TYPE as usize] = known::<CrossTrade>;
    readers[BrokenTrade::TYPE as usize] = known::<BrokenTrade>;
    readers[NetOrderImbalance::TYPE as usize] = known::<NetOrderImbalance>;
    readers[RetailInterest::TYPE as usize] = known::<RetailInterest>;
    readers[DirectListing::TYPE as usize] = known::<DirectListing>;
    readers
};
