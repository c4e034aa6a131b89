//! One pass over all live slots, each read once, in which every one must be sound.

use crate::book::Group;
use crate::checks::{side, text4, BOOK, MAXIMUM_PRICE};
use crate::life::NSDQ;

/// The first number whose upper half is above the largest price.
const ABOVE: u64 = (MAXIMUM_PRICE as u64 + 1) << 32;

/// The fourth number of an order kept with NSDQ, without its locate.
const BUY: u64 = (b'B' as u64) << 40 | (NSDQ as u64) << 8;
const SELL: u64 = (b'S' as u64) << 40 | (NSDQ as u64) << 8;

const LOW_32: u64 = 0xFFFF_FFFF;
const LOW_48: u64 = 0xFFFF_FFFF_FFFF;

/// What the questions ask of a sound order.
pub struct Seen {
    /// Locate and side together, as in the upper 24 bits of the fourth number.
    pub stock_side: u64,
    pub price: u64,
    pub remaining: u64,
}

/// Locate and side as a live slot has them together.
#[inline(always)]
pub fn stock_side(locate: u16, side: u8) -> u64 {
    u64::from(locate) << 8 | u64::from(side)
}

/// Shows every live slot in turn; 13 at the first that is unsound.
#[inline(always)]
pub fn scan(map: &[u64], groups: &[Group], mut see: impl FnMut(Seen)) -> Result<(), u8> {
    for (&word, slots) in map.iter().zip(groups) {
        let mut live = word;
        while live != 0 {
            let [_, second, third, fourth] = slots[live.trailing_zeros() as usize];
            live &= live - 1;
            let (added, gone) = (second & LOW_32, (third >> 32) + (third & LOW_32));
            if !sound(second, fourth, gone < added) {
                return Err(BOOK);
            }
            see(Seen {
                stock_side: fourth >> 40,
                price: second >> 32,
                remaining: added.wrapping_sub(gone),
            });
        }
    }
    Ok(())
}

/// Most orders have NSDQ: side, attribution and low byte are then known by two compares.
#[inline(always)]
fn sound(second: u64, fourth: u64, left: bool) -> bool {
    let holder = fourth & LOW_48;
    let usual = (holder == BUY) | (holder == SELL);
    let rest = (second < ABOVE) & (fourth > LOW_48) & left;
    usual & rest || rest && attributed(fourth)
}

/// Side, low byte and an attribution that is not NSDQ.
#[inline(always)]
fn attributed(fourth: u64) -> bool {
    side((fourth >> 40) as u8) & (fourth as u8 == 0) & text4((fourth >> 8) as u32)
}
