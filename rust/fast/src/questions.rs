//! The desk's questions in the shape of the product's C functions: the number, and all numbers of
//! the answer overwritten.

use crate::book::{find, parts};
use crate::checks::{side as is_side, BOOK, FIELD, NO_ORDER, SHAPE};
use crate::life::Order;
use crate::scan::{scan, stock_side};

/// A rank above that of every price.
const ABOVE_ALL: u64 = 1 << 33;

/// A reference is searched for from live slot to live slot.
#[inline(never)]
pub fn order_numbers(book: &[u64], reference: u64, out: &mut [u64; 8]) -> u8 {
    answered(out, order::<false>(book, reference))
}

/// The same, but where a map number has many live slots, eight slots at a time.
#[inline(never)]
pub fn order_numbers_by_eights(book: &[u64], reference: u64, out: &mut [u64; 8]) -> u8 {
    answered(out, order::<true>(book, reference))
}

/// A level's total and count.
#[inline(never)]
pub fn level_numbers(book: &[u64], locate: u16, side: u8, price: u32, out: &mut [u64; 2]) -> u8 {
    answered(out, level(book, locate, side, price))
}

/// 1 and the best level's price, total and count, or zeros.
#[inline(never)]
pub fn best_numbers(book: &[u64], locate: u16, side: u8, out: &mut [u64; 4]) -> u8 {
    answered(out, best_below(book, locate, side, ABOVE_ALL))
}

/// The same for the next level worse than a price.
#[inline(never)]
pub fn next_numbers(book: &[u64], locate: u16, side: u8, price: u32, out: &mut [u64; 4]) -> u8 {
    let bound = rank(price.into(), flip(side));
    answered(out, best_below(book, locate, side, bound))
}

/// How many slots are live.
#[inline(never)]
pub fn live_numbers(book: &[u64], out: &mut [u64; 1]) -> u8 {
    let live = |(map, _): (&[u64], _)| [map.iter().map(|word| u64::from(word.count_ones())).sum()];
    answered(out, parts(book).map(live).ok_or(SHAPE))
}

#[inline(always)]
fn answered<const N: usize>(out: &mut [u64; N], answer: Result<[u64; N], u8>) -> u8 {
    match answer {
        Ok(numbers) => {
            *out = numbers;
            0
        }
        Err(number) => {
            *out = [0; N];
            number
        }
    }
}

#[inline(always)]
fn order<const EIGHTS: bool>(book: &[u64], reference: u64) -> Result<[u64; 8], u8> {
    let (map, groups) = parts(book).ok_or(SHAPE)?;
    let slot = find::<EIGHTS>(map, groups, reference).ok_or(NO_ORDER)?;
    let order = Order::held(&groups[slot.group][slot.bit]).ok_or(BOOK)?;
    Ok([
        order.added.into(),
        order.executed.into(),
        order.cancelled.into(),
        order.remaining().into(),
        order.locate.into(),
        order.side.into(),
        order.price.into(),
        order.attribution.into(),
    ])
}

#[inline(always)]
fn level(book: &[u64], locate: u16, side: u8, price: u32) -> Result<[u64; 2], u8> {
    let (map, groups) = parts(book).ok_or(SHAPE)?;
    if !is_side(side) {
        return Err(FIELD);
    }
    let wanted = (stock_side(locate, side), u64::from(price));
    let (mut total, mut count) = (0, 0);
    scan(map, groups, |order| {
        let there = u64::from((order.stock_side == wanted.0) & (order.price == wanted.1));
        // All ones or none, so that no branch depends on the level.
        total += order.remaining & there.wrapping_neg();
        count += there;
    })?;
    Ok([total, count])
}

/// All ones for sells, so that the better of two prices has the higher rank on both sides.
#[inline(always)]
fn flip(side: u8) -> u64 {
    u64::from(side == b'S') * 0xFFFF_FFFF
}

/// From 1 on; 0 is for orders that are not asked about.
#[inline(always)]
fn rank(price: u64, flip: u64) -> u64 {
    (price ^ flip) + 1
}

/// The level of the highest rank below a bound.
#[inline(always)]
fn best_below(book: &[u64], locate: u16, side: u8, bound: u64) -> Result<[u64; 4], u8> {
    let (map, groups) = parts(book).ok_or(SHAPE)?;
    if !is_side(side) {
        return Err(FIELD);
    }
    let (wanted, flip) = (stock_side(locate, side), flip(side));
    let (mut best, mut total, mut count) = (1, 0, 0);
    scan(map, groups, |order| {
        let rank = rank(order.price, flip);
        let there = u64::from((order.stock_side == wanted) & (rank < bound));
        let rank = rank & there.wrapping_neg();
        // Seldom so, once a good price is known.
        if rank >= best {
            if rank > best {
                (best, total, count) = (rank, 0, 0);
            }
            total += order.remaining;
            count += 1;
        }
    })?;
    match count {
        0 => Ok([0; 4]),
        _ => Ok([1, (best - 1) ^ flip, total, count]),
    }
}
