//! What may be asked of the tables.

use crate::field::{Field, Side};
use crate::refusal::Refusal;

/// What the book holds of one live order.
#[derive(Clone, Copy, Debug, PartialEq, Eq, Hash)]
pub struct Account {
    /// The shares it started with.
    pub added: u32,
    /// Executed since.
    pub executed: u32,
    /// Cancelled since.
    pub cancelled: u32,
    /// What is left of those added: at least 1.
    pub remaining: u32,
    /// The stock.
    pub locate: u16,
    /// The side.
    pub side: Side,
    /// The price, in ten-thousandths.
    pub price: u32,
    /// Four letters as one big-endian number; NSDQ where the order came without its own.
    pub attribution: u32,
}

/// The orders of one stock, side and price together.
#[derive(Clone, Copy, Debug, PartialEq, Eq, Hash)]
pub struct Level {
    /// The price, in ten-thousandths.
    pub price: u32,
    /// The remaining shares of all its orders.
    pub total: u64,
    /// How many orders they are.
    pub count: u64,
}

/// The account of the order with a reference; [`Refusal::NoOrder`] where none is live with it.
pub fn order(book: &[u64], reference: u64) -> Result<Account, Refusal> {
    let mut out = [0; 8];
    Refusal::check(face::order(book, reference, &mut out))?;
    let [added, executed, cancelled, remaining, locate, side, price, attribution] = out;
    Ok(Account {
        added: Field::of(added),
        executed: Field::of(executed),
        cancelled: Field::of(cancelled),
        remaining: Field::of(remaining),
        locate: Field::of(locate),
        side: Field::of(side),
        price: Field::of(price),
        attribution: Field::of(attribution),
    })
}

/// The level of a stock's side at a price, any price: total and count are 0 where no order is.
///
/// ```
/// use ladlemoss::{Level, Side};
///
/// let book = [0; ladlemoss::book_length(1)];
/// let level = ladlemoss::level(&book, 1, Side::Sell, 100_000)?;
/// assert_eq!(level, Level { price: 100_000, total: 0, count: 0 });
/// # Ok::<(), ladlemoss::Refusal>(())
/// ```
pub fn level(book: &[u64], locate: u16, side: Side, price: u32) -> Result<Level, Refusal> {
    let mut out = [0; 2];
    Refusal::check(face::level(book, locate, side.byte(), price, &mut out))?;
    let [total, count] = out;
    Ok(Level {
        price,
        total,
        count,
    })
}

/// The best level of a stock's side, the highest to buy or the lowest to sell; none where no order is.
pub fn best(book: &[u64], locate: u16, side: Side) -> Result<Option<Level>, Refusal> {
    let mut out = [0; 4];
    Refusal::check(face::best(book, locate, side.byte(), &mut out))?;
    Ok(quote(out))
}

/// The next level of a stock's side that is worse than a price; none where none is.
pub fn next(book: &[u64], locate: u16, side: Side, price: u32) -> Result<Option<Level>, Refusal> {
    let mut out = [0; 4];
    Refusal::check(face::next(book, locate, side.byte(), price, &mut out))?;
    Ok(quote(out))
}

/// How many orders are live.
pub fn live_count(book: &[u64]) -> Result<u64, Refusal> {
    let mut out = [0; 1];
    Refusal::check(face::live(book, &mut out))?;
    let [count] = out;
    Ok(count)
}

/// The message's symbol without its padding, as a part of the message.
///
/// It is empty unless the directory's length is right and the message is well formed, has a stock, and
/// its locate is registered with that stock. It lives as long as the message, not as the directory:
///
/// ```
/// let message = *b"Y\0\x01\0\0\0\0\0\0\0\0ZVZZT   0";
/// let symbol = {
///     let directory = [0, u64::from_be_bytes(*b"ZVZZT   ")];
///     ladlemoss::symbol(&directory, &message)
/// };
/// assert_eq!(symbol, b"ZVZZT");
/// assert_eq!(ladlemoss::symbol(&[0, 0], &message), b"");
/// ```
pub fn symbol<'m>(directory: &[u64], message: &'m [u8]) -> &'m [u8] {
    let mut out = [0; 2];
    face::symbol(directory, message, &mut out);
    let [start, length] = out.map(|number| number as usize);
    let rest = message.get(start..).unwrap_or_default();
    // A symbol always stands inside its message, so that neither default is needed.
    rest.get(..length).unwrap_or_default()
}

/// The level that four numbers stand for: 1 and its own, or four zeros.
#[inline]
fn quote([stands, price, total, count]: [u64; 4]) -> Option<Level> {
    (stands == 1).then_some(Level {
        price: Field::of(price),
        total,
        count,
    })
}
