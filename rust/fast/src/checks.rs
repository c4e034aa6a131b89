//! The paper's rules on loaded words.

pub const LENGTH: u8 = 1;
pub const TYPE: u8 = 2;
pub const TIME: u8 = 3;
pub const FIELD: u8 = 4;
pub const PRICE: u8 = 5;
pub const SHARES: u8 = 6;
pub const STOCK: u8 = 7;
pub const CONFLICT: u8 = 8;
pub const DUPLICATE: u8 = 9;
pub const NO_ORDER: u8 = 10;
pub const OVER: u8 = 11;
pub const FULL: u8 = 12;
pub const BOOK: u8 = 13;
pub const SHAPE: u8 = 14;

const DAY: u64 = 86_400_000_000_000;
pub const MAXIMUM_PRICE: u32 = 2_000_000_000;
const ONES: u64 = 0x0101_0101_0101_0101;
const TOPS: u64 = 0x80 * ONES;

#[inline(always)]
pub fn time(timestamp: u64) -> Result<(), u8> {
    if timestamp < DAY {
        Ok(())
    } else {
        Err(TIME)
    }
}

#[inline(always)]
pub fn field(good: bool) -> Result<(), u8> {
    if good {
        Ok(())
    } else {
        Err(FIELD)
    }
}

/// All prices of a message at once; the largest decides.
#[inline(always)]
pub fn prices<const N: usize>(prices: [u32; N]) -> Result<(), u8> {
    if prices.iter().fold(0, |most, &price| most.max(price)) <= MAXIMUM_PRICE {
        Ok(())
    } else {
        Err(PRICE)
    }
}

#[inline(always)]
pub fn shares(shares: u32) -> Result<(), u8> {
    if shares != 0 {
        Ok(())
    } else {
        Err(SHARES)
    }
}

#[inline(always)]
pub fn side(byte: u8) -> bool {
    either(byte, b'B', b'S')
}

#[inline(always)]
pub fn printable(byte: u8) -> bool {
    either(byte, b'Y', b'N')
}

/// A product is 0 when a factor is; no branch that depends on which letter it is.
#[inline(always)]
fn either(byte: u8, one: u8, other: u8) -> bool {
    u32::from(byte ^ one) * u32::from(byte ^ other) == 0
}

/// Visible bytes, at least one, then only spaces; the first byte is the highest.
#[inline(always)]
pub fn text8(word: u64) -> bool {
    // Where no top bit is set, adding lifts a byte's top bit exactly from a bound on.
    let above_7e = word | word.wrapping_add(ONES);
    let from_20 = word.wrapping_add(0x60 * ONES);
    let spaces = !word.wrapping_add(0x5F * ONES) & TOPS;
    // A space must have a space after it, unless it stands last.
    let inner = spaces & !((spaces << 8) | 0x80);
    ((above_7e | !from_20) & TOPS) | inner | (spaces & (1 << 63)) == 0
}

/// A text of four bytes is one of eight with four more spaces.
#[inline(always)]
pub fn text4(word: u32) -> bool {
    text8((u64::from(word) << 32) | 0x2020_2020)
}

#[cfg(test)]
mod tests {
    use super::{text4, text8};

    fn plain(text: &[u8]) -> bool {
        let visible = text.iter().take_while(|b| (0x21..=0x7E).contains(*b));
        let visible = visible.count();
        visible > 0 && text[visible..].iter().all(|&b| b == b' ')
    }

    #[test]
    fn texts_of_all_edge_bytes() {
        let edges = [0x00, 0x1F, 0x20, 0x21, 0x7E, 0x7F, 0x80, 0xFF];
        for code in 0..8u32.pow(8) {
            let text = [0, 3, 6, 9, 12, 15, 18, 21].map(|at| edges[(code >> at & 7) as usize]);
            assert_eq!(text8(u64::from_be_bytes(text)), plain(&text));
        }
        for code in 0..8u32.pow(4) {
            let text = [0, 3, 6, 9].map(|at| edges[(code >> at & 7) as usize]);
            assert_eq!(text4(u32::from_be_bytes(text)), plain(&text));
        }
    }
}
