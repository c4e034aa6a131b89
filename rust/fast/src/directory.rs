//! The directory: what symbol stands at a locate.

use crate::checks::{CONFLICT, STOCK};

/// Whether a directory may have that many numbers.
#[inline(always)]
pub fn good_length(length: usize) -> bool {
    (2..=8192).contains(&length)
}

/// R: the symbol is registered, or is there already.
#[inline(always)]
pub fn register(directory: &mut [u64], locate: u16, symbol: u64) -> Result<(), u8> {
    let entry = match directory.get_mut(usize::from(locate)) {
        Some(entry) if locate != 0 => entry,
        _ => return Err(STOCK),
    };
    if *entry != 0 && *entry != symbol {
        return Err(CONFLICT);
    }
    *entry = symbol;
    Ok(())
}

/// A, F: the locate must be registered with the symbol.
#[inline(always)]
pub fn check(directory: &[u64], locate: u16, symbol: u64) -> Result<(), u8> {
    match directory.get(usize::from(locate)) {
        Some(&entry) if locate != 0 && entry != 0 => {
            if entry == symbol {
                Ok(())
            } else {
                Err(CONFLICT)
            }
        }
        _ => Err(STOCK),
    }
}
