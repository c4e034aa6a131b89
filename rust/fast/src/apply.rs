//! The call `apply` in the shape of the product's C function: the number, both tables changed, and
//! all 18 values and 10 figures overwritten.

use crate::book::Book;
use crate::checks::SHAPE;
use crate::directory::good_length;
use crate::steps::step;
use crate::{read, Answer};

/// A reference is searched for from live slot to live slot.
#[inline(never)]
pub fn apply_numbers(
    directory: &mut [u64],
    book: &mut [u64],
    bytes: &[u8],
    out: &mut [u64; 18],
    figures: &mut [u64; 10],
) -> u8 {
    apply::<false>(directory, book, bytes, out, figures)
}

/// The same, but where a map number has many live slots, eight slots at a time.
#[inline(never)]
pub fn apply_numbers_by_eights(
    directory: &mut [u64],
    book: &mut [u64],
    bytes: &[u8],
    out: &mut [u64; 18],
    figures: &mut [u64; 10],
) -> u8 {
    apply::<true>(directory, book, bytes, out, figures)
}

#[inline(always)]
fn apply<const EIGHTS: bool>(
    directory: &mut [u64],
    book: &mut [u64],
    bytes: &[u8],
    out: &mut [u64; 18],
    figures: &mut [u64; 10],
) -> u8 {
    match accepted::<EIGHTS>(directory, book, bytes, out, figures) {
        Ok(()) => 0,
        Err(number) => {
            *out = [0; 18];
            *figures = [0; 10];
            number
        }
    }
}

#[inline(always)]
fn accepted<const EIGHTS: bool>(
    directory: &mut [u64],
    book: &mut [u64],
    bytes: &[u8],
    out: &mut [u64; 18],
    figures: &mut [u64; 10],
) -> Result<(), u8> {
    if !good_length(directory.len()) {
        return Err(SHAPE);
    }
    let mut book = Book::<EIGHTS>::lent(book).ok_or(SHAPE)?;
    let message = match read(bytes) {
        Answer::Good(message) => message,
        Answer::Refused(number) => return Err(number),
    };
    step(directory, &mut book, &message, figures)?;
    message.fill(out);
    Ok(())
}
