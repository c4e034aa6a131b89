//! The product's C functions, as safe calls. What is built on them needs no `unsafe` of its own.

#![no_std]

/// The archive that is linked; another language's test links the same.
pub const ARCHIVE: &str = env!("LADLEMOSS_ARCHIVE");

extern "C" {
    fn ladlemoss_read(bytes: *const u8, len: usize, out: *mut u64) -> u8;
    fn ladlemoss_fresh(
        directory: *mut u64,
        directory_len: usize,
        book: *mut u64,
        book_len: usize,
    ) -> u8;
    fn ladlemoss_apply(
        directory: *mut u64,
        directory_len: usize,
        book: *mut u64,
        book_len: usize,
        bytes: *const u8,
        len: usize,
        out: *mut u64,
        figures: *mut u64,
    ) -> u8;
    fn ladlemoss_order(book: *const u64, book_len: usize, reference: u64, out: *mut u64) -> u8;
    fn ladlemoss_level(
        book: *const u64,
        book_len: usize,
        locate: u16,
        side: u8,
        price: u32,
        out: *mut u64,
    ) -> u8;
    fn ladlemoss_best(
        book: *const u64,
        book_len: usize,
        locate: u16,
        side: u8,
        out: *mut u64,
    ) -> u8;
    fn ladlemoss_next(
        book: *const u64,
        book_len: usize,
        locate: u16,
        side: u8,
        price: u32,
        out: *mut u64,
    ) -> u8;
    fn ladlemoss_live(book: *const u64, book_len: usize, out: *mut u64) -> u8;
    fn ladlemoss_symbol(
        directory: *const u64,
        directory_len: usize,
        bytes: *const u8,
        len: usize,
        out: *mut u64,
    );
}

/// Reads one message; answers the paper's number and overwrites all 18 numbers.
#[inline(always)]
pub fn read(bytes: &[u8], out: &mut [u64; 18]) -> u8 {
    // SAFETY: the pointers come from references to `len` bytes and to 18 numbers.
    unsafe { ladlemoss_read(bytes.as_ptr(), bytes.len(), out.as_mut_ptr()) }
}

/// Makes both tables all zero and answers 0, or answers 14 and leaves them.
#[inline(always)]
pub fn fresh(directory: &mut [u64], book: &mut [u64]) -> u8 {
    // SAFETY: the pointers come from references to that many numbers.
    unsafe {
        ladlemoss_fresh(
            directory.as_mut_ptr(),
            directory.len(),
            book.as_mut_ptr(),
            book.len(),
        )
    }
}

/// Applies one message to both tables; answers the paper's number and overwrites the 18 numbers of
/// the message and the 10 figures of the orders concerned.
#[inline(always)]
pub fn apply(
    directory: &mut [u64],
    book: &mut [u64],
    bytes: &[u8],
    out: &mut [u64; 18],
    figures: &mut [u64; 10],
) -> u8 {
    // SAFETY: the pointers come from references to that many numbers and bytes, none of which overlap.
    unsafe {
        ladlemoss_apply(
            directory.as_mut_ptr(),
            directory.len(),
            book.as_mut_ptr(),
            book.len(),
            bytes.as_ptr(),
            bytes.len(),
            out.as_mut_ptr(),
            figures.as_mut_ptr(),
        )
    }
}

/// The account of the order with a reference: added, executed, cancelled, remaining, locate, side,
/// price, attribution; all 0 for a refusal.
#[inline(always)]
pub fn order(book: &[u64], reference: u64, out: &mut [u64; 8]) -> u8 {
    // SAFETY: the pointers come from references to that many numbers.
    unsafe { ladlemoss_order(book.as_ptr(), book.len(), reference, out.as_mut_ptr()) }
}

/// A level's total and count.
#[inline(always)]
pub fn level(book: &[u64], locate: u16, side: u8, price: u32, out: &mut [u64; 2]) -> u8 {
    // SAFETY: the pointers come from references to that many numbers.
    unsafe {
        ladlemoss_level(
            book.as_ptr(),
            book.len(),
            locate,
            side,
            price,
            out.as_mut_ptr(),
        )
    }
}

/// The best level of a side: 1 and its price, total and count, or four zeros where there is none.
#[inline(always)]
pub fn best(book: &[u64], locate: u16, side: u8, out: &mut [u64; 4]) -> u8 {
    // SAFETY: the pointers come from references to that many numbers.
    unsafe { ladlemoss_best(book.as_ptr(), book.len(), locate, side, out.as_mut_ptr()) }
}

/// The next level worse than a price, as `best` gives it.
#[inline(always)]
pub fn next(book: &[u64], locate: u16, side: u8, price: u32, out: &mut [u64; 4]) -> u8 {
    // SAFETY: the pointers come from references to that many numbers.
    unsafe {
        ladlemoss_next(
            book.as_ptr(),
            book.len(),
            locate,
            side,
            price,
            out.as_mut_ptr(),
        )
    }
}

/// How many slots are live.
#[inline(always)]
pub fn live(book: &[u64], out: &mut [u64; 1]) -> u8 {
    // SAFETY: the pointers come from references to that many numbers.
    unsafe { ladlemoss_live(book.as_ptr(), book.len(), out.as_mut_ptr()) }
}

/// Where the message's symbol starts and how long it is; both 0 where it has none that is registered.
#[inline(always)]
pub fn symbol(directory: &[u64], bytes: &[u8], out: &mut [u64; 2]) {
    // SAFETY: the pointers come from references to that many numbers and bytes.
    unsafe {
        ladlemoss_symbol(
            directory.as_ptr(),
            directory.len(),
            bytes.as_ptr(),
            bytes.len(),
            out.as_mut_ptr(),
        )
    }
}
