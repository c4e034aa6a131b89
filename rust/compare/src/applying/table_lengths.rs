//! Tables of every length: fresh and apply must refuse all that the paper does not name, and use
//! all of those that it names.

use crate::applying::both_tables::BothTables;
use crate::applying::counts::ApplyCounts;
use crate::memory::{BOOK_LENGTHS, LONGEST_TABLE};
use samples::orders::ZVZZT;
use samples::{sample, sample_with, sound_book, targets, Random, LAYOUTS};

const SEED: u64 = 0x7368_6170_6573_2121;

/// Around what the paper names, what larger ones might be, and what is right in 16 bits.
const DIRECTORY_LENGTHS: [usize; 17] = [
    0, 1, 2, 3, 4, 4_096, 8_190, 8_191, 8_192, 8_193, 16_384, 65_535, 65_536, 65_537, 65_538,
    73_728, 131_072,
];

/// The lengths that every small length of the other table is crossed with.
const FEW_DIRECTORY_LENGTHS: [usize; 5] = [0, 1, 2, 8_192, 8_193];
const FEW_BOOK_LENGTHS: [usize; 6] = [0, 256, 257, 514, 16_448, 16_705];

pub fn every_pair(both: &mut BothTables, counts: &mut ApplyCounts) {
    counts.source("apply and fresh: tables of all lengths");
    let mut random = Random::new(SEED);
    let anything: Vec<u64> = (0..LONGEST_TABLE).map(|_| random.number()).collect();
    for (turn, (directory, book)) in pairs().into_iter().enumerate() {
        // Each pair gets other contents.
        let contents = &anything[random.place(64)..];
        let (directory, book) = (&contents[64..64 + directory], &contents[..book]);
        try_pair(both, counts, directory, book, turn);
    }
}

fn pairs() -> Vec<(usize, usize)> {
    let crossed = |directories: &[usize], books: &[usize]| -> Vec<(usize, usize)> {
        let one =
            |directory: &usize| -> Vec<_> { books.iter().map(|b| (*directory, *b)).collect() };
        directories.iter().flat_map(one).collect()
    };
    let small: Vec<usize> = (0..=520).collect();
    let multiples: Vec<usize> = (1..=70).map(|groups| 257 * groups).collect();
    [
        crossed(&DIRECTORY_LENGTHS, &BOOK_LENGTHS),
        crossed(&small, &FEW_BOOK_LENGTHS),
        crossed(&FEW_DIRECTORY_LENGTHS, &small),
        crossed(&[2, 8_192], &multiples),
    ]
    .concat()
}

/// Messages that other refusals would be given for, then fresh, then messages over what it left.
fn try_pair(
    both: &mut BothTables,
    counts: &mut ApplyCounts,
    directory: &[u64],
    book: &[u64],
    turn: usize,
) {
    both.lay(directory, book);
    let stock = ("Stock Locate", 1);
    both.apply(counts, b"");
    both.apply(counts, b"Z");
    both.apply(counts, &sample_with(b'A', &[stock, ("Shares", 0)]));
    both.apply(counts, &sample_with(b'R', &[("Stock Locate", 0)]));
    both.apply(counts, &sample(&LAYOUTS[turn % LAYOUTS.len()]));
    both.apply(counts, &sample_with(b"ECXDU"[turn % 5], &[stock]));
    both.fresh(counts);
    both.apply(counts, &sample_with(b'R', &[stock]));
    both.apply(counts, &sample_with(b'A', &[stock]));
}

/// A full book of every length: the orders of its first and last slots are found, and the slots that
/// they leave are taken again.
pub fn every_book(both: &mut BothTables, counts: &mut ApplyCounts) {
    counts.source("apply: the first and last slots of every book");
    let mut random = Random::new(SEED);
    let directory = [0, ZVZZT];
    let locate = ("Stock Locate", 1);
    let add = |number| sample_with(b'A', &[locate, ("Order Reference Number", number)]);
    for groups in 1..=64 {
        let book = sound_book(groups, 100, 1, &mut random);
        let orders = targets(&book.numbers, false);
        let last = orders.len() - 1;
        for slot in [0, 63, last - 63, last - 1, last] {
            let reference = ("Order Reference Number", orders[slot].reference);
            let original = ("Original Order Reference Number", orders[slot].reference);
            both.lay(&directory, &book.numbers);
            both.apply(counts, &add(0));
            both.apply(counts, &sample_with(b'D', &[locate, reference]));
            both.apply(counts, &add(0));
            both.apply(counts, &add(0));
            both.apply(counts, &add(1));
            both.lay(&directory, &book.numbers);
            both.apply(counts, &sample_with(b'U', &[locate, original]));
            both.apply(counts, &sample_with(b'D', &[locate, reference]));
        }
    }
}
