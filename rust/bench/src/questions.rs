//! The questions, each asked of the product and of its Rust twin in alternating rounds.

use crate::books::{Asked, Books};
use crate::measure::median;
use std::time::Instant;

/// A question, and the medians of the product and of Rust; none where the answers differ.
pub type Row = (&'static str, Option<[f64; 2]>);

/// The questions that search for one slot, or read the map alone.
pub fn of_slots(work: &Books, rounds: usize) -> [Row; 3] {
    let by_bits = measure(
        work,
        rounds,
        |book, q, out| face::order(book, q.reference, out),
        |book, q, out| fast::order_numbers(book, q.reference, out),
    );
    let by_eights = measure(
        work,
        rounds,
        |book, q, out| face::order(book, q.reference, out),
        |book, q, out| fast::order_numbers_by_eights(book, q.reference, out),
    );
    let live = measure(
        work,
        rounds,
        |book, _, out| face::live(book, out),
        |book, _, out| fast::live_numbers(book, out),
    );
    [
        ("live count", live),
        ("order, by bits", by_bits),
        ("order, by eights", by_eights),
    ]
}

/// The questions that read every live slot.
pub fn of_levels(work: &Books, rounds: usize) -> [Row; 3] {
    let level = measure(
        work,
        rounds,
        |book, q, out| face::level(book, q.locate, q.side, q.price, out),
        |book, q, out| fast::level_numbers(book, q.locate, q.side, q.price, out),
    );
    let best = measure(
        work,
        rounds,
        |book, q, out| face::best(book, q.locate, q.side, out),
        |book, q, out| fast::best_numbers(book, q.locate, q.side, out),
    );
    let next = measure(
        work,
        rounds,
        |book, q, out| face::next(book, q.locate, q.side, q.price, out),
        |book, q, out| fast::next_numbers(book, q.locate, q.side, q.price, out),
    );
    [("level", level), ("best", best), ("next", next)]
}

/// Nanoseconds per question; the calls are types, not a list, so that each is called directly.
fn measure<const N: usize>(
    work: &Books,
    rounds: usize,
    one: impl Fn(&[u64], &Asked, &mut [u64; N]) -> u8,
    two: impl Fn(&[u64], &Asked, &mut [u64; N]) -> u8,
) -> Option<[f64; 2]> {
    let same = work.asked.iter().all(|asked| {
        let (mut ours, mut theirs) = ([1; N], [2; N]);
        let book = &work.books[asked.book];
        one(book, asked, &mut ours) == two(book, asked, &mut theirs) && ours == theirs
    });
    let mut times = [(); 2].map(|()| vec![vec![]; work.groups().count()]);
    for _ in 0..rounds {
        let [first, second] = &mut times;
        if !same || round(work, &one, first) != round(work, &two, second) {
            return None;
        }
    }
    // A median for each group of questions: one that is interrupted spoils no other.
    let total = |times: Vec<Vec<f64>>| times.into_iter().map(median).sum::<f64>();
    Some(times.map(|times| total(times) / work.asked.len() as f64))
}

/// A sum over the answers; the time of each group of questions is added to its list.
fn round<const N: usize>(
    work: &Books,
    ask: &impl Fn(&[u64], &Asked, &mut [u64; N]) -> u8,
    times: &mut [Vec<f64>],
) -> u64 {
    let mut sum = 0u64;
    let mut out = [0; N];
    for (group, times) in work.groups().zip(times) {
        let start = Instant::now();
        for asked in group {
            let number = ask(&work.books[asked.book], asked, &mut out);
            sum = sum.rotate_left(1) ^ u64::from(number) ^ out[0] ^ out[N - 1];
        }
        times.push(start.elapsed().as_nanos() as f64);
    }
    sum
}
