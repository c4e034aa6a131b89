//! The table of the desk's questions.

use crate::books::Books;
use crate::questions::{of_levels, of_slots};
use crate::report::{grouped, Table};
use crate::stretch::Fill;

const ROUNDS: usize = 61;

/// Map numbers of the books: 64, 1,024 and 4,096 slots.
const SIZES: [usize; 3] = [1, 16, 64];

const FILLS: [(Fill, &str); 2] = [(Fill::Full, "full"), (Fill::Spread, "half, spread")];

/// Prints the table; false if the answers ever differ.
pub fn table(rounds: Option<usize>) -> bool {
    let rounds = rounds.unwrap_or(ROUNDS);
    heading(rounds);
    let table = Table::new(
        &[("slots", 0), ("fill", 12), ("question", 16)],
        &["Rust"],
        &[],
    );
    for words in SIZES {
        for (fill, filled) in FILLS {
            let work = Books::new(words, fill);
            let slots = grouped(64 * words as u64);
            let rows = [of_slots(&work, rounds), of_levels(&work, rounds)];
            for (name, times) in rows.into_iter().flatten() {
                let Some(times) = times else {
                    println!("{slots} slots, {filled}, {name}: the answers differ");
                    return false;
                };
                table.row(&[&slots, filled, name], &times, &[]);
            }
        }
    }
    true
}

fn heading(rounds: usize) {
    println!("One call per question: the book in, the number and all numbers of the answer out.");
    println!("product: ladlemoss_order, _level, _best, _next and _live of the static library, by");
    println!("         their C calls");
    println!("Rust:    the twins of crate fast: one pass over the live slots by the bits of each");
    println!("         map number, every one tested for soundness; best and next keep the best");
    println!("         price so far with its total and count in the same pass; an order is");
    println!("         searched for by bits, or eight slots at a time as in the table of apply");
    println!("Rust is not inlined; opt-level 3, thin LTO, no CPU flags.");
    println!("Sound books of 8 stocks and 20 prices a side, 1 of 20 orders with an attribution of");
    println!(
        "its own, random, with fixed seeds; full, or half of the slots at random. 4 to 512 books"
    );
    println!(
        "in turn, and in each a random order: asked for by its reference, its level, the best of"
    );
    println!(
        "its side, the next from its price. The calls in turn, {rounds} rounds each; the median"
    );
    println!(
        "of every 8 to 1,024 questions, summed, in ns per question; answers compared throughout,"
    );
    println!("a difference is a failure. ratio: product / Rust.");
    println!();
}
