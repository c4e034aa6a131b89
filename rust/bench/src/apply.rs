//! The table of `apply`.

use crate::report::{grouped, Table};
use crate::rounds::measure;
use crate::stretch::{Fill, Kind, Work};

const ROUNDS: usize = 41;

/// Map numbers of the books: 64, 1,024 and 4,096 slots.
const SIZES: [usize; 3] = [1, 16, 64];

const FILLS: [(Fill, &str); 3] = [
    (Fill::Full, "full"),
    (Fill::Spread, "half, spread"),
    (Fill::Packed, "half, packed"),
];

const KINDS: [(Kind, &str); 6] = [
    (Kind::Mix, "mix of a day"),
    (Kind::Executions, "E, partial"),
    (Kind::Cancels, "X, partial"),
    (Kind::Pairs, "D and A in turn"),
    (Kind::Replaces, "U"),
    (Kind::Refused, "A refused 12 FULL"),
];

/// Prints the table; false if the calls ever differ.
pub fn table(rounds: Option<usize>) -> bool {
    let rounds = rounds.unwrap_or(ROUNDS);
    heading(rounds);
    let table = Table::new(
        &[("slots", 0), ("fill", 12), ("workload", 17)],
        &["by bits", "by eights"],
        &[],
    );
    for words in SIZES {
        for (fill, filled) in FILLS {
            for (kind, name) in KINDS {
                if kind == Kind::Refused && fill != Fill::Full {
                    continue;
                }
                let slots = grouped(64 * words as u64);
                let calls = (
                    face::apply,
                    fast::apply_numbers,
                    fast::apply_numbers_by_eights,
                );
                let Some(times) = measure(&Work::new(words, fill, kind), rounds, calls) else {
                    println!("{slots} slots, {filled}, {name}: the calls differ");
                    return false;
                };
                table.row(&[&slots, filled, name], &times, &[]);
            }
        }
    }
    true
}

fn heading(rounds: usize) {
    println!(
        "One call per message: both tables and its bytes in; the number, all 18 values and all"
    );
    println!("10 figures out, the tables changed.");
    println!("product:   ladlemoss_apply of the static library, by its C call");
    println!(
        "by bits:   apply_numbers of crate fast: a reference is searched for by the live bits"
    );
    println!("           of each map number");
    println!(
        "by eights: the same, but eight slots at a time where a map number has many live ones:"
    );
    println!("           the product's own search, so that this is the like-for-like measure");
    println!(
        "Both read by way of the typed enum and try the lowest free slot slot by slot, as the"
    );
    println!("product does. Rust is not inlined; opt-level 3, thin LTO, no CPU flags.");
    method(rounds);
    println!();
}

fn method(rounds: usize) {
    println!(
        "Orders and references are random, with fixed seeds; every live order is as likely to"
    );
    println!("be the next one. All messages are accepted but those of the rows refused 12.");
    println!("full: all slots live, in the mix at most two free, in D and A one after each D;");
    println!("half: live slots spread at random over the book, or packed in its lower half.");
    println!(
        "Messages come in stretches of 8 to 128, each from a copy of the same prepared tables,"
    );
    println!("which is not timed: short enough that spread slots stay spread. The calls in turn,");
    println!(
        "{rounds} rounds each; the median of each stretch, or of eight where a book has 64 slots,"
    );
    println!(
        "summed, in ns per message; answers and tables compared throughout, a difference is a"
    );
    println!("failure. ratio: product / by bits, product / by eights.");
}
