//! The table of growth with the number of live orders.

use crate::books::Books;
use crate::questions::{of_levels, of_slots};
use crate::report::{grouped, Table};
use crate::rounds::measure;
use crate::stretch::{Fill, Kind, Work};

const ROUNDS: usize = 41;

/// Map numbers of the books: 4,096 slots.
const WORDS: usize = 64;

const LIVE: [usize; 4] = [64, 256, 1_024, 4_096];

const KINDS: [(Kind, &str); 2] = [
    (Kind::Mix, "apply, mix of a day"),
    (Kind::Executions, "apply, E, partial"),
];

/// The product's time and Rust's; none if they differ.
type Times = Option<[f64; 2]>;

/// Prints the table; false if the calls ever differ.
pub fn table(rounds: Option<usize>) -> bool {
    let rounds = rounds.unwrap_or(ROUNDS);
    heading(rounds);
    let table = Table::new(&[("workload", 19), ("live orders", 0)], &["Rust"], &[]);
    let columns = LIVE.map(|live| column(Fill::First(live), rounds));
    for row in 0..columns[0].len() {
        for (live, column) in LIVE.iter().zip(&columns) {
            let (name, times) = column[row];
            let live = grouped(*live as u64);
            let Some(times) = times else {
                println!("{name}, {live} live orders: the calls differ");
                return false;
            };
            table.row(&[name, &live], &times, &[]);
        }
    }
    true
}

/// All workloads with the same number of live orders.
fn column(fill: Fill, rounds: usize) -> Vec<(&'static str, Times)> {
    let books = Books::new(WORDS, fill);
    let applied = KINDS.map(|(kind, name)| (name, applied(fill, kind, rounds)));
    let [.., order] = of_slots(&books, rounds);
    let asked = of_levels(&books, rounds);
    [&applied[..], &[order], &asked].concat()
}

fn applied(fill: Fill, kind: Kind, rounds: usize) -> Times {
    let calls = (
        face::apply,
        fast::apply_numbers,
        fast::apply_numbers_by_eights,
    );
    let work = Work::new(WORDS, fill, kind);
    measure(&work, rounds, calls).map(|[product, _, eights]| [product, eights])
}

fn heading(rounds: usize) {
    println!(
        "Books of 4,096 slots in which so many orders are live, in the lowest slots; else as in"
    );
    println!("the tables of apply and ask. One call per message or question.");
    println!("product: ladlemoss_apply, _order, _level, _best and _next, by their C calls");
    println!("Rust:    the twins of crate fast that search and pass as the product does");
    println!("{rounds} rounds each, medians in ns per message or question; ratio: product / Rust.");
    println!();
}
