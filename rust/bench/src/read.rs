//! The table of `read`.

use crate::measure::measure;
use crate::report::Table;
use crate::workload::{workloads, MESSAGES};

const ROUNDS: usize = 61;

/// Prints the table; false if the readers ever differ.
pub fn table(rounds: Option<usize>) -> bool {
    let rounds = rounds.unwrap_or(ROUNDS);
    heading(rounds);
    let table = Table::new(&[("workload", 18)], &["Rust", "by enum"], &[]);
    for work in workloads() {
        let readers = (face::read, fast::read_numbers, fast::read_numbers_by_enum);
        let Some(times) = measure(&work, rounds, readers) else {
            println!("{}: the readers differ", work.name);
            return false;
        };
        table.row(&[&work.name], &times, &[]);
    }
    true
}

fn heading(rounds: usize) {
    println!("One call per message: its bytes in, the number and all 18 values out.");
    println!("product: ladlemoss_read of the static library, by its C call");
    println!("Rust:    read_numbers of crate fast: a jump by type, from each struct to the values");
    println!("by enum: the same, but by way of the typed enum of all messages");
    println!("Rust is not inlined; release profile: opt-level 3, thin LTO, no CPU flags.");
    println!("{MESSAGES} messages a workload, in one buffer, random, with a fixed seed;");
    println!("the readers in turn, {rounds} rounds each, the median in ns per message;");
    println!("answers compared throughout; ratio: product / Rust, product / by enum.");
    println!();
}
