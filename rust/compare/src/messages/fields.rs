//! Every edge of every field, every byte's every value, and faults put together.

use crate::messages::Checker;
use samples::{faults_of, sample, Fault, Field, Rule, DAY, LAYOUTS, MAXIMUM_PRICE};

/// Each field at its edges, with each bit alone and each bit alone missing.
pub fn every_field(checker: &mut impl Checker) {
    checker.source("edges of every field");
    for layout in &LAYOUTS {
        for field in layout.fields() {
            let mut message = sample(layout);
            for number in edges(field) {
                field.set(&mut message, number);
                checker.check(&message);
            }
        }
    }
}

fn edges(field: &Field) -> Vec<u64> {
    let largest = field.largest();
    let mut edges = vec![0, 1, largest - 1, largest];
    match field.rule {
        Rule::Time => edges.extend([DAY - 1, DAY, DAY + 1]),
        Rule::Price => edges.extend([MAXIMUM_PRICE - 1, MAXIMUM_PRICE, MAXIMUM_PRICE + 1]),
        _ => {}
    }
    for bit in 0..8 * field.width {
        edges.extend([1 << bit, largest ^ (1 << bit)]);
    }
    edges
}

/// Every byte of every message, the type included, set to every value.
pub fn every_byte(checker: &mut impl Checker) {
    checker.source("every byte at every value");
    for layout in &LAYOUTS {
        for place in 0..layout.length {
            let mut message = sample(layout);
            for value in 0..=255 {
                message[place] = value;
                checker.check(&message);
            }
        }
    }
}

/// One, two and three faults in one message, for the order of checks.
pub fn faults_together(checker: &mut impl Checker) {
    checker.source("one, two and three faults in one message");
    for layout in &LAYOUTS {
        let whole = sample(layout);
        let faults = faults_of(layout);
        for (i, first) in faults.iter().enumerate() {
            for (j, second) in faults.iter().enumerate().skip(i) {
                for third in &faults[j..] {
                    put_all(checker, &whole, [first, second, third]);
                }
            }
        }
    }
}

/// The same fault twice is one fault, so fewer than three come about too.
fn put_all(checker: &mut impl Checker, whole: &[u8], faults: [&Fault; 3]) {
    let mut message = whole.to_vec();
    for fault in faults {
        fault.put(&mut message);
    }
    checker.check(&message);
}
