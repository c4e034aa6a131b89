//! Messages over damaged tables, with more damage in between.

use crate::applying::both_tables::BothTables;
use crate::applying::counts::ApplyCounts;
use samples::{damaged_book, damaged_directory, harm, targets, twist, FlatBook, Flow, Random};

const SEED: u64 = 0x6461_6D61_6765_6421;

/// Messages over one pair of tables, and between two times of damage.
const TRIAL: u64 = 24;
const DAMAGED: u64 = 6;

/// Messages between two surveys of the book.
const SURVEYED: u64 = 12;

/// That many messages.
pub fn damaged(both: &mut BothTables, counts: &mut ApplyCounts, count: u64) {
    counts.source("apply: over damaged tables");
    let mut random = Random::new(SEED);
    let mut left = count;
    while left > 0 {
        let messages = left.min(TRIAL);
        left -= messages;
        trial(both, counts, messages, &mut random);
    }
}

fn trial(both: &mut BothTables, counts: &mut ApplyCounts, messages: u64, random: &mut Random) {
    let groups = *random.one_of(&[1, 1, 1, 1, 2, 2, 3]);
    let length = *random.one_of(&[2, 3, 4, 6, 9, 20]);
    let stocks = (length - 1) as u16;
    let directory = damaged_directory(length, random);
    let book = damaged_book(groups, stocks, random);
    both.lay(&directory, &book.numbers);
    let mut flow = Flow::new(length, book.slots());
    for turn in 0..messages {
        if turn % DAMAGED == 0 {
            if turn % SURVEYED == 0 {
                both.ask(counts);
            }
            if turn > 0 {
                damage_again(both, groups, stocks, random);
            }
            look(&mut flow, both, random);
        }
        let mut message = flow.message(random);
        if random.below(2) == 0 {
            twist(&mut message, &flow, random);
        }
        if both.apply(counts, &message) == 0 {
            flow.learn(&message);
        }
    }
}

/// Harms the tables as the messages have left them.
fn damage_again(both: &mut BothTables, groups: usize, stocks: u16, random: &mut Random) {
    let (mut directory, numbers) = both.numbers();
    let mut book = FlatBook { groups, numbers };
    for _ in 0..1 + random.below(8) {
        harm(&mut book, stocks, random);
    }
    if random.below(4) == 0 {
        let place = random.place(directory.len());
        directory[place] = damaged_directory(2, random)[1];
    }
    both.lay(&directory, &book.numbers);
}

/// Takes the view of the flow from the tables, so that it aims at what is damaged.
fn look(flow: &mut Flow, both: &BothTables, random: &mut Random) {
    let (directory, book) = both.numbers();
    let registered = directory
        .iter()
        .enumerate()
        .skip(1)
        .filter(|(_, n)| **n != 0);
    flow.stocks = registered.map(|(i, n)| (i as u16, *n)).collect();
    flow.orders = targets(&book, random.below(4) == 0);
    flow.wanted = random.place(2 * flow.orders.len() + 1);
}
