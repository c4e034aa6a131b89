//! Flows of messages over sound tables: good ones, hostile ones, and ones that keep the book full.

use crate::applying::both_tables::BothTables;
use crate::applying::counts::ApplyCounts;
use samples::{random_bytes, sound_book, targets, twist, Flow, Random};

const SEED: u64 = 0x6D6F_7373_6C61_646C;

/// Numbers of the map and numbers of the directory; large tables are rarer, since they are slow.
const SHAPES: [(usize, usize); 12] = [
    (1, 2),
    (2, 5),
    (1, 3),
    (16, 64),
    (1, 8_192),
    (2, 300),
    (1, 16),
    (2, 2),
    (64, 1_000),
    (1, 7),
    (2, 64),
    (3, 8_191),
];

/// Messages over one pair of tables.
const STREAM: u64 = 1_000;

/// After so many messages the flow strives for another number of live orders.
const SPELL: u64 = 100;

/// Messages between two surveys of the book.
const SURVEYED: u64 = 200;

/// How a stream begins and goes on.
struct Habits {
    /// Of a hundred messages, so many are changed or made up.
    hostile: u64,
    /// Starts with a full book and goes on adding.
    full: bool,
}

/// That many messages that fit the tables.
pub fn good(both: &mut BothTables, counts: &mut ApplyCounts, count: u64) {
    counts.source("apply: flows of good messages");
    let habits = Habits {
        hostile: 0,
        full: false,
    };
    streams(both, counts, count, &habits, SEED);
}

/// That many messages, most of them at odds with the tables or the rules of reading.
pub fn hostile(both: &mut BothTables, counts: &mut ApplyCounts, count: u64) {
    counts.source("apply: flows with hostile messages");
    let habits = Habits {
        hostile: 70,
        full: false,
    };
    streams(both, counts, count, &habits, SEED + 1);
}

/// That many messages over books that are full or nearly so.
pub fn full(both: &mut BothTables, counts: &mut ApplyCounts, count: u64) {
    counts.source("apply: flows over full books");
    let habits = Habits {
        hostile: 10,
        full: true,
    };
    streams(both, counts, count, &habits, SEED + 2);
}

fn streams(
    both: &mut BothTables,
    counts: &mut ApplyCounts,
    count: u64,
    habits: &Habits,
    seed: u64,
) {
    let mut random = Random::new(seed);
    let mut left = count;
    for shape in SHAPES.iter().cycle() {
        let messages = left.min(STREAM);
        left -= messages;
        let (mut flow, slots) = start(both, counts, *shape, habits, &mut random);
        for turn in 0..messages {
            if turn % SPELL == 0 {
                flow.wanted = wanted(slots, habits, &mut random);
            }
            let message = next(&mut flow, habits, &mut random);
            if both.apply(counts, &message) == 0 {
                flow.learn(&message);
            }
            if turn % SURVEYED == SURVEYED - 1 {
                both.ask(counts);
            }
        }
        if left == 0 {
            return;
        }
    }
}

/// Lays out the tables: made fresh over anything, or with stocks and orders in them.
fn start(
    both: &mut BothTables,
    counts: &mut ApplyCounts,
    (groups, length): (usize, usize),
    habits: &Habits,
    random: &mut Random,
) -> (Flow, usize) {
    let slots = 64 * groups;
    let mut flow = Flow::new(length, slots);
    if !habits.full && random.below(2) == 0 {
        let mut anything = |length| -> Vec<u64> { (0..length).map(|_| random.number()).collect() };
        both.lay(&anything(length), &anything(257 * groups));
        both.fresh(counts);
        return (flow, slots);
    }
    let stocks = 1 + random.place((length - 1).min(6)) as u16;
    let mut directory = vec![0; length];
    for locate in 1..=stocks {
        directory[usize::from(locate)] = samples::random_text(8, random);
        flow.stocks.push((locate, directory[usize::from(locate)]));
    }
    let share = match habits.full {
        true => 100,
        false => *random.one_of(&[10, 50, 90, 97, 100]),
    };
    let book = sound_book(groups, share, stocks, random);
    flow.orders = targets(&book.numbers, false);
    both.lay(&directory, &book.numbers);
    (flow, slots)
}

fn wanted(slots: usize, habits: &Habits, random: &mut Random) -> usize {
    match random.below(4) {
        // More than there is room for, so that A and F are refused.
        0 => slots + 1,
        1 => slots,
        _ if habits.full => slots - 1,
        _ => random.place(slots),
    }
}

fn next(flow: &mut Flow, habits: &Habits, random: &mut Random) -> Vec<u8> {
    let mut message = flow.message(random);
    if random.below(100) < habits.hostile {
        match random.below(12) {
            0 => message = random_bytes(random),
            _ => twist(&mut message, flow, random),
        }
    }
    message
}
