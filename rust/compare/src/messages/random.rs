//! Random and changed messages, the same in every run.

use crate::messages::Checker;
use samples::{random_message, spoil, Layout, Random, LAYOUTS};

const SEED: u64 = 0x4C61_646C_656D_6F73;

/// A way to make a random message of a layout.
type Way = fn(&Layout, &mut Random) -> Vec<u8>;

const WAYS: [(&str, Way); 5] = [
    ("random: well formed, all fields random", random_message),
    ("random: well formed, 1 to 4 bytes changed", changed),
    ("random: well formed, 1 to 4 faults", faulty),
    ("random: right type and length, other bytes random", noise),
    ("random: well formed, cut or lengthened", resized),
];

/// That many messages, shared out evenly among the ways.
pub fn random_messages(checker: &mut impl Checker, count: u64) {
    let mut random = Random::new(SEED);
    for (turn, (name, way)) in WAYS.iter().enumerate() {
        checker.source(name);
        let (ways, turn) = (WAYS.len() as u64, turn as u64);
        for _ in 0..(count + ways - 1 - turn) / ways {
            let layout = *random.one_of(&LAYOUTS);
            checker.check(&way(&layout, &mut random));
        }
    }
}

fn changed(layout: &Layout, random: &mut Random) -> Vec<u8> {
    let mut message = random_message(layout, random);
    for _ in 0..1 + random.place(4) {
        let place = random.place(message.len());
        message[place] = random.byte();
    }
    message
}

fn faulty(layout: &Layout, random: &mut Random) -> Vec<u8> {
    let mut message = random_message(layout, random);
    let mut numbers: Vec<u8> = (0..1 + random.place(4))
        .map(|_| *random.one_of(&[2, 3, 3, 4, 4, 5, 5, 6, 6, 1]))
        .collect();
    // The changes of the length, number 1, must come last.
    numbers.sort_unstable_by(|a, b| b.cmp(a));
    for number in numbers {
        spoil(layout, number, &mut message, random);
    }
    message
}

fn noise(layout: &Layout, random: &mut Random) -> Vec<u8> {
    let mut message: Vec<u8> = (0..layout.length).map(|_| random.byte()).collect();
    message[0] = layout.message_type;
    message
}

fn resized(layout: &Layout, random: &mut Random) -> Vec<u8> {
    let mut message = random_message(layout, random);
    let length = random.place(2 * layout.length);
    message.resize_with(length, || random.byte());
    message
}
