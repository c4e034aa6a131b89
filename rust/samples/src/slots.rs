//! Books as the numbers that the paper fixes, and the four numbers of a slot, sound and not.

use crate::flow::{price, shares};
use crate::{random_text, Random, Target, MAXIMUM_PRICE};

/// What the four numbers of a slot are put together from; each part may be any number of its width.
#[derive(Clone, Copy, Debug)]
pub struct SlotNumbers {
    pub reference: u64,
    pub price: u32,
    pub added: u32,
    pub executed: u32,
    pub cancelled: u32,
    pub locate: u16,
    pub side: u8,
    pub attribution: u32,
    pub low: u8,
}

impl SlotNumbers {
    /// A sound slot of that reference and locate, often at an edge of what is sound.
    pub fn sound(reference: u64, locate: u16, random: &mut Random) -> Self {
        let added = shares(random);
        let taken = match random.below(4) {
            0 => added - 1,
            1 => 0,
            _ => random.below(added),
        };
        let executed = random.below(taken + 1);
        SlotNumbers {
            reference,
            price: price(random) as u32,
            added: added as u32,
            executed: executed as u32,
            cancelled: (taken - executed) as u32,
            locate,
            side: *random.one_of(b"BS"),
            attribution: random_text(4, random) as u32,
            low: 0,
        }
    }

    pub fn numbers(&self) -> [u64; 4] {
        [
            self.reference,
            u64::from(self.price) << 32 | u64::from(self.added),
            u64::from(self.executed) << 32 | u64::from(self.cancelled),
            u64::from(self.locate) << 48
                | u64::from(self.side) << 40
                | u64::from(self.attribution) << 8
                | u64::from(self.low),
        ]
    }
}

/// Sides that are none, some of them near B and S.
const NO_SIDES: [u8; 10] = *b"\0bsACRT \xC2\xFF";

/// Attributions that are no texts.
const NO_TEXTS: [&[u8; 4]; 8] = [
    b"    ",
    b" NSD",
    b"N DQ",
    b"NSD\0",
    b"\0SDQ",
    b"NS\x7FQ",
    b"NSD\xD1",
    b"\0\0\0\0",
];

/// The slot with each rule of soundness broken alone, in several ways.
pub fn broken_slots(sound: SlotNumbers) -> Vec<SlotNumbers> {
    let prices = [MAXIMUM_PRICE as u32 + 1, 0x8000_0000, u32::MAX];
    let prices = prices.map(|price| SlotNumbers { price, ..sound });
    let sides = NO_SIDES.map(|side| SlotNumbers { side, ..sound });
    let texts = NO_TEXTS.map(|text| SlotNumbers {
        attribution: u32::from_be_bytes(*text),
        ..sound
    });
    let lows = [1, b' ', 0x80].map(|low| SlotNumbers { low, ..sound });
    let nowhere = SlotNumbers { locate: 0, ..sound };
    let taken = used_up(sound);
    [&prices[..], &sides, &texts, &lows, &[nowhere], &taken].concat()
}

/// The slot with nothing left, or less than nothing.
fn used_up(sound: SlotNumbers) -> Vec<SlotNumbers> {
    let (most, added) = (u32::MAX, sound.added);
    let taken = [
        (added, added, 0),
        (added, 0, added),
        (added, added - 1, 1),
        (added, 1, added),
        (added, most, 0),
        (added, 0, most),
        // These pass 32 bits, and would be little if they wrapped.
        (added, most, 1),
        (added, 1, most),
        (added, 0x8000_0000, 0x8000_0000),
        (added, most, most),
        (0, 0, 0),
    ];
    let slot = |(added, executed, cancelled)| SlotNumbers {
        added,
        executed,
        cancelled,
        ..sound
    };
    taken.map(slot).to_vec()
}

/// A book of `groups` times 64 slots as numbers, by the places of its parts.
#[derive(Clone, Debug)]
pub struct FlatBook {
    pub groups: usize,
    pub numbers: Vec<u64>,
}

impl FlatBook {
    pub fn empty(groups: usize) -> Self {
        FlatBook {
            groups,
            numbers: vec![0; 257 * groups],
        }
    }

    pub fn slots(&self) -> usize {
        64 * self.groups
    }

    pub fn is_live(&self, slot: usize) -> bool {
        self.numbers[slot / 64] & 1 << (slot % 64) != 0
    }

    /// Turns the slot's bit of the map.
    pub fn turn(&mut self, slot: usize) {
        self.numbers[slot / 64] ^= 1 << (slot % 64);
    }

    pub fn slot(&mut self, slot: usize) -> &mut [u64] {
        let first = self.groups + 4 * slot;
        &mut self.numbers[first..first + 4]
    }

    /// Stores the numbers and makes the slot live.
    pub fn put(&mut self, slot: usize, numbers: &SlotNumbers) {
        self.numbers[slot / 64] |= 1 << (slot % 64);
        self.slot(slot).copy_from_slice(&numbers.numbers());
    }
}

/// A sound book in which about that many of a hundred slots are live, all references different.
pub fn sound_book(groups: usize, share: u64, stocks: u16, random: &mut Random) -> FlatBook {
    let mut book = FlatBook::empty(groups);
    for slot in 0..book.slots() {
        if random.below(100) < share {
            // The low bits keep them apart.
            let reference = random.number() << 12 | slot as u64;
            let locate = 1 + random.below(stocks.into()) as u16;
            book.put(slot, &SlotNumbers::sound(reference, locate, random));
        }
    }
    book
}

/// The orders of a book's live slots; of free ones too, if they hold anything and that is asked.
pub fn targets(numbers: &[u64], with_free: bool) -> Vec<Target> {
    let groups = numbers.len() / 257;
    let slots = numbers[groups..].chunks_exact(4).enumerate();
    let wanted = slots.filter(|(slot, four)| {
        let live = numbers[slot / 64] & 1 << (slot % 64) != 0;
        live || with_free && **four != [0; 4]
    });
    let target = |four: &[u64]| Target {
        reference: four[0],
        locate: (four[3] >> 48) as u16,
        remaining: (four[1] as u32)
            .wrapping_sub((four[2] >> 32) as u32)
            .wrapping_sub(four[2] as u32),
    };
    wanted.map(|(_, four)| target(four)).collect()
}
