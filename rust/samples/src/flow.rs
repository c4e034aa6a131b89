//! Flows of messages that fit together, each made with a view of the stocks and the live orders.

use crate::make::with;
use crate::{random_message, Layout, Random, LAYOUTS, MAXIMUM_PRICE};

/// An order to aim at.
#[derive(Clone, Copy, Debug)]
pub struct Target {
    pub reference: u64,
    pub locate: u16,
    pub remaining: u32,
}

/// Where the next message comes from, and what is believed of the tables.
#[derive(Clone, Debug)]
pub struct Flow {
    /// The directory's length, in numbers.
    pub directory: usize,
    /// Registered locates and their symbols.
    pub stocks: Vec<(u16, u64)>,
    pub orders: Vec<Target>,
    /// Strives for that many live orders.
    pub wanted: usize,
    /// The reference of the order that was last taken away.
    pub gone: u64,
    next: u64,
}

/// The types of messages, as often as they come; a dot is one that touches no table.
const GROWING: &[u8] = b"AAAAAAAAAAFFFFFEEECCXXXDDUUUU..R";
const SHRINKING: &[u8] = b"AFEEEEECCCXXXXXDDDDUUUUUUUU..R";
const EMPTY: &[u8] = b"AAAAFFF..R";

/// Few symbols, so that the same comes at several locates.
const SYMBOLS: [&[u8; 8]; 6] = [
    b"ZVZZT   ",
    b"ZXZZT   ",
    b"A       ",
    b"ABCDEFGH",
    b"ABCDEFG ",
    b"!~      ",
];

impl Flow {
    /// A flow that knows no stock and no order yet.
    pub fn new(directory: usize, wanted: usize) -> Self {
        Flow {
            directory,
            stocks: vec![],
            orders: vec![],
            wanted,
            gone: 0,
            next: 0,
        }
    }

    /// A message that the tables should accept, if there is room in the book.
    pub fn message(&mut self, random: &mut Random) -> Vec<u8> {
        let kinds = match self.orders.len() {
            0 if self.stocks.is_empty() => b"R",
            0 => EMPTY,
            live if live < self.wanted => GROWING,
            _ => SHRINKING,
        };
        match *random.one_of(kinds) {
            b'.' => self.other(random),
            b'R' => self.registration(random),
            kind @ (b'A' | b'F') if !self.stocks.is_empty() => self.addition(kind, random),
            b'A' | b'F' => self.registration(random),
            kind => self.change(kind, random),
        }
    }

    /// A message of a type that touches no table, though it may name a stock and an order in them.
    fn other(&self, random: &mut Random) -> Vec<u8> {
        let layout = loop {
            let layout = random.one_of(&LAYOUTS);
            if !b"RAFECXDU".contains(&layout.message_type) {
                break layout;
            }
        };
        let mut message = random_message(layout, random);
        if random.below(2) == 0 {
            let mut set = |name, number| {
                if let Some(field) = layout.field(name) {
                    field.set(&mut message, number);
                }
            };
            set("Stock Locate", random.below(self.directory as u64));
            set("Stock", symbol(random));
            if !self.orders.is_empty() {
                let order = random.one_of(&self.orders);
                set("Stock Locate", order.locate.into());
                set("Order Reference Number", order.reference);
            }
        }
        message
    }

    fn registration(&self, random: &mut Random) -> Vec<u8> {
        let mut locate = 1 + random.place(self.directory.max(2) - 1);
        if random.below(4) > 0 {
            locate = locate.min(1 + random.place(6));
        }
        let known = self
            .stocks
            .iter()
            .find(|stock| usize::from(stock.0) == locate);
        let symbol = known.map_or_else(|| symbol(random), |stock| stock.1);
        made(
            b'R',
            &[("Stock Locate", locate as u64), ("Stock", symbol)],
            random,
        )
    }

    fn addition(&mut self, kind: u8, random: &mut Random) -> Vec<u8> {
        let (locate, symbol) = *random.one_of(&self.stocks);
        let sets = [
            ("Stock Locate", locate.into()),
            ("Stock", symbol),
            ("Order Reference Number", self.unused(random)),
            ("Shares", shares(random)),
            ("Price", price(random)),
        ];
        made(kind, &sets, random)
    }

    /// A message about a live order.
    fn change(&mut self, kind: u8, random: &mut Random) -> Vec<u8> {
        let order = *random.one_of(&self.orders);
        let locate = ("Stock Locate", order.locate.into());
        let reference = ("Order Reference Number", order.reference);
        let part = match random.below(4) {
            0 => order.remaining.into(),
            _ => 1 + random.below(u64::from(order.remaining).max(1)),
        };
        match kind {
            b'D' => made(kind, &[locate, reference], random),
            b'X' => made(
                kind,
                &[locate, reference, ("Cancelled Shares", part)],
                random,
            ),
            b'U' => {
                let sets = [
                    locate,
                    ("Original Order Reference Number", order.reference),
                    ("New Order Reference Number", self.unused(random)),
                    ("Shares", shares(random)),
                    ("Price", price(random)),
                ];
                made(kind, &sets, random)
            }
            _ => made(
                kind,
                &[locate, reference, ("Executed Shares", part)],
                random,
            ),
        }
    }

    /// A reference that no live order has: the next, one used before, 0, or any.
    fn unused(&mut self, random: &mut Random) -> u64 {
        let wish = match random.below(8) {
            0 => self.gone,
            1 => *random.one_of(&[0, u64::MAX, 1 << 32, 1 << 63]),
            2 => random.number(),
            _ => self.next,
        };
        self.next += 1;
        match self.is_live(wish) {
            true => random.number(),
            false => wish,
        }
    }

    fn is_live(&self, reference: u64) -> bool {
        self.orders.iter().any(|order| order.reference == reference)
    }

    /// Takes an accepted message into the view.
    pub fn learn(&mut self, message: &[u8]) {
        let layout = Layout::of(message[0]).expect("an accepted message has a type");
        let get = |name| {
            layout
                .field(name)
                .expect("a field of the type")
                .get(message)
        };
        let locate = get("Stock Locate") as u16;
        match message[0] {
            b'R' => {
                self.stocks.retain(|stock| stock.0 != locate);
                self.stocks.push((locate, get("Stock")));
            }
            b'A' | b'F' => self.put(get("Order Reference Number"), locate, get("Shares")),
            b'E' | b'C' => self.take(get("Order Reference Number"), get("Executed Shares")),
            b'X' => self.take(get("Order Reference Number"), get("Cancelled Shares")),
            b'D' => self.take(get("Order Reference Number"), u64::MAX),
            b'U' => {
                self.take(get("Original Order Reference Number"), u64::MAX);
                self.put(get("New Order Reference Number"), locate, get("Shares"));
            }
            _ => {}
        }
    }

    fn put(&mut self, reference: u64, locate: u16, shares: u64) {
        self.orders.push(Target {
            reference,
            locate,
            remaining: shares as u32,
        });
    }

    fn take(&mut self, reference: u64, shares: u64) {
        let found = self.orders.iter().position(|o| o.reference == reference);
        let Some(place) = found else { return };
        let remaining = u64::from(self.orders[place].remaining);
        match remaining.saturating_sub(shares) {
            0 => self.gone = self.orders.swap_remove(place).reference,
            left => self.orders[place].remaining = left as u32,
        }
    }
}

/// A random message of the type with some fields set by their names.
fn made(message_type: u8, sets: &[(&str, u64)], random: &mut Random) -> Vec<u8> {
    let layout = Layout::of(message_type).expect("one of the 23");
    with(layout, random_message(layout, random), sets)
}

pub(crate) fn symbol(random: &mut Random) -> u64 {
    u64::from_be_bytes(**random.one_of(&SYMBOLS))
}

/// Mostly few shares, so that orders are used up soon.
pub(crate) fn shares(random: &mut Random) -> u64 {
    match random.below(8) {
        0 => *random.one_of(&[1, 2, 0x7FFF_FFFF, 0x8000_0000, 0xFFFF_FFFE, 0xFFFF_FFFF]),
        1 => 1 + random.below(0xFFFF_FFFF),
        _ => 1 + random.below(500),
    }
}

/// Mostly few levels.
pub(crate) fn price(random: &mut Random) -> u64 {
    match random.below(8) {
        0 => *random.one_of(&[0, 1, MAXIMUM_PRICE - 1, MAXIMUM_PRICE]),
        1 => random.below(MAXIMUM_PRICE + 1),
        _ => 100_000 + 100 * random.below(8),
    }
}
