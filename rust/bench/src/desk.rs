//! A small simulator of the feed: it knows the live orders, and makes messages that are accepted.

use crate::workload::{drawn, usual};
use samples::{Layout, Random};

/// Stocks, by locates from 1 on.
const STOCKS: u64 = 256;

/// Prices of a stock's side.
const PRICES: u64 = 20;

/// Shares of a new order: enough for thousands of partial executions.
const LOT: u64 = 10_000_000;

/// A day's mix, in hundredths; E and C use up the order every second time.
const DAY: [(u8, u64); 7] = [
    (b'A', 40),
    (b'D', 35),
    (b'U', 10),
    (b'E', 8),
    (b'X', 4),
    (b'F', 2),
    (b'C', 1),
];

#[derive(Clone, Copy)]
struct Live {
    reference: u64,
    locate: u64,
    side: u8,
    remains: u64,
}

pub struct Desk {
    random: Random,
    live: Vec<Live>,
}

impl Desk {
    pub fn new() -> Self {
        Desk {
            random: Random::new(0),
            live: vec![],
        }
    }

    /// The same orders, but another course from here on.
    pub fn again(&self, seed: u64) -> Self {
        Desk {
            random: Random::new(seed << 32),
            live: self.live.clone(),
        }
    }

    /// The message of a type, well-formed, with these fields as given.
    fn message(&mut self, message_type: u8, given: &[(&str, u64)]) -> Vec<u8> {
        let layout = Layout::of(message_type).expect("one of the 23");
        let mut message = usual(layout, &mut self.random);
        for &(name, number) in given {
            let mut fields = layout.fields();
            let field = fields.find(|field| field.name == name);
            field
                .expect("a field of the type")
                .set(&mut message, number);
        }
        message
    }

    /// R of every stock.
    pub fn registrations(&mut self) -> Vec<Vec<u8>> {
        let one = |locate| {
            let given = [("Stock Locate", locate), ("Stock", symbol(locate))];
            self.message(b'R', &given)
        };
        (1..=STOCKS).map(one).collect()
    }

    fn new_order(&mut self) -> Live {
        Live {
            reference: self.random.number(),
            locate: 1 + self.random.below(STOCKS),
            side: *self.random.one_of(b"BS"),
            remains: LOT + self.random.below(LOT),
        }
    }

    /// A price of the order's stock and side.
    fn price(&mut self, order: Live) -> u64 {
        let (middle, step) = (10_000 * order.locate, 100 * self.random.below(PRICES));
        match order.side {
            b'B' => middle - step,
            _ => middle + 100 + step,
        }
    }

    /// A or F that nothing is in the way of but a full book.
    pub fn offer(&mut self, message_type: u8) -> Vec<u8> {
        let order = self.new_order();
        self.offered(message_type, order)
    }

    fn offered(&mut self, message_type: u8, order: Live) -> Vec<u8> {
        let given = [
            ("Stock Locate", order.locate),
            ("Order Reference Number", order.reference),
            ("Buy/Sell Indicator", order.side.into()),
            ("Shares", order.remains),
            ("Stock", symbol(order.locate)),
            ("Price", self.price(order)),
        ];
        self.message(message_type, &given)
    }

    /// A or F.
    pub fn add(&mut self, message_type: u8) -> Vec<u8> {
        let order = self.new_order();
        self.live.push(order);
        self.offered(message_type, order)
    }

    /// E, C or X of a random order: a small part of it, or all that remains.
    pub fn take(&mut self, message_type: u8, all: bool) -> Vec<u8> {
        let place = self.random.place(self.live.len());
        let order = self.live[place];
        let part = 1 + self.random.below(100);
        let shares = if all { order.remains } else { part };
        self.live[place].remains -= shares;
        if all {
            self.live.swap_remove(place);
        }
        let name = match message_type {
            b'X' => "Cancelled Shares",
            _ => "Executed Shares",
        };
        let given = [
            ("Stock Locate", order.locate),
            ("Order Reference Number", order.reference),
            (name, shares),
        ];
        self.message(message_type, &given)
    }

    /// D of a random order.
    pub fn delete(&mut self) -> Vec<u8> {
        let place = self.random.place(self.live.len());
        let order = self.live.swap_remove(place);
        let given = [
            ("Stock Locate", order.locate),
            ("Order Reference Number", order.reference),
        ];
        self.message(b'D', &given)
    }

    /// U of a random order.
    pub fn replace(&mut self) -> Vec<u8> {
        let place = self.random.place(self.live.len());
        let order = self.live[place];
        let new = Live {
            locate: order.locate,
            side: order.side,
            ..self.new_order()
        };
        self.live[place] = new;
        let given = [
            ("Stock Locate", order.locate),
            ("Original Order Reference Number", order.reference),
            ("New Order Reference Number", new.reference),
            ("Shares", new.remains),
            ("Price", self.price(new)),
        ];
        self.message(b'U', &given)
    }

    /// One message of a day's mix that leaves no fewer and no more live orders than these.
    pub fn any(&mut self, least: usize, most: usize) -> Vec<u8> {
        let message_type = drawn(&DAY, self.random.below(100));
        let (room, spare) = (self.live.len() < most, self.live.len() > least);
        match message_type {
            b'A' | b'F' if room => self.add(message_type),
            b'A' | b'F' | b'D' if spare => self.delete(),
            b'A' | b'F' | b'D' => self.add(b'A'),
            b'U' => self.replace(),
            b'X' => self.take(b'X', false),
            _ => {
                let all = spare && self.random.below(2) == 0;
                self.take(message_type, all)
            }
        }
    }
}

/// A symbol of two letters.
fn symbol(locate: u64) -> u64 {
    let letter = |number: u64| u64::from(b'A') + number % 26;
    (letter(locate / 26) << 56) | (letter(locate) << 48) | 0x2020_2020_2020
}
