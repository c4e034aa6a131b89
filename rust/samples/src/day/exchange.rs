//! Where the messages of the day come from: five stocks, their live orders, and the clock.

use crate::{bare_with, Random};

/// A field's name and the number for it.
pub type Set = (&'static str, u64);

/// A cent, in prices of four decimal places.
const CENT: u64 = 100;
/// Levels on each side of a stock.
const LEVELS: u64 = 6;
/// With fewer live orders than these, more come before any goes.
const FEWEST: usize = 30;

/// Symbols that Nasdaq keeps for tests, at the locates 1 to 5, each with the price that its buys
/// stand below and its sells above.
pub const STOCKS: [(&[u8; 8], u64); 5] = [
    (b"ZBZZT   ", 73_500),
    (b"ZJZZT   ", 1_012_500),
    (b"ZVZZT   ", 100_000),
    (b"ZWZZT   ", 482_000),
    (b"ZXZZT   ", 255_000),
];

/// Types of messages, as often as they come.
const KINDS: &[u8] = b"AAAAAAAAAAAAFFFFEEEECXXDDDUUUUP";
const ADDING: &[u8] = b"AAAF";

/// Market makers that F names.
const MAKERS: [&[u8; 4]; 3] = [b"TSTA", b"TSTB", b"TST1"];

#[derive(Clone, Copy)]
pub struct Order {
    pub reference: u64,
    pub locate: u64,
    pub side: u8,
    pub shares: u64,
    pub price: u64,
}

pub struct Exchange {
    random: Random,
    /// Nanoseconds since midnight.
    pub time: u64,
    reference: u64,
    match_number: u64,
    /// The live orders, the oldest first.
    pub orders: Vec<Order>,
}

impl Exchange {
    pub fn new(seed: u64) -> Self {
        Exchange {
            random: Random::new(seed),
            time: 0,
            reference: 4_000,
            match_number: 17_000,
            orders: vec![],
        }
    }

    /// The next good message, with what it does done.
    pub fn message(&mut self) -> Vec<u8> {
        let kinds = match self.orders.len() {
            FEWEST.. => KINDS,
            _ => ADDING,
        };
        match *self.random.one_of(kinds) {
            kind @ (b'A' | b'F') => {
                let (order, message) = self.offered(kind);
                self.orders.push(order);
                message
            }
            b'P' => self.trade(),
            b'U' => self.replace(),
            kind @ (b'E' | b'C') => self.execute(kind),
            kind => self.cancel(kind),
        }
    }

    /// A new order and its A or F, not yet among the live ones.
    pub fn offered(&mut self, kind: u8) -> (Order, Vec<u8>) {
        let locate = 1 + self.random.below(STOCKS.len() as u64);
        let side = *self.random.one_of(b"BS");
        let order = self.order(locate, side);
        let mut sets = vec![
            ("Order Reference Number", order.reference),
            ("Buy/Sell Indicator", side.into()),
            ("Shares", order.shares),
            ("Stock", symbol(locate)),
            ("Price", order.price),
        ];
        if kind == b'F' {
            let maker = u32::from_be_bytes(**self.random.one_of(&MAKERS));
            sets.push(("Attribution", maker.into()));
        }
        (order, self.made(kind, locate, &sets))
    }

    /// An order of a stock's side at one of its levels, mostly near the best.
    fn order(&mut self, locate: u64, side: u8) -> Order {
        self.reference += 1 + self.random.below(40);
        let random = &mut self.random;
        let away = CENT * (1 + random.below(LEVELS).min(random.below(LEVELS)));
        let middle = STOCKS[locate as usize - 1].1;
        Order {
            reference: self.reference,
            locate,
            side,
            shares: 100 * (1 + random.below(9)),
            price: match side {
                b'B' => middle - away,
                _ => middle + away,
            },
        }
    }

    /// The order that the next trade on some side of some stock would take: the oldest at the best
    /// price.
    fn touch(&mut self) -> usize {
        let any = self.any();
        let rank = |place: &usize| match self.orders[*place] {
            order if (order.locate, order.side) != (any.locate, any.side) => u64::MAX,
            Order {
                side: b'B', price, ..
            } => u64::from(u32::MAX) - price,
            order => order.price,
        };
        (0..self.orders.len()).min_by_key(rank).expect("any is one")
    }

    /// E or C.
    fn execute(&mut self, kind: u8) -> Vec<u8> {
        let place = self.touch();
        let order = self.orders[place];
        self.match_number += 1;
        let mut sets = vec![
            ("Order Reference Number", order.reference),
            ("Executed Shares", self.part(order.shares)),
            ("Match Number", self.match_number),
        ];
        if kind == b'C' {
            let better = STOCKS[order.locate as usize - 1].1;
            sets.extend([("Printable", b'Y'.into()), ("Execution Price", better)]);
        }
        self.take(place, sets[1].1);
        self.made(kind, order.locate, &sets)
    }

    /// X or D.
    fn cancel(&mut self, kind: u8) -> Vec<u8> {
        let place = self.random.place(self.orders.len());
        let order = self.orders[place];
        let reference = ("Order Reference Number", order.reference);
        if kind == b'D' {
            self.take(place, order.shares);
            return self.made(kind, order.locate, &[reference]);
        }
        let part = self.part(order.shares);
        self.take(place, part);
        let sets = [reference, ("Cancelled Shares", part)];
        self.made(kind, order.locate, &sets)
    }

    fn replace(&mut self) -> Vec<u8> {
        let place = self.random.place(self.orders.len());
        let old = self.orders.remove(place);
        let new = self.order(old.locate, old.side);
        self.orders.push(new);
        let sets = [
            ("Original Order Reference Number", old.reference),
            ("New Order Reference Number", new.reference),
            ("Shares", new.shares),
            ("Price", new.price),
        ];
        self.made(b'U', old.locate, &sets)
    }

    /// P, of orders that the book does not show.
    fn trade(&mut self) -> Vec<u8> {
        let locate = self.any().locate;
        self.match_number += 1;
        let sets = [
            ("Order Reference Number", 0),
            ("Buy/Sell Indicator", b'B'.into()),
            ("Shares", 100),
            ("Stock", symbol(locate)),
            ("Price", STOCKS[locate as usize - 1].1),
            ("Match Number", self.match_number),
        ];
        self.made(b'P', locate, &sets)
    }

    pub fn any(&mut self) -> Order {
        *self.random.one_of(&self.orders)
    }

    /// Half of the time all, else some round lots.
    fn part(&mut self, shares: u64) -> u64 {
        match self.random.below(2) {
            0 => shares,
            _ => 100 * (1 + self.random.below(shares / 100)),
        }
    }

    fn take(&mut self, place: usize, shares: u64) {
        self.orders[place].shares -= shares;
        if self.orders[place].shares == 0 {
            self.orders.remove(place);
        }
    }

    /// A message a little later than the last, zero but for the fields set.
    pub fn made(&mut self, kind: u8, locate: u64, own: &[Set]) -> Vec<u8> {
        self.time += 1 + self.random.below(90_000_000_000);
        let head = [("Stock Locate", locate), ("Timestamp", self.time)];
        bare_with(kind, &[&head[..], own].concat())
    }
}

pub fn symbol(locate: u64) -> u64 {
    u64::from_be_bytes(*STOCKS[locate as usize - 1].0)
}
