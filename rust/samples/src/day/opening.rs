//! How the day begins: the system's events, the directory, and that all stocks trade.

use super::exchange::{symbol, Exchange, Set, STOCKS};

const HOUR: u64 = 3_600_000_000_000;

/// What the directory says of each stock beside its symbol: a test stock of Nasdaq's.
const DIRECTORY: [Set; 13] = [
    ("Market Category", b'Q' as u64),
    ("Financial Status Indicator", b'N' as u64),
    ("Round Lot Size", 100),
    ("Round Lots Only", b'N' as u64),
    ("Issue Classification", b'C' as u64),
    ("Issue Sub Type", 0x5A20),
    ("Authenticity", b'T' as u64),
    ("Short Sale Threshold Indicator", b' ' as u64),
    ("IPO Flag", b'N' as u64),
    ("LULD Reference Price Tier", b'1' as u64),
    ("ETP Flag", b'N' as u64),
    ("ETP Leverage Factor", 0),
    ("Inverse Indicator", b'N' as u64),
];

/// No reason is given for a stock that trades.
const TRADING: [Set; 3] = [
    ("Trading State", b'T' as u64),
    ("Reserved", b' ' as u64),
    ("Reason", 0x2020_2020),
];

impl Exchange {
    /// From the start of messages at three to the start of market hours at half past nine.
    pub fn opening(&mut self) -> Vec<Vec<u8>> {
        self.time = 3 * HOUR;
        let mut messages = vec![self.event(b'O')];
        let locates = 1..=STOCKS.len() as u64;
        for locate in locates.clone() {
            messages.push(self.registration(locate, symbol(locate)));
        }
        for locate in locates {
            messages.push(self.trading(locate));
        }
        self.time = 4 * HOUR;
        messages.push(self.event(b'S'));
        self.time = 9 * HOUR + HOUR / 2;
        messages.push(self.event(b'Q'));
        messages
    }

    /// R for any symbol at any locate.
    pub fn registration(&mut self, locate: u64, symbol: u64) -> Vec<u8> {
        let stock = [("Stock", symbol)];
        self.made(b'R', locate, &[&stock[..], &DIRECTORY].concat())
    }

    fn trading(&mut self, locate: u64) -> Vec<u8> {
        let stock = [("Stock", symbol(locate))];
        self.made(b'H', locate, &[&stock[..], &TRADING].concat())
    }

    fn event(&mut self, code: u8) -> Vec<u8> {
        self.made(b'S', 0, &[("Event Code", code.into())])
    }
}
