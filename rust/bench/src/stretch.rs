//! What `apply` is measured on: tables as prepared, and the messages that go on from there.

use crate::desk::Desk;
use crate::workload::Messages;

/// Numbers in the directory; the desk's stocks and number 0.
const DIRECTORY: usize = 257;

#[derive(Clone, PartialEq)]
pub struct Tables {
    pub directory: Vec<u64>,
    pub book: Vec<u64>,
}

#[derive(Clone, Copy, PartialEq)]
pub enum Fill {
    Full,
    /// Half of a book that was full, at random.
    Spread,
    /// The lower half.
    Packed,
    /// That many of the lowest slots.
    First(usize),
}

impl Fill {
    /// Live slots of a book.
    pub fn live(self, slots: usize) -> usize {
        match self {
            Fill::Full => slots,
            Fill::Spread | Fill::Packed => slots / 2,
            Fill::First(live) => live,
        }
    }
}

#[derive(Clone, Copy, PartialEq)]
pub enum Kind {
    Mix,
    Executions,
    Cancels,
    /// D, then A.
    Pairs,
    Replaces,
    /// A in a full book.
    Refused,
}

/// One row of the table.
pub struct Work {
    pub tables: Tables,
    /// Messages that go on from the prepared tables, each list for itself.
    pub stretches: Vec<Messages>,
    /// Stretches that are timed at one go, so that the clock's own cost does not show.
    pub at_once: usize,
    /// The number that every message is answered with.
    pub answer: u8,
}

impl Work {
    pub fn new(words: usize, fill: Fill, kind: Kind) -> Self {
        let (tables, desk) = prepared(64 * words, fill);
        let messages = (1 << 16) / words.max(4);
        let length = length(64 * words, fill, kind);
        let stretches = (1..=messages.div_ceil(length) as u64)
            .map(|seed| stretch(desk.again(seed), 64 * words, fill, kind, length))
            .collect();
        Work {
            tables,
            stretches,
            at_once: (8 / words).max(1),
            answer: if kind == Kind::Refused { 12 } else { 0 },
        }
    }

    pub fn count(&self) -> usize {
        self.stretches.iter().map(Messages::count).sum()
    }
}

/// Messages in one stretch: few enough that it is seldom interrupted. New orders go to the lowest
/// free slots, so that live slots spread at random would be packed: at most an eighth moves.
fn length(slots: usize, fill: Fill, kind: Kind) -> usize {
    let short = if slots > 1024 { 64 } else { 128 };
    match kind {
        Kind::Pairs | Kind::Mix if fill == Fill::Spread => short.min(slots / 4),
        Kind::Replaces if fill == Fill::Spread => short.min(slots / 8),
        _ => short,
    }
}

/// The tables of that fill, reached from fresh, and the desk that knows their orders.
fn prepared(slots: usize, fill: Fill) -> (Tables, Desk) {
    let mut desk = Desk::new();
    let mut tables = Tables {
        directory: vec![0; DIRECTORY],
        book: vec![0; 257 * slots / 64],
    };
    tables.take_in(desk.registrations());
    let live = fill.live(slots);
    let (added, deleted) = match fill {
        Fill::Spread => (slots, slots - live),
        _ => (live, 0),
    };
    // Every twentieth order has an attribution of its own.
    let kind = |order| if order % 20 == 0 { b'F' } else { b'A' };
    tables.take_in((0..added).map(|order| desk.add(kind(order))));
    tables.take_in((0..deleted).map(|_| desk.delete()));
    (tables, desk)
}

fn stretch(mut desk: Desk, slots: usize, fill: Fill, kind: Kind, length: usize) -> Messages {
    let (least, most) = match fill.live(slots) {
        live if live == slots => (slots - 2, slots),
        live => (live - live / 16, live + live / 16),
    };
    let mut place = 0;
    Messages::new(length, || {
        place += 1;
        match kind {
            Kind::Mix => desk.any(least, most),
            Kind::Executions => desk.take(b'E', false),
            Kind::Cancels => desk.take(b'X', false),
            Kind::Pairs if place % 2 == 1 => desk.delete(),
            Kind::Pairs => desk.add(b'A'),
            Kind::Replaces => desk.replace(),
            Kind::Refused => desk.offer(b'A'),
        }
    })
}

impl Tables {
    /// Applies messages that must be accepted.
    fn take_in(&mut self, messages: impl IntoIterator<Item = Vec<u8>>) {
        let (mut out, mut figures) = ([0; 18], [0; 10]);
        for message in messages {
            let (directory, book) = (&mut self.directory, &mut self.book);
            let number = face::apply(directory, book, &message, &mut out, &mut figures);
            assert_eq!(number, 0, "a message of the preparation is refused");
        }
    }

    /// Makes them what others are, in their own place.
    pub fn become_as(&mut self, others: &Tables) {
        self.directory.copy_from_slice(&others.directory);
        self.book.copy_from_slice(&others.book);
    }
}
