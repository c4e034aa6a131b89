//! Random streams: how each kind of them goes, and how it ends.

use crate::replaying::by_c_calls::DIRECTORY;
use crate::replaying::feed::Feed;
use crate::replaying::hostile_blocks::hostile_block;
use samples::{random_text, sample_with, Flow, Random};

/// After so many messages the flow strives for another number of live orders.
const SPELL: u64 = 500;

/// At most one of so many messages is spent on registering the stocks.
const REGISTERED: u64 = 8;

/// How a stream goes.
pub struct StreamKind {
    pub name: &'static str,
    /// Stocks registered at the beginning, if the stream is long enough.
    stocks: usize,
    /// Around so many orders are live.
    live: usize,
    /// Of a thousand blocks, so many are changed or made up.
    hostile: u64,
}

pub const STREAM_KINDS: [StreamKind; 5] = [
    StreamKind {
        name: "replay: 2,047 stocks, some 100 live orders",
        stocks: 2_047,
        live: 100,
        hostile: 1,
    },
    StreamKind {
        name: "replay: 2,047 stocks, some 900 live orders",
        stocks: 2_047,
        live: 900,
        hostile: 1,
    },
    StreamKind {
        name: "replay: 5 stocks, some 600 live orders",
        stocks: 5,
        live: 600,
        hostile: 1,
    },
    StreamKind {
        name: "replay: 200 stocks, a full book",
        stocks: 200,
        live: 1_024,
        hostile: 50,
    },
    StreamKind {
        name: "replay: hostile blocks",
        stocks: 40,
        live: 300,
        hostile: 700,
    },
];

/// How a stream ends.
#[derive(Clone, Copy)]
pub enum Ending {
    Whole,
    CutBlock,
    HalfLength,
}

pub const ENDINGS: [Ending; 3] = [Ending::Whole, Ending::CutBlock, Ending::HalfLength];

/// Feeds a stream of that many messages; the ending may be one more.
pub fn random_stream(
    feed: &mut Feed,
    kind: &StreamKind,
    messages: u64,
    ending: Ending,
    random: &mut Random,
) {
    let mut flow = Flow::new(DIRECTORY, kind.live);
    let stocks = kind.stocks.min(1 + (messages / REGISTERED) as usize);
    let mut unregistered = locates(stocks, random);
    let mut filling = true;
    for turn in 0..messages {
        filling &= turn < messages / 2 && flow.orders.len() < kind.live;
        let block = match unregistered.pop() {
            Some(locate) => registration(locate, random),
            None if filling => addition(&mut flow, random),
            None => {
                if turn % SPELL == 0 {
                    flow.wanted = wanted(kind.live, random);
                }
                next(&mut flow, kind, random)
            }
        };
        if feed.block(&block) == 0 {
            flow.learn(&block);
        }
    }
    end(feed, &mut flow, ending, random);
}

/// That many of the locates: the first, the last, then any.
fn locates(count: usize, random: &mut Random) -> Vec<u16> {
    let mut locates: Vec<u16> = (1..DIRECTORY as u16).collect();
    locates.swap(1, DIRECTORY - 2);
    for place in 2..locates.len() {
        let other = place + random.place(locates.len() - place);
        locates.swap(place, other);
    }
    locates.truncate(count);
    locates
}

fn registration(locate: u16, random: &mut Random) -> Vec<u8> {
    let stock = ("Stock", random_text(8, random));
    sample_with(b'R', &[("Stock Locate", locate.into()), stock])
}

/// The flow's next A or F; where there is no stock, what the flow begins with.
fn addition(flow: &mut Flow, random: &mut Random) -> Vec<u8> {
    loop {
        let message = flow.message(random);
        if b"AF".contains(&message[0]) || flow.stocks.is_empty() {
            return message;
        }
    }
}

/// A sixteenth more or fewer; at times far fewer.
fn wanted(live: usize, random: &mut Random) -> usize {
    match random.below(16) {
        0 => random.place(live),
        _ => live - live / 16 + random.place(live / 8 + 1),
    }
}

fn next(flow: &mut Flow, kind: &StreamKind, random: &mut Random) -> Vec<u8> {
    let message = flow.message(random);
    match random.below(1_000) < kind.hostile {
        true => hostile_block(message, flow, random),
        false => message,
    }
}

fn end(feed: &mut Feed, flow: &mut Flow, ending: Ending, random: &mut Random) {
    match ending {
        Ending::Whole => {}
        Ending::CutBlock => cut_block(feed, flow, random),
        Ending::HalfLength => feed.half_length(*random.one_of(&[0, 0, 1, 0xFF])),
    }
}

/// An order that would show in the levels, were it taken for whole.
fn cut_block(feed: &mut Feed, flow: &mut Flow, random: &mut Random) {
    let mut message = addition(flow, random);
    let length = message.len();
    match random.below(4) {
        0 => feed.cut_block(length + 1 + random.place(100), &message),
        1 => feed.cut_block(length, &[]),
        2 => {
            message.resize(length + random.place(0xFFFF - length), b' ');
            feed.cut_block(0xFFFF, &message);
        }
        _ => feed.cut_block(length, &message[..random.place(length)]),
    }
}
