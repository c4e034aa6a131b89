//! The replay program: a stream of blocks in, the refusals and at the end the levels out.
//!
//! It reads messages as the rest of this program does, but keeps its own stocks and orders: no
//! slots, only what a message can name, so that it is a check of the tables too.

mod blocks;
mod market;
mod records;

use crate::{message_of, LENGTH};
use blocks::Blocks;
use market::Market;
use records::Records;
use std::io::{self, Read, Write};

/// Replays blocks of a 2-byte big-endian length and that many bytes, to the end of the input.
pub fn replay(mut input: impl Read, mut output: impl Write) -> io::Result<()> {
    let mut blocks = Blocks::new();
    let mut market = Market::new();
    let mut records = Records::new();
    loop {
        while let Some(block) = blocks.next() {
            records.message(message_of(block).and_then(|message| market.step(&message)));
        }
        // A refusal is told as it happens, so none may wait for the input.
        records.hand_on(&mut output)?;
        if !blocks.fill(&mut input)? {
            break;
        }
    }
    if blocks.is_cut() {
        records.message(Err(LENGTH));
    }
    records.levels(&market.levels());
    records.counts();
    records.hand_on(&mut output)
}
