//! Streams replayed: the replay program's bytes held to the second program's, and to those that the
//! calls of the C header come to.

mod by_c_calls;
mod counts;
mod feed;
mod fixed_streams;
mod hostile_blocks;
mod one_stream;
mod program;
mod random_streams;
mod records;
mod replays;

use counts::ReplayCounts;
use random_streams::{random_stream, Ending, ENDINGS, STREAM_KINDS};
use replays::Replays;
use samples::Random;
use std::io;
use std::path::Path;

const SEED: u64 = 0x7265_706C_6179_2121;

/// Messages of the short streams: each ends with all its levels.
const SHORT_STREAMS: [u64; 5] = [1, 10, 100, 400, 2_000];

/// Short streams come again after so many messages.
const SHORT_AGAIN: u64 = 150_000;

/// Messages of a long stream, at most.
const LONGEST_STREAM: u64 = 500_000;

/// At least that many messages.
pub fn replaying(program: &Path, count: u64) -> io::Result<ReplayCounts> {
    let mut replays = Replays::new(program);
    let mut random = Random::new(SEED);
    replays
        .counts
        .source("replay: refusals as they happen, and an output that takes nothing");
    replays.manners()?;
    replays
        .counts
        .source("replay: the whole case, and small streams");
    let whole = replays.run(&mut random, |feed, _| fixed_streams::whole_case(feed))?;
    replays.expect("the paper's whole case", &fixed_streams::WHOLE_CASE, &whole);
    for small in fixed_streams::SMALL {
        replays.run(&mut random, |feed, _| small(feed))?;
    }
    let each = count / STREAM_KINDS.len() as u64;
    let rounds = count.div_ceil(SHORT_AGAIN);
    for kind in &STREAM_KINDS {
        replays.counts.source(kind.name);
        for (messages, ending) in stream_lengths(each, rounds) {
            replays.run(&mut random, |feed, random| {
                random_stream(feed, kind, messages, ending, random);
            })?;
        }
    }
    Ok(replays.counts)
}

/// Rounds of short streams, then long ones, at least that many messages together.
fn stream_lengths(count: u64, rounds: u64) -> Vec<(u64, Ending)> {
    let mut lengths = vec![];
    for _ in 0..rounds {
        let crossed = SHORT_STREAMS.map(|messages| ENDINGS.map(|ending| (messages, ending)));
        lengths.extend(crossed.as_flattened());
    }
    let short: u64 = lengths.iter().map(|(messages, _)| messages).sum();
    let mut left = count.saturating_sub(short);
    for ending in ENDINGS.iter().cycle() {
        if left == 0 {
            break;
        }
        let messages = left.min(LONGEST_STREAM);
        left -= messages;
        lengths.push((messages, *ending));
    }
    lengths
}
