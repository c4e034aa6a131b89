//! Times three calls of `apply` over the same tables and messages in alternating rounds.

use crate::measure::median;
use crate::stretch::{Tables, Work};
use crate::workload::Messages;
use std::time::Instant;

/// The call that is measured: the number, both tables changed, all values and figures overwritten.
pub trait Apply: Fn(&mut [u64], &mut [u64], &[u8], &mut [u64; 18], &mut [u64; 10]) -> u8 {}
impl<F: Fn(&mut [u64], &mut [u64], &[u8], &mut [u64; 18], &mut [u64; 10]) -> u8> Apply for F {}

/// Nanoseconds per message, in the order of the calls; none if they ever differ.
///
/// The calls are three types, not a list, so that each is called directly.
pub fn measure(
    work: &Work,
    rounds: usize,
    calls: (impl Apply, impl Apply, impl Apply),
) -> Option<[f64; 3]> {
    let (one, two, three) = calls;
    let left = left_by(work, &one, &two)?;
    left_by(work, &one, &three)?;
    let mut space = vec![work.tables.clone(); work.at_once];
    let groups = work.stretches.len().div_ceil(work.at_once);
    let mut times = [(); 3].map(|()| vec![vec![]; groups]);
    for _ in 0..rounds {
        let [first, second, third] = &mut times;
        let sum = round(work, &left, &mut space, &one, first)?;
        if round(work, &left, &mut space, &two, second)? != sum
            || round(work, &left, &mut space, &three, third)? != sum
        {
            return None;
        }
    }
    // A median for each group of stretches: one that is interrupted spoils no other.
    let total = |times: Vec<Vec<f64>>| times.into_iter().map(median).sum::<f64>();
    Some(times.map(|times| total(times) / work.count() as f64))
}

/// The tables that each stretch leaves, if both calls answer alike, and as expected, after each message.
fn left_by(work: &Work, one: &impl Apply, two: &impl Apply) -> Option<Vec<Tables>> {
    let left_by_stretch = |messages: &Messages| {
        let (mut ours, mut theirs) = (work.tables.clone(), work.tables.clone());
        let same = messages.iter().all(|message| {
            let answer = answer_of(one, &mut ours, message, 1);
            answer.0 == work.answer
                && answer == answer_of(two, &mut theirs, message, 2)
                && ours == theirs
        });
        same.then_some(ours)
    };
    work.stretches.iter().map(left_by_stretch).collect()
}

/// The number, the values and the figures, over what was there.
fn answer_of(
    call: &impl Apply,
    tables: &mut Tables,
    message: &[u8],
    before: u64,
) -> (u8, [u64; 18], [u64; 10]) {
    let (mut out, mut figures) = ([before; 18], [before; 10]);
    let Tables { directory, book } = tables;
    let number = call(directory, book, message, &mut out, &mut figures);
    (number, out, figures)
}

/// A sum over the answers; the time of each group of stretches is added to its list.
fn round(
    work: &Work,
    left: &[Tables],
    space: &mut [Tables],
    call: &impl Apply,
    times: &mut [Vec<f64>],
) -> Option<u64> {
    let mut sum = 0;
    let groups = work.stretches.chunks(work.at_once);
    for ((stretches, left), times) in groups.zip(left.chunks(work.at_once)).zip(times) {
        for tables in space.iter_mut() {
            tables.become_as(&work.tables);
        }
        let start = Instant::now();
        for (tables, messages) in space.iter_mut().zip(stretches) {
            sum = run(call, tables, messages, sum);
        }
        times.push(start.elapsed().as_nanos() as f64);
        if !space.starts_with(left) {
            return None;
        }
    }
    Some(sum)
}

/// The sum keeps the answers from being left out.
#[inline(always)]
fn run(call: &impl Apply, tables: &mut Tables, messages: &Messages, mut sum: u64) -> u64 {
    let Tables { directory, book } = tables;
    let (mut out, mut figures) = ([0; 18], [0; 10]);
    for message in messages.iter() {
        let number = call(directory, book, message, &mut out, &mut figures);
        sum = sum.rotate_left(1) ^ u64::from(number) ^ out[4] ^ figures[3] ^ figures[4];
    }
    sum
}
