//! Times three readers over the same messages in alternating rounds.

use crate::workload::{Workload, MESSAGES};
use std::time::Instant;

/// The call that is measured: the number, and all 18 values overwritten.
pub trait Reader: Fn(&[u8], &mut [u64; 18]) -> u8 {}
impl<F: Fn(&[u8], &mut [u64; 18]) -> u8> Reader for F {}

/// Medians in nanoseconds per message, in the order of the readers; none if they ever differ.
///
/// The readers are three types, not a list, so that each is called directly.
pub fn measure(
    work: &Workload,
    rounds: usize,
    readers: (impl Reader, impl Reader, impl Reader),
) -> Option<[f64; 3]> {
    let (one, two, three) = readers;
    if !same_answers(work, &one, &two) || !same_answers(work, &one, &three) {
        return None;
    }
    let mut times: [Vec<f64>; 3] = Default::default();
    for _ in 0..rounds {
        let turns = [round(work, &one), round(work, &two), round(work, &three)];
        if turns.iter().any(|(_, sum)| *sum != turns[0].1) {
            return None;
        }
        for (times, (time, _)) in times.iter_mut().zip(turns) {
            times.push(time);
        }
    }
    Some(times.map(median))
}

fn same_answers(work: &Workload, one: &impl Reader, two: &impl Reader) -> bool {
    work.messages.iter().all(|message| {
        let (mut ours, mut theirs) = ([1; 18], [2; 18]);
        one(message, &mut ours) == two(message, &mut theirs) && ours == theirs
    })
}

/// Nanoseconds per message, and a sum over the answers that keeps them from being left out.
fn round(work: &Workload, reader: &impl Reader) -> (f64, u64) {
    let mut sum = 0u64;
    let mut out = [0; 18];
    let start = Instant::now();
    for message in work.messages.iter() {
        let number = reader(message, &mut out);
        sum = sum.rotate_left(1) ^ u64::from(number) ^ out[3] ^ out[4];
    }
    let time = start.elapsed();
    (time.as_nanos() as f64 / MESSAGES as f64, sum)
}

pub fn median(mut times: Vec<f64>) -> f64 {
    times.sort_by(f64::total_cmp);
    times[times.len() / 2]
}

#[cfg(test)]
mod tests {
    #[test]
    fn the_median_is_the_middle_one() {
        assert_eq!(super::median(vec![9.0, 1.0, 3.0, 2.0, 8.0]), 3.0);
    }
}
