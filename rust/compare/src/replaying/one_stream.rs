//! One stream through the replay program, the second program and the C header, while it is made.

use crate::replaying::by_c_calls::ReplayByCalls;
use crate::replaying::feed::{write, Chunks, Feed};
use crate::replaying::program::{ended, piped};
use samples::Random;
use std::io::{self, Read};
use std::path::Path;
use std::process::ExitStatus;
use std::thread;
use std::time::Duration;

/// No stream takes longer, unless the program hangs.
const PATIENCE: Duration = Duration::from_secs(300);

/// What the three have written.
pub struct Run {
    pub program: Vec<u8>,
    pub second: Vec<u8>,
    pub calls: Vec<u8>,
    /// How the program ended; none if it had to be stopped.
    pub status: Option<ExitStatus>,
}

/// Runs the stream that `make` feeds.
pub fn run(
    program: &Path,
    calls: &mut ReplayByCalls,
    random: &mut Random,
    make: impl FnOnce(&mut Feed, &mut Random),
) -> io::Result<Run> {
    let (mut child, input, output) = piped(program)?;
    let pieces = Random::new(random.number());
    calls.begin();
    let (mut feed, for_program, for_second) = Feed::new(calls);
    thread::scope(|scope| {
        scope.spawn(|| write(input, for_program, pieces));
        let written = scope.spawn(|| all(output));
        let second = scope.spawn(|| second_records(Chunks::new(for_second)));
        let status = scope.spawn(|| ended(&mut child, PATIENCE));
        make(&mut feed, random);
        Ok(Run {
            calls: feed.end(),
            second: second.join().expect("the second program ends")?,
            program: written.join().expect("the reader ends")?,
            status: status.join().expect("the watch ends")?,
        })
    })
}

fn all(mut output: impl Read) -> io::Result<Vec<u8>> {
    let mut bytes = vec![];
    output.read_to_end(&mut bytes)?;
    Ok(bytes)
}

fn second_records(input: Chunks) -> io::Result<Vec<u8>> {
    let mut records = vec![];
    second::replay::replay(input, &mut records)?;
    Ok(records)
}
