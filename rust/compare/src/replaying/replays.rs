//! Runs streams through all three and holds the replay program to the other two.

use crate::replaying::by_c_calls::ReplayByCalls;
use crate::replaying::counts::ReplayCounts;
use crate::replaying::feed::Feed;
use crate::replaying::one_stream::{run, Run};
use crate::replaying::program::{ends_unheard, tells_at_once};
use crate::replaying::records::record_difference;
use samples::Random;
use std::io;
use std::path::{Path, PathBuf};

/// The replay program, what it is held to, and the counts.
pub struct Replays {
    program: PathBuf,
    calls: ReplayByCalls,
    pub counts: ReplayCounts,
    /// It had to be stopped; no more streams are run, since each would be waited for.
    hangs: bool,
}

impl Replays {
    pub fn new(program: &Path) -> Self {
        Replays {
            program: program.into(),
            calls: ReplayByCalls::new(),
            counts: ReplayCounts::new(),
            hangs: false,
        }
    }

    /// Sees that the program tells refusals as they happen, and ends where it can tell nothing.
    pub fn manners(&mut self) -> io::Result<()> {
        if !tells_at_once(&self.program)? {
            self.counts.mismatch("a refusal is not told as it happens");
        }
        if !ends_unheard(&self.program)? {
            self.counts
                .mismatch("it goes on, though nothing can be written");
        }
        Ok(())
    }

    /// Runs a stream and compares what the three have written; answers what the program has.
    pub fn run(
        &mut self,
        random: &mut Random,
        make: impl FnOnce(&mut Feed, &mut Random),
    ) -> io::Result<Vec<u8>> {
        if self.hangs {
            return Ok(vec![]);
        }
        let Run {
            program,
            second,
            calls,
            status,
        } = run(&self.program, &mut self.calls, random, make)?;
        self.counts.replayed(&second);
        match status {
            None => {
                self.counts.mismatch("it does not end");
                self.hangs = true;
            }
            Some(status) if !status.success() => self.counts.mismatch(&format!("{status}")),
            Some(_) => {}
        }
        self.expect("the second program's records", &second, &program);
        self.expect("the records by the C header", &calls, &program);
        Ok(program)
    }

    /// Holds what the program has written to what it should have.
    pub fn expect(&mut self, what: &str, expected: &[u8], program: &[u8]) {
        if let Some(difference) = record_difference(expected, program) {
            self.counts
                .mismatch(&format!("beside {what}, {difference}"));
        }
    }
}
