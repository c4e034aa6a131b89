//! Counts what the reading has met, and prints what differed.

use crate::memory::Edge;
use crate::reporting::{hex, shown, SHOWN};

/// A reader's answer: the number and the values.
pub type Numbers = (u8, [u64; 18]);

/// The counts of all messages read.
pub struct ReadCounts {
    /// Messages of each source, in the order of the run.
    sources: Vec<(&'static str, u64)>,
    /// How often each number was met.
    met: [u64; 7],
    /// Whether a message of the type was accepted.
    accepted: [bool; 256],
    mismatches: u64,
}

impl ReadCounts {
    pub fn new() -> Self {
        ReadCounts {
            sources: vec![],
            met: [0; 7],
            accepted: [false; 256],
            mismatches: 0,
        }
    }

    /// The messages from here on are of this source.
    pub fn source(&mut self, name: &'static str) {
        // Said beforehand, since a read out of bounds ends the program.
        eprintln!("comparing: {name}");
        self.sources.push((name, 0));
    }

    /// Takes down a message and its number.
    pub fn read(&mut self, message: &[u8], number: u8) {
        self.met[usize::from(number)] += 1;
        self.accepted[usize::from(message.first().copied().unwrap_or(0))] |= number == 0;
        self.sources.last_mut().expect("a source is named first").1 += 1;
    }

    pub fn mismatch(
        &mut self,
        message: &[u8],
        edge: Edge,
        expected: Numbers,
        got: Numbers,
        kept: bool,
    ) {
        self.mismatches += 1;
        if self.mismatches > SHOWN {
            return;
        }
        let (source, _) = self.sources.last().expect("a source is named first");
        println!(
            "MISMATCH in {source}, {} bytes, placed at {edge:?}",
            message.len()
        );
        println!("  input    {}", hex(&message[..message.len().min(64)]));
        println!("  expected {} {}", expected.0, shown(&expected.1));
        println!("  product  {} {}", got.0, shown(&got.1));
        if !kept {
            println!("  the product has changed the input");
        }
    }

    /// Prints the summary; true if all was met and nothing differed.
    pub fn finish(&self) -> bool {
        println!("inputs by source (each asked twice, against unmapped bytes behind and before):");
        for (name, count) in &self.sources {
            println!("  {count:>9}  {name}");
        }
        println!("  {:>9}  in all", self.messages());
        let types = self.accepted.iter().filter(|&&accepted| accepted).count();
        println!("types accepted at least once: {types} of 23");
        println!("mismatches in the reading: {}", self.mismatches);
        self.mismatches == 0 && types == 23 && self.met.iter().all(|&count| count > 0)
    }

    pub fn messages(&self) -> u64 {
        self.sources.iter().map(|(_, count)| count).sum()
    }

    pub fn met(&self) -> &[u64] {
        &self.met
    }
}
