//! Counts what the runs over the tables have met, and prints what differed.

use crate::applying::outcome::{Answer, Outcome};
use crate::reporting::{hex, shown, SHOWN};
use samples::LAYOUTS;

/// The counts of all runs over the tables.
pub struct ApplyCounts {
    /// Messages of each source, in the order of the run.
    sources: Vec<(&'static str, u64)>,
    /// How often each number was met.
    met: [u64; 15],
    /// Messages accepted, by their types.
    accepted: [u64; 256],
    /// Fresh calls by their numbers, 0 and 14.
    fresh: [u64; 15],
    mismatches: u64,
}

impl ApplyCounts {
    pub fn new() -> Self {
        ApplyCounts {
            sources: vec![],
            met: [0; 15],
            accepted: [0; 256],
            fresh: [0; 15],
            mismatches: 0,
        }
    }

    /// The messages from here on are of this source.
    pub fn source(&mut self, name: &'static str) {
        // Said beforehand, since a read or write out of bounds ends the program.
        eprintln!("comparing: {name}");
        self.sources.push((name, 0));
    }

    /// The source that was named last.
    pub fn current(&self) -> &'static str {
        self.sources.last().expect("a source is named first").0
    }

    /// Takes down a message that was applied.
    pub fn applied(&mut self, bytes: &[u8], outcome: &Outcome) {
        let number = outcome.expected.0;
        self.met[usize::from(number)] += 1;
        if number == 0 {
            self.accepted[usize::from(bytes[0])] += 1;
        }
        self.sources.last_mut().expect("a source is named first").1 += 1;
        if !outcome.is_same() {
            let start = &bytes[..bytes.len().min(64)];
            let call = format!("apply {} bytes {}", bytes.len(), hex(start));
            self.mismatch(&call, outcome);
        }
    }

    /// Takes down a fresh call.
    pub fn made_fresh(&mut self, outcome: &Outcome) {
        self.fresh[usize::from(outcome.expected.0)] += 1;
        if !outcome.is_same() {
            self.mismatch("fresh", outcome);
        }
    }

    fn mismatch(&mut self, call: &str, outcome: &Outcome) {
        self.mismatches += 1;
        if self.mismatches > SHOWN {
            return;
        }
        let source = self.current();
        let (directory, book) = outcome.lengths;
        println!("MISMATCH in {source}, directory of {directory}, book of {book}");
        println!("  {call}");
        println!("  expected {}", line(&outcome.expected));
        println!("  product  {}", line(&outcome.got));
        for (name, difference) in [("directory", outcome.directory), ("book", outcome.book)] {
            if let Some(difference) = difference {
                println!(
                    "  {name} differs first at number {}: expected {:016X}, product {:016X}",
                    difference.place, difference.expected, difference.got
                );
            }
        }
        if !outcome.input_kept {
            println!("  the product has changed the input");
        }
    }

    /// Prints the summary; true if all was met and nothing differed.
    pub fn finish(&self) -> bool {
        println!("messages applied by source (both whole tables compared after each):");
        for (name, count) in &self.sources {
            println!("  {count:>9}  {name}");
        }
        println!("  {:>9}  in all", self.messages());
        println!("messages accepted by type:");
        for layouts in LAYOUTS.chunks(8) {
            let counts = layouts.iter().map(|layout| layout.message_type);
            let counts =
                counts.map(|t| format!("{}: {}", t as char, self.accepted[usize::from(t)]));
            println!("  {}", counts.collect::<Vec<_>>().join("  "));
        }
        println!("fresh: {} made, {} refused", self.fresh[0], self.fresh[14]);
        println!("mismatches in the tables' runs: {}", self.mismatches);
        self.mismatches == 0 && self.all_met()
    }

    fn all_met(&self) -> bool {
        let types = LAYOUTS.iter().map(|layout| layout.message_type);
        types.into_iter().all(|t| self.accepted[usize::from(t)] > 0)
            && self.met.iter().all(|&count| count > 0)
            && self.fresh[0] > 0
            && self.fresh[14] > 0
    }

    pub fn messages(&self) -> u64 {
        self.sources.iter().map(|(_, count)| count).sum()
    }

    pub fn met(&self) -> &[u64] {
        &self.met
    }
}

fn line((number, out, figures): &Answer) -> String {
    format!("{number} {} figures {}", shown(out), shown(figures))
}
