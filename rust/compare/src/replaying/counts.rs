//! Counts what was met in the streams, and prints what differed.

use crate::replaying::records::records;
use crate::reporting::SHOWN;

/// What one source of streams came to.
struct Source {
    name: &'static str,
    streams: u64,
    messages: u64,
    records: u64,
}

/// The counts of all streams.
pub struct ReplayCounts {
    sources: Vec<Source>,
    /// How often each number was met.
    met: [u64; 15],
    levels: u64,
    mismatches: u64,
}

impl ReplayCounts {
    pub fn new() -> Self {
        ReplayCounts {
            sources: vec![],
            met: [0; 15],
            levels: 0,
            mismatches: 0,
        }
    }

    /// The streams from here on are of this source.
    pub fn source(&mut self, name: &'static str) {
        eprintln!("comparing: {name}");
        self.sources.push(Source {
            name,
            streams: 0,
            messages: 0,
            records: 0,
        });
    }

    /// Takes down a stream by the records that were expected of it.
    pub fn replayed(&mut self, written: &[u8]) {
        let source = self.sources.last_mut().expect("a source is named first");
        source.streams += 1;
        for record in records(written) {
            source.records += 1;
            match record {
                [b'r', .., number] => self.met[usize::from(*number)] += 1,
                [b'z', counts @ ..] => {
                    let count = |bytes: &[u8]| u64::from_be_bytes(bytes.try_into().expect("8"));
                    let (messages, refused) = (count(&counts[..8]), count(&counts[8..]));
                    source.messages += messages;
                    self.met[0] += messages - refused;
                }
                _ => self.levels += 1,
            }
        }
    }

    pub fn mismatch(&mut self, what: &str) {
        self.mismatches += 1;
        if self.mismatches <= SHOWN {
            let source = self.sources.last().expect("a source is named first");
            println!("MISMATCH in {}, stream {}", source.name, source.streams);
            println!("  {what}");
        }
    }

    /// Prints the summary; true if all was met and nothing differed.
    pub fn finish(&self) -> bool {
        println!("messages replayed by source, records written, streams:");
        for source in self.sources.iter().filter(|source| source.streams > 0) {
            println!(
                "  {:>9} {:>9} {:>6}  {}",
                source.messages, source.records, source.streams, source.name
            );
        }
        println!("  {:>9}  in all", self.messages());
        println!("levels among the records: {}", self.levels);
        println!("mismatches in the replays: {}", self.mismatches);
        self.mismatches == 0 && self.met().iter().all(|&count| count > 0)
    }

    pub fn messages(&self) -> u64 {
        self.sources.iter().map(|source| source.messages).sum()
    }

    /// Up to 12: the tables are of the paper's sizes and reached from fresh, so that 13 and 14 cannot
    /// be met.
    pub fn met(&self) -> &[u64] {
        &self.met[..13]
    }
}
