//! The stored streams: each a file of blocks, and beside it the records that the second program
//! gives for it, never those of the product.

mod books;
mod ends;
mod program;
mod refusals;

pub use program::replay_program;

use std::path::PathBuf;

/// Orders that the book has room for.
const BOOK: u64 = 1_024;

/// A stream and the name of its files.
pub struct Stored {
    pub name: &'static str,
    pub stream: Vec<u8>,
}

/// All stored streams, always the same.
pub fn all() -> Vec<Stored> {
    let streams = [
        ("whole_case", ends::whole_case()),
        ("nothing", vec![]),
        ("empty_last", ends::empty_last()),
        ("no_body", ends::no_body()),
        ("cut_length", ends::cut_length()),
        ("cut_block", ends::cut_block()),
        ("cut_message", ends::cut_message()),
        ("cut_type", ends::cut_type()),
        ("long_blocks", ends::long_blocks()),
        ("refusals", refusals::refusals()),
        ("full", books::full()),
        ("levels", books::levels()),
        ("stocks", books::stocks()),
    ];
    let stored = streams.map(|(name, stream)| Stored { name, stream });
    stored.into()
}

impl Stored {
    pub fn stream_file(&self) -> PathBuf {
        folder().join(self.name).with_extension("itch")
    }

    pub fn records_file(&self) -> PathBuf {
        folder().join(self.name).with_extension("records")
    }

    /// What the second program tells of the stream.
    pub fn records(&self) -> Vec<u8> {
        let mut records = vec![];
        let done = second::replay::replay(&self.stream[..], &mut records);
        done.expect("memory is read and written without fail");
        records
    }
}

/// Where the streams are stored.
pub fn folder() -> PathBuf {
    [env!("CARGO_MANIFEST_DIR"), "..", "..", "streams"]
        .iter()
        .collect()
}
