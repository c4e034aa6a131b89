//! The streams that replaying is measured on.

use crate::desk::Desk;
use std::fs::{create_dir_all, File};
use std::io::{self, BufWriter, Write};
use std::path::{Path, PathBuf};

/// Messages of a day, registrations and first orders included.
const MESSAGES: u64 = 2_000_000;

/// Slots of the replay's book.
const SLOTS: usize = 1_024;

/// A day as a file of blocks.
pub struct Day {
    pub path: PathBuf,
    pub messages: u64,
    pub bytes: u64,
}

impl Day {
    /// Writes a day on which about so many orders are live.
    pub fn written(live: usize) -> io::Result<Day> {
        let folder = Path::new(env!("CARGO_MANIFEST_DIR")).join("../target/days");
        create_dir_all(&folder)?;
        let path = folder.join(format!("{live}.itch"));
        let mut file = BufWriter::new(File::create(&path)?);
        let (mut desk, mut bytes) = (Desk::new(), 0);
        let mut opening = desk.registrations();
        opening.extend((0..live).map(|_| desk.add(b'A')));
        let mut opening = opening.into_iter();
        for _ in 0..MESSAGES {
            let message = match opening.next() {
                Some(message) => message,
                None => desk.any(live - live / 32, SLOTS.min(live + live / 32)),
            };
            file.write_all(&(message.len() as u16).to_be_bytes())?;
            file.write_all(&message)?;
            bytes += 2 + message.len() as u64;
        }
        file.flush()?;
        Ok(Day {
            path,
            messages: MESSAGES,
            bytes,
        })
    }
}
