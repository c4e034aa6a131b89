//! A stream on its way, block by block, to the replay program, the second program and the C header.

use crate::replaying::by_c_calls::ReplayByCalls;
use samples::Random;
use std::io::{self, Read, Write};
use std::sync::mpsc::{sync_channel, Receiver, SyncSender};
use std::sync::Arc;
use std::thread::sleep;
use std::time::Duration;

/// A part of a stream; both programs get the same.
pub type Chunk = Arc<[u8]>;

/// Bytes of a chunk at least, and chunks that may wait.
const CHUNK: usize = 1 << 16;
const WAITING: usize = 8;

/// The pieces written at one go have from 1 to one of these bytes.
const PIECES: [usize; 7] = [1, 2, 8, 64, 500, 4_000, 100_000];

/// After one of so many pieces there is a pause, in which it is read alone.
const PAUSED: u64 = 4;
const PAUSE: Duration = Duration::from_micros(50);

/// Where the blocks of a stream go.
pub struct Feed<'a> {
    calls: &'a mut ReplayByCalls,
    chunk: Vec<u8>,
    programs: [SyncSender<Chunk>; 2],
}

impl<'a> Feed<'a> {
    /// The feed, and where the two programs get its chunks.
    pub fn new(calls: &'a mut ReplayByCalls) -> (Self, Receiver<Chunk>, Receiver<Chunk>) {
        let (to_program, for_program) = sync_channel(WAITING);
        let (to_second, for_second) = sync_channel(WAITING);
        let feed = Feed {
            calls,
            chunk: vec![],
            programs: [to_program, to_second],
        };
        (feed, for_program, for_second)
    }

    /// A whole block; answers the number that the C header gives it.
    pub fn block(&mut self, bytes: &[u8]) -> u8 {
        self.push(bytes.len(), bytes);
        self.calls.block(bytes)
    }

    /// A last block with fewer bytes than its length says.
    pub fn cut_block(&mut self, length: usize, bytes: &[u8]) {
        self.push(length, bytes);
        self.calls.cut();
    }

    /// Half a length, the last byte of a stream.
    pub fn half_length(&mut self, byte: u8) {
        self.chunk.push(byte);
        self.calls.cut();
    }

    /// The stream's end; answers the records by the C header.
    pub fn end(mut self) -> Vec<u8> {
        self.send();
        let Feed {
            calls, programs, ..
        } = self;
        // Without senders both inputs end, so that the programs go on at once.
        drop(programs);
        calls.finish()
    }

    fn push(&mut self, length: usize, bytes: &[u8]) {
        let length = u16::try_from(length).expect("a block's length has 2 bytes");
        self.chunk.extend(length.to_be_bytes());
        self.chunk.extend(bytes);
        if self.chunk.len() >= CHUNK {
            self.send();
        }
    }

    fn send(&mut self) {
        let chunk: Chunk = std::mem::take(&mut self.chunk).into();
        for program in &self.programs {
            // One that has ended before its input takes no more, and its records show it.
            let _ = program.send(chunk.clone());
        }
    }
}

/// Writes in pieces of random sizes, as long as they are taken.
pub fn write(mut input: impl Write, chunks: Receiver<Chunk>, mut random: Random) {
    for chunk in chunks {
        let mut rest = &chunk[..];
        while !rest.is_empty() {
            let most = *random.one_of(&PIECES);
            let piece = rest.len().min(1 + random.place(most));
            if input.write_all(&rest[..piece]).is_err() {
                return;
            }
            rest = &rest[piece..];
            if random.below(PAUSED) == 0 {
                sleep(PAUSE);
            }
        }
    }
}

/// Chunks as one input.
pub struct Chunks {
    chunks: Receiver<Chunk>,
    chunk: Chunk,
    place: usize,
}

impl Chunks {
    pub fn new(chunks: Receiver<Chunk>) -> Self {
        Chunks {
            chunks,
            chunk: [].into(),
            place: 0,
        }
    }
}

impl Read for Chunks {
    fn read(&mut self, part: &mut [u8]) -> io::Result<usize> {
        while self.place == self.chunk.len() {
            match self.chunks.recv() {
                Ok(chunk) => (self.chunk, self.place) = (chunk, 0),
                Err(_) => return Ok(0),
            }
        }
        let count = part.len().min(self.chunk.len() - self.place);
        part[..count].copy_from_slice(&self.chunk[self.place..self.place + count]);
        self.place += count;
        Ok(count)
    }
}
