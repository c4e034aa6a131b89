//! Memory with unmapped pages on both sides, so that a read or write beyond a part of it crashes.

use samples::Random;
use std::ffi::c_void;
use std::ptr::null_mut;

extern "C" {
    fn mmap(
        at: *mut c_void,
        len: usize,
        prot: i32,
        flags: i32,
        file: i32,
        offset: i64,
    ) -> *mut c_void;
    fn mprotect(at: *mut c_void, len: usize, prot: i32) -> i32;
}

// Linux's values.
const PROT_NONE: i32 = 0;
const PROT_READ_WRITE: i32 = 1 | 2;
const MAP_PRIVATE_ANONYMOUS: i32 = 0x02 | 0x20;

/// What memory holds before the product writes there, so that what it leaves out stays visible.
pub const PATTERN: u64 = 0xA5A5_A5A5_A5A5_A5A5;

/// A multiple of every usual page size.
const PAGE: usize = 0x1_0000;

/// The bytes between two unmapped stretches; they live as long as the program.
pub struct Guarded {
    start: *mut u8,
    size: usize,
}

/// Which unmapped stretch a part touches.
#[derive(Clone, Copy, Debug)]
pub enum Edge {
    /// The part begins right after unmapped bytes.
    Front,
    /// The part ends right before unmapped bytes.
    Back,
}

impl Edge {
    /// One of the two, by chance.
    pub fn any(random: &mut Random) -> Self {
        *random.one_of(&[Edge::Front, Edge::Back])
    }
}

impl Guarded {
    /// Room for at least that many bytes.
    pub fn new(room: usize) -> Self {
        let size = room.next_multiple_of(PAGE);
        // SAFETY: a fresh mapping touches no other memory; the inner part is made usable after it.
        unsafe {
            let whole = mmap(
                null_mut(),
                size + 2 * PAGE,
                PROT_NONE,
                MAP_PRIVATE_ANONYMOUS,
                -1,
                0,
            );
            assert!(whole as isize != -1, "no memory mapped");
            let start = whole.cast::<u8>().add(PAGE);
            assert_eq!(
                mprotect(start.cast(), size, PROT_READ_WRITE),
                0,
                "no memory opened"
            );
            Guarded { start, size }
        }
    }

    /// A part of that many bytes at one of the edges.
    pub fn part(&mut self, len: usize, edge: Edge) -> &mut [u8] {
        assert!(len <= self.size);
        let offset = match edge {
            Edge::Front => 0,
            Edge::Back => self.size - len,
        };
        // SAFETY: the part lies inside the usable bytes, which `self` alone gives out.
        unsafe { std::slice::from_raw_parts_mut(self.start.add(offset), len) }
    }

    /// That many numbers at one of the edges.
    pub fn slice(&mut self, len: usize, edge: Edge) -> &mut [u64] {
        let part = self.part(len * size_of::<u64>(), edge);
        // SAFETY: both edges lie on a page, so the part is aligned; any bytes are numbers.
        unsafe { std::slice::from_raw_parts_mut(part.as_mut_ptr().cast(), len) }
    }

    /// The same for a count that is always the same.
    pub fn numbers<const N: usize>(&mut self, edge: Edge) -> &mut [u64; N] {
        let part = self.slice(N, edge);
        part.try_into().expect("that many numbers")
    }
}

#[cfg(test)]
mod tests {
    use super::{Edge, Guarded, PAGE};

    #[test]
    fn parts_touch_their_edge() {
        let mut guarded = Guarded::new(PAGE - 1);
        let start = guarded.part(0, Edge::Front).as_ptr() as usize;
        assert_eq!(start % 4096, 0);
        for len in [0, 1, 50, PAGE] {
            assert_eq!(guarded.part(len, Edge::Front).as_ptr() as usize, start);
            let back = guarded.part(len, Edge::Back);
            assert_eq!(back.as_ptr() as usize + len, start + PAGE);
            back.fill(1);
        }
        guarded.numbers::<18>(Edge::Back)[17] = u64::MAX;
        assert_eq!(guarded.part(8, Edge::Back), [0xFF; 8]);
        for len in [0, 1, 257, PAGE / 8] {
            assert_eq!(guarded.slice(len, Edge::Front).as_ptr() as usize, start);
            let back = guarded.slice(len, Edge::Back);
            assert_eq!(back.as_ptr() as usize + 8 * len, start + PAGE);
            back.fill(2);
        }
    }
}
