//! The book: its map, its slots in groups of one map number, the search and the lowest free slot.

/// Four numbers a slot, 64 slots a map number.
pub type Group = [[u64; 4]; 64];

/// A lent book of a good length; EIGHTS says how a reference is searched for.
pub struct Book<'a, const EIGHTS: bool> {
    map: &'a mut [u64],
    groups: &'a mut [Group],
}

/// A slot by its map number and its bit there.
#[derive(Clone, Copy)]
pub struct Slot {
    pub group: usize,
    pub bit: usize,
}

impl<'a, const EIGHTS: bool> Book<'a, EIGHTS> {
    /// None if no book has that many numbers.
    #[inline(always)]
    pub fn lent(numbers: &'a mut [u64]) -> Option<Self> {
        let (map, slots) = numbers.split_at_mut(words(numbers.len())?);
        let groups = slots.as_chunks_mut::<4>().0.as_chunks_mut::<64>().0;
        Some(Book { map, groups })
    }

    /// The lowest live slot that holds the reference.
    #[inline(always)]
    pub fn find(&self, reference: u64) -> Option<Slot> {
        find::<EIGHTS>(self.map, self.groups, reference)
    }

    /// The lowest free slot, tried slot by slot.
    #[inline]
    pub fn lowest_free(&self) -> Option<Slot> {
        for (group, &live) in self.map.iter().enumerate() {
            let mut rest = live;
            for bit in 0..64 {
                if rest & 1 == 0 {
                    return Some(Slot { group, bit });
                }
                rest >>= 1;
            }
        }
        None
    }

    #[inline(always)]
    pub fn slot(&mut self, slot: Slot) -> &mut [u64; 4] {
        &mut self.groups[slot.group][slot.bit]
    }

    #[inline(always)]
    pub fn put(&mut self, slot: Slot, numbers: [u64; 4]) {
        self.map[slot.group] |= 1 << slot.bit;
        *self.slot(slot) = numbers;
    }

    #[inline(always)]
    pub fn clear(&mut self, slot: Slot) {
        self.map[slot.group] &= !(1 << slot.bit);
        *self.slot(slot) = [0; 4];
    }
}

/// The map and the groups of a book that is only read; none if no book has that many numbers.
#[inline(always)]
pub fn parts(numbers: &[u64]) -> Option<(&[u64], &[Group])> {
    let (map, slots) = numbers.split_at(words(numbers.len())?);
    Some((map, slots.as_chunks::<4>().0.as_chunks::<64>().0))
}

/// Map numbers of a book of that many numbers.
#[inline(always)]
fn words(length: usize) -> Option<usize> {
    let words = length / 257;
    (length.is_multiple_of(257) && words != 0 && words <= 64).then_some(words)
}

/// The lowest live slot that holds the reference.
#[inline]
pub fn find<const EIGHTS: bool>(map: &[u64], groups: &[Group], reference: u64) -> Option<Slot> {
    for (group, (&live, slots)) in map.iter().zip(groups).enumerate() {
        let bit = if EIGHTS && dense(live) {
            by_eights(live, slots, reference)
        } else {
            by_bits(live, slots, reference)
        };
        if let Some(bit) = bit {
            return Some(Slot { group, bit });
        }
    }
    None
}

/// From live slot to live slot.
#[inline(always)]
fn by_bits(mut live: u64, slots: &Group, reference: u64) -> Option<usize> {
    while live != 0 {
        let bit = live.trailing_zeros() as usize;
        if slots[bit][0] == reference {
            return Some(bit);
        }
        live &= live - 1;
    }
    None
}

/// Enough live slots that passing over the free ones does not pay.
#[inline(always)]
fn dense(live: u64) -> bool {
    let quarter = live & (live >> 32);
    quarter & (quarter >> 16) != 0
}

/// Eight slots at a time, live or not; where one of them holds the reference, slot by slot from there.
#[inline(always)]
fn by_eights(live: u64, slots: &Group, reference: u64) -> Option<usize> {
    let eights = slots.as_chunks::<8>().0;
    let held = |eight: &[[u64; 4]; 8]| eight.iter().any(|slot| slot[0] == reference);
    let start = 8 * eights.iter().position(held)?;
    (start..64).find(|&bit| slots[bit][0] == reference && live >> bit & 1 == 1)
}
