//! The messages that are measured.

use samples::{random_message, spoil, Layout, Random, Rule, LAYOUTS};
use std::ops::Range;

/// Messages in one workload; enough that no branch predictor learns their order.
pub const MESSAGES: usize = 1 << 17;

const SEED: u64 = 0x6D6F_7373;

/// A real day's mix, in hundredths.
const DAY: [(u8, u64); 8] = [
    (b'A', 42),
    (b'D', 38),
    (b'U', 8),
    (b'E', 5),
    (b'X', 3),
    (b'F', 2),
    (b'C', 1),
    (b'P', 1),
];

/// Messages one after the other in one buffer.
pub struct Messages {
    bytes: Vec<u8>,
    parts: Vec<Range<usize>>,
}

impl Messages {
    pub fn new(count: usize, mut next: impl FnMut() -> Vec<u8>) -> Self {
        let (mut bytes, mut parts) = (vec![], vec![]);
        for _ in 0..count {
            let start = bytes.len();
            bytes.extend(next());
            parts.push(start..bytes.len());
        }
        Messages { bytes, parts }
    }

    pub fn count(&self) -> usize {
        self.parts.len()
    }

    pub fn iter(&self) -> impl Iterator<Item = &[u8]> {
        self.parts.iter().map(|part| &self.bytes[part.clone()])
    }
}

pub struct Workload {
    pub name: String,
    pub messages: Messages,
}

impl Workload {
    fn new(name: String, next: impl FnMut() -> Vec<u8>) -> Self {
        let messages = Messages::new(MESSAGES, next);
        Workload { name, messages }
    }
}

/// The mix, then each type alone, then each refusal alone.
pub fn workloads() -> impl Iterator<Item = Workload> {
    let mix = std::iter::once_with(day);
    mix.chain(LAYOUTS.iter().map(one_type))
        .chain((1..=6).map(refused))
}

fn day() -> Workload {
    let mut random = Random::new(SEED);
    Workload::new("mix of a day".into(), || {
        let layout = Layout::of(drawn(&DAY, random.below(100))).expect("one of the 23");
        usual(layout, &mut random)
    })
}

/// The type that a number below 100 falls to.
pub fn drawn(mix: &[(u8, u64)], mut lot: u64) -> u8 {
    for &(message_type, share) in mix {
        if lot < share {
            return message_type;
        }
        lot -= share;
    }
    unreachable!("the shares make 100")
}

fn one_type(layout: &Layout) -> Workload {
    let mut random = Random::new(SEED);
    let name = format!("type {} alone", char::from(layout.message_type));
    Workload::new(name, || usual(layout, &mut random))
}

fn refused(number: u8) -> Workload {
    let mut random = Random::new(SEED);
    let names = ["LENGTH", "TYPE", "TIME", "FIELD", "PRICE", "SHARES"];
    let name = format!("refused {number} {}", names[usize::from(number) - 1]);
    Workload::new(name, || loop {
        let layout = random.one_of(&LAYOUTS);
        let mut message = usual(layout, &mut random);
        if spoil(layout, number, &mut message, &mut random) {
            return message;
        }
    })
}

/// A well-formed message whose texts look like symbols: 1 to 5 letters, mostly 3 or 4.
pub fn usual(layout: &Layout, random: &mut Random) -> Vec<u8> {
    let mut message = random_message(layout, random);
    for field in layout.fields().filter(|field| field.rule == Rule::Text) {
        let letters = *random.one_of(&[1, 2, 3, 3, 3, 4, 4, 4, 4, 5]);
        let text = &mut message[field.offset..field.offset + field.width];
        text.fill(b' ');
        for byte in text.iter_mut().take(letters) {
            *byte = b'A' + random.place(26) as u8;
        }
    }
    message
}

#[cfg(test)]
mod tests {
    use super::{drawn, DAY};

    #[test]
    fn every_lot_is_drawn_by_share() {
        for (message_type, share) in DAY {
            let lots = (0..100).filter(|&lot| drawn(&DAY, lot) == message_type);
            assert_eq!(lots.count() as u64, share);
        }
    }
}
