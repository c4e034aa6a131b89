//! Blocks at odds with the tables, with the rules of reading, or with the length of any message.

use samples::{random_bytes, twist, Flow, Random};

/// Lengths around which a reader of blocks may go wrong, up to the longest.
const RISKY_LENGTHS: [usize; 12] = [
    51, 255, 256, 257, 4_095, 4_096, 4_097, 0x7FFF, 0x8000, 0xFFFD, 0xFFFE, 0xFFFF,
];

/// Made from a message that would be accepted.
pub fn hostile_block(mut message: Vec<u8>, flow: &Flow, random: &mut Random) -> Vec<u8> {
    match random.below(500) {
        0 => {
            let length = match random.below(3) {
                0 => random.place(0x1_0000),
                _ => *random.one_of(&RISKY_LENGTHS),
            };
            message.resize(length, random.byte());
        }
        1..=20 => message.clear(),
        21..=40 => {
            let length = random.place(2 * message.len());
            message.resize(length, random.byte());
        }
        41..=90 => message = random_bytes(random),
        _ => twist(&mut message, flow, random),
    }
    message
}
