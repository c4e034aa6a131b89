//! Well-formed messages.

use crate::{Field, Layout, Random, Rule, DAY, MAXIMUM_PRICE};

/// A well-formed message that is always the same, with a different number in every field.
pub fn sample(layout: &Layout) -> Vec<u8> {
    // Bytes that differ by place show a field taken from a wrong one.
    let mut message: Vec<u8> = (0x80..).take(layout.length).collect();
    message[0] = layout.message_type;
    for field in layout.fields() {
        let offset = field.offset as u64;
        let number = match field.rule {
            Rule::Free => continue,
            Rule::Time => 34_200_123_456_789,
            Rule::Side => u64::from(b'S'),
            Rule::Printable => u64::from(b'N'),
            Rule::Text if field.width == 4 => u64::from(u32::from_be_bytes(*b"NSDQ")),
            Rule::Text => u64::from_be_bytes(*b"ZVZZT   "),
            Rule::Price => 1_000_000_000 + offset,
            Rule::Shares => 0x0102_0300 + offset,
        };
        field.set(&mut message, number);
    }
    message
}

/// The sample of a type with some fields set by their names.
pub fn sample_with(message_type: u8, sets: &[(&str, u64)]) -> Vec<u8> {
    let layout = Layout::of(message_type).expect("one of the 23");
    with(layout, sample(layout), sets)
}

/// A message of a type that is zero but for the fields set by their names.
pub fn bare_with(message_type: u8, sets: &[(&str, u64)]) -> Vec<u8> {
    let layout = Layout::of(message_type).expect("one of the 23");
    let mut message = vec![0; layout.length];
    message[0] = message_type;
    with(layout, message, sets)
}

pub(crate) fn with(layout: &Layout, mut message: Vec<u8>, sets: &[(&str, u64)]) -> Vec<u8> {
    for (name, number) in sets {
        let field = layout.field(name).expect("a field of the type");
        field.set(&mut message, *number);
    }
    message
}

/// A well-formed message with all fields random, the edges of their ranges included.
pub fn random_message(layout: &Layout, random: &mut Random) -> Vec<u8> {
    let mut message = vec![layout.message_type; layout.length];
    for field in layout.fields() {
        let number = random_number(field, random);
        field.set(&mut message, number);
    }
    message
}

/// A number that the field's rule allows.
fn random_number(field: &Field, random: &mut Random) -> u64 {
    let edge = random.below(8) == 0;
    match field.rule {
        Rule::Free if edge => *random.one_of(&[0, 1, field.largest()]),
        Rule::Free => random.number() & field.largest(),
        Rule::Time if edge => *random.one_of(&[0, DAY - 1]),
        Rule::Time => random.below(DAY),
        Rule::Side => u64::from(*random.one_of(b"BS")),
        Rule::Printable => u64::from(*random.one_of(b"YN")),
        Rule::Text => random_text(field.width, random),
        Rule::Price if edge => *random.one_of(&[0, MAXIMUM_PRICE]),
        Rule::Price => random.below(MAXIMUM_PRICE + 1),
        Rule::Shares if edge => *random.one_of(&[1, field.largest()]),
        Rule::Shares => 1 + random.below(field.largest()),
    }
}

/// A well-formed text of that width as a number.
pub fn random_text(width: usize, random: &mut Random) -> u64 {
    let visible = 1 + random.place(width);
    (0..width).fold(0, |text, place| {
        let byte = match place < visible {
            true if random.below(8) == 0 => *random.one_of(&[0x21, 0x7E]),
            true => 0x21 + random.below(0x7E - 0x21 + 1),
            false => 0x20,
        };
        (text << 8) | byte
    })
}
