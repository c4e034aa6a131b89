//! The ways to spoil a well-formed message, each with the number it must be refused with.

use crate::{Field, Layout, Random, Rule, DAY, MAXIMUM_PRICE};

/// One fault of a message.
#[derive(Clone, Copy, Debug)]
pub enum Fault {
    /// The last byte is missing.
    Cut,
    /// A byte stands after the last one.
    Lengthened,
    /// The first byte is none of the 23.
    Type(u8),
    /// A field holds a number that its rule forbids.
    Value(&'static Field, u64),
}

impl Fault {
    /// The number of the refusal that the fault alone leads to.
    pub fn number(&self) -> u8 {
        match self {
            Fault::Cut | Fault::Lengthened => 1,
            Fault::Type(_) => 2,
            Fault::Value(field, _) => field.rule.number().expect("a free field has no faults"),
        }
    }

    /// Puts the fault in; changes of the length must come last.
    pub fn put(&self, message: &mut Vec<u8>) {
        match *self {
            Fault::Cut => drop(message.pop()),
            Fault::Lengthened => message.push(b' '),
            Fault::Type(byte) => message[0] = byte,
            Fault::Value(field, number) => field.set(message, number),
        }
    }
}

/// All faults of a layout, those of the length last.
pub fn faults_of(layout: &Layout) -> Vec<Fault> {
    let mut faults = vec![Fault::Type(b'Z'), Fault::Type(layout.message_type ^ 0x80)];
    for field in layout.fields() {
        for number in forbidden(field) {
            faults.push(Fault::Value(field, number));
        }
    }
    faults.extend([Fault::Cut, Fault::Lengthened]);
    faults
}

/// Spoils a well-formed message with a random fault of that number, if the layout has one.
pub fn spoil(layout: &Layout, number: u8, message: &mut Vec<u8>, random: &mut Random) -> bool {
    let mut faults = faults_of(layout);
    faults.retain(|fault| fault.number() == number);
    if faults.is_empty() {
        return false;
    }
    random.one_of(&faults).put(message);
    true
}

/// Numbers that break the field's rule.
fn forbidden(field: &Field) -> Vec<u64> {
    let largest = field.largest();
    match field.rule {
        Rule::Free => vec![],
        Rule::Time => vec![DAY, DAY + 1, largest],
        Rule::Side => b"\0bsNYA \xFF".map(u64::from).to_vec(),
        Rule::Printable => b"\0ynBSA \xFF".map(u64::from).to_vec(),
        Rule::Text => {
            let texts: [&[u8; 8]; 8] = [
                b"        ",
                b" ZZT    ",
                b"Z T     ",
                b"ZVT\0\0\0\0\0",
                b"\x7FVZZT   ",
                b"ZVZ\x80T   ",
                b"Z \x1FZT   ",
                b"\0\0\0\0\0\0\0\0",
            ];
            let narrow = 64 - 8 * field.width;
            texts
                .map(|text| u64::from_be_bytes(*text) >> narrow)
                .to_vec()
        }
        Rule::Price => vec![MAXIMUM_PRICE + 1, 0x8000_0000, largest],
        Rule::Shares => vec![0],
    }
}
