//! The text fields: spaces, padding and the bytes next to the allowed ones, at every place.

use crate::messages::Checker;
use samples::{sample, Field, Layout, Rule, LAYOUTS};

/// The edges of the allowed bytes, which the rule tells apart.
const EDGES: [u8; 4] = [0x20, 0x21, 0x7E, 0x7F];

/// Bytes that must be refused or could be taken for others by their low bits.
const ODD: [u8; 10] = [0x00, 0x09, 0x1F, 0x20, 0x21, 0x7E, 0x7F, 0x80, 0xA0, 0xFF];

pub fn every_text(checker: &mut impl Checker) {
    checker.source("text fields");
    for layout in &LAYOUTS {
        for field in layout.fields().filter(|field| field.rule == Rule::Text) {
            paddings(checker, layout, field);
            pairs(checker, layout, field);
            edge_strings(checker, layout, field);
        }
    }
}

/// Every count of trailing spaces or NULs, with every byte at every place.
fn paddings(checker: &mut impl Checker, layout: &Layout, field: &Field) {
    for padding in [b' ', 0] {
        for visible in 0..=field.width {
            let mut message = sample(layout);
            let text = field.offset..field.offset + field.width;
            message[text.clone()].fill(b'Q');
            message[field.offset + visible..text.end].fill(padding);
            checker.check(&message);
            for place in text {
                let before = message[place];
                for byte in 0..=255 {
                    message[place] = byte;
                    checker.check(&message);
                }
                message[place] = before;
            }
        }
    }
}

/// Two odd bytes at any two places of a full text and of a padded one.
fn pairs(checker: &mut impl Checker, layout: &Layout, field: &Field) {
    for filling in [b'Q', b' '] {
        for first in 0..field.width {
            for second in first + 1..field.width {
                for (a, b) in ODD.iter().flat_map(|a| ODD.map(|b| (*a, b))) {
                    let mut message = sample(layout);
                    let text = &mut message[field.offset..field.offset + field.width];
                    text[1..].fill(filling);
                    text[first] = a;
                    text[second] = b;
                    checker.check(&message);
                }
            }
        }
    }
}

/// Every string of the edge bytes.
fn edge_strings(checker: &mut impl Checker, layout: &Layout, field: &Field) {
    let mut message = sample(layout);
    for code in 0..EDGES.len().pow(field.width as u32) {
        for place in 0..field.width {
            message[field.offset + place] = EDGES[code >> (2 * place) & 3];
        }
        checker.check(&message);
    }
}
