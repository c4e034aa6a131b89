//! Every field has the name, the place and the number of document 000's tables, in the typed messages
//! and in the C header.

use ladlemoss::{Message, Refusal};
use samples::{random_message, sample, Layout, Random, LAYOUTS};
use std::collections::BTreeMap;
use std::fs;

/// A message's name and its fields by name, taken from how it shows itself.
fn shown(message: &Message) -> (String, Vec<(String, u64)>) {
    let text = format!("{message:?}");
    let inner = text.split_once('(').expect("a case of the enum").1;
    let (name, fields) = inner.split_once(" { ").expect("a struct");
    let fields = fields.trim_end_matches(" })").split(", ").map(|field| {
        let (name, value) = field.split_once(": ").expect("a field");
        let number = match value {
            "Buy" => u64::from(b'B'),
            "Sell" => u64::from(b'S'),
            _ => value.parse().expect("an integer"),
        };
        (name.to_string(), number)
    });
    (name.to_string(), fields.collect())
}

/// A name of the document as one of a program.
fn snake(name: &str) -> String {
    name.to_lowercase().replace([' ', '/'], "_")
}

/// A struct's name as the header writes it.
fn shout(name: &str) -> String {
    let mut shouted = String::new();
    for (place, letter) in name.char_indices() {
        if place > 0 && letter.is_uppercase() {
            shouted.push('_');
        }
        shouted.push(letter.to_ascii_uppercase());
    }
    shouted
}

fn agree(layout: &Layout, message: &[u8]) {
    let read = ladlemoss::read(message).expect("well formed");
    let expected = layout
        .fields()
        .map(|field| (snake(field.name), field.get(message)));
    assert_eq!(shown(&read).1, expected.collect::<Vec<_>>());
    assert_eq!(read.message_type(), layout.message_type);
    assert_eq!(read.numbers(), layout.values(message));
}

#[test]
fn every_field_stands_under_its_name() {
    let mut random = Random::new(11);
    for layout in &LAYOUTS {
        agree(layout, &sample(layout));
        for _ in 0..200 {
            agree(layout, &random_message(layout, &mut random));
        }
    }
}

/// The header's enumerators with their numbers.
fn header() -> BTreeMap<String, u8> {
    let path = concat!(env!("CARGO_MANIFEST_DIR"), "/../../include/ladlemoss.h");
    let text = fs::read_to_string(path).expect("the header");
    let entries = text.lines().filter_map(|line| {
        let (name, rest) = line.trim().split_once(" = ")?;
        let number = rest.split([',', ' ']).next()?.parse().ok()?;
        Some((name.strip_prefix("LADLEMOSS_")?.to_string(), number))
    });
    entries.collect()
}

#[test]
fn the_header_names_the_same_places() {
    let header = header();
    for layout in &LAYOUTS {
        let read = ladlemoss::read(&sample(layout)).expect("well formed");
        let message = shout(&shown(&read).0);
        for (field, place) in layout.own.iter().zip(4..) {
            let name = format!("{message}_{}", snake(field.name).to_uppercase());
            assert_eq!(header.get(&name), Some(&place), "{name}");
        }
    }
}

#[test]
fn the_header_names_the_refusals() {
    let header = header();
    let refusals = [
        Refusal::Length,
        Refusal::Type,
        Refusal::Time,
        Refusal::Field,
        Refusal::Price,
        Refusal::Shares,
        Refusal::Stock,
        Refusal::Conflict,
        Refusal::Duplicate,
        Refusal::NoOrder,
        Refusal::Over,
        Refusal::Full,
        Refusal::Book,
        Refusal::Shape,
    ];
    for (refusal, number) in refusals.into_iter().zip(1..) {
        assert_eq!(refusal.number(), number);
        let name = refusal.name().replace(' ', "_");
        assert_eq!(header.get(&name), Some(&number), "{name}");
    }
    assert_eq!(header.get("DONE"), Some(&0));
}
